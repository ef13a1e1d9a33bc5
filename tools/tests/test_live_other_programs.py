"""Tests of what tools/live says of other interfaces of a radio that are up, and of the programs that hold them."""
import contextlib
import io
import os
import shutil
from contextlib import ExitStack
from dataclasses import replace
from unittest import mock

from live import changes, checks, machine, other_programs, radio_report
from live.changes import Change
from live.faults import Fault
from live.machine import Interface
from live.settings import Settings
from live.ways import Way
from simulated_machines import SIMULATED, OnMachine


class OtherPrograms(OnMachine):
    """Whoever holds an interface, a start and `check-radio` name it, and say the same of it."""

    def setUp(self):
        super().setUp()
        self.up = {"wlan0": "phy9"}
        self.monitors, self.managed, self.text = set(), None, SIMULATED
        self.processes, self.units, radios = (self.path(name) for name in ("proc", "units", "ieee80211"))
        os.makedirs(os.path.join(radios, "phy9"))
        os.makedirs(self.processes)
        self.patch(
            (other_programs, "PROCESSES", self.processes), (other_programs, "UNITS", self.units),
            (other_programs.shutil, "which", lambda _: None if self.managed is None else "/usr/bin/nmcli"),
            (machine, "RADIOS", radios), (machine, "country", lambda: "DE"),
            (machine, "interfaces", lambda: [Interface(name) for name in sorted(self.up)]),
            (Interface, "radio", property(lambda one: self.up.get(one.name))),
            (Interface, "is_up", property(lambda one: one.name in self.up)),
            (Interface, "is_monitor", property(lambda one: one.name in self.monitors)),
            (changes, "RUN", self.folder), (checks, "this_kernel", lambda: (6, 1)),
            (radio_report, "this_kernel", lambda: (6, 1)))

    def run_command(self, *words):
        """What NetworkManager says of interfaces; where it doesn't run, it fails."""
        if "nmcli" in words:
            if not self.managed:
                raise Fault("Error: NetworkManager is not running.")
            return self.managed
        return self.text if words == ("iw", "phy", "phy9", "info") else super().run_command(*words)

    def process(self, number, program, *words):
        """A process of a program, begun with these words."""
        for name, text in (("comm", f"{program}\n"), ("cmdline", "\0".join((f"/usr/libexec/{program}", *words)) + "\0")):
            self.write(os.path.join(self.processes, str(number), name), text)

    def said(self):
        """What a start refuses with, and `check-radio` says that it is missing: the same."""
        with (self.assertRaises(Fault) as refused, ExitStack() as stack, contextlib.redirect_stderr(io.StringIO())):
            checks.check_radio(self.WANTED, self.SETTINGS, self.made, stack)
        (missing,), advice = radio_report.report("phy9", None)[1], str(refused.exception).partition(", which is up: ")[2]
        self.assertEqual(missing.partition(", another interface of this radio: ")[2], advice)
        return advice

    def test_nobody_is_known(self):
        """Then a person has to know who it was."""
        self.assertEqual(self.said(), "`ip link set wlan0 down`, and keep what has set it up away from the radio")

    def test_monitor(self):
        """One that is up is in the way as any other interface."""
        self.monitors.add("wlan0")
        self.assertEqual(self.said(), "end what captures by it, and then `ip link set wlan0 down`")

    def test_iwd(self):
        """It takes whole radios, so its option alone helps, also where NetworkManager is before it."""
        says = r"^iwd holds this radio: begin it with `--nophys phy9` \(docs/OPERATING.md, 'Programs that take radios'\)$"
        self.process(7, "iwd", "--debug")
        self.managed = "wlan0:disconnected\n"
        self.assertRegex(self.said(), says)
        for words, takes in ((("--nophys", "phy8"), True), (("--nophys", "phy1,phy9"), False), (("--nophys=phy*",), False),
                             (("-Pphy9",), False), (("-P", "phy9"), False), (("--phys", "phy1"), False),
                             (("-p", "phy9"), True), (("--phys=phy[0-9]",), True), (("-p", "phy9", "-P", "phy9"), False)):
            shutil.rmtree(os.path.join(self.processes, "7"))
            self.process(7, "iwd", *words)
            self.assertEqual("iwd" in self.said(), takes, words)

    def test_iwd_that_is_hidden(self):
        """Its unit has processes, and /proc shows none of them."""
        for text, takes in (("612\n", True), ("", False)):
            self.write(os.path.join(self.units, "iwd.service", "cgroup.procs"), text)
            self.assertEqual("iwd" in self.said(), takes)

    def test_network_manager(self):
        """It is asked whether it has this interface."""
        for managed, has in (("wlan0:disconnected\n", True), ("wlan1:connected\nwlan0:unmanaged\n", False),
                             ("wlan1:connected\n", False), ("", False)):
            self.managed = managed
            self.assertEqual("`nmcli device set wlan0 managed no`, and then" in self.said(), has, managed)

    def test_own_interfaces(self):
        """Those that an access point has made are told, and aren't in the way; of another radio none is."""
        self.up = {"mon0": "phy9", "mon0n1": "phy9", "mon0n2": "phy5"}
        for name in self.up:
            self.made.add(Change(changes.INTERFACE, name))
        lines, missing = radio_report.report("phy9", Way.MANAGED)
        self.assertEqual(missing, [])
        self.assertIn("tools/live has made mon0, mon0n1 on it", lines[-1])
        self.up["wlan0"] = "phy9"
        self.assertEqual([what.split()[0] for what in radio_report.report("phy9", None)[1]], ["wlan0"])

    def test_who_may_not_look(self):
        """The list of what was made is root's."""
        with (mock.patch("builtins.open", mock.Mock(side_effect=PermissionError(13, "Permission denied"))),
              self.assertRaisesRegex(Fault, r"phy9.made: Permission denied: run it as root \(sudo\)$")):
            changes.interfaces_made("phy9")

    def test_more_networks_while_it_runs(self):
        """The ways that don't hold them are left out, and come back with fewer networks; the one that is served has to
        hold them."""
        self.text = SIMULATED.replace("active monitor", "nothing").replace("managed, AP, mesh", "mesh").replace(
            "} <= 2048,", "} <= 9, #{ managed } <= 3, #{ AP } <= 1,")
        plan = checks.Plan(Settings(6, 100, self.SETTINGS.networks[:1]), (), ways=(Way.MANAGED, Way.ACCESS_POINTS))
        wanted = replace(self.WANTED, wires=())
        for count, ways in ((1, plan.ways), (2, (Way.MANAGED,)), (3, (Way.MANAGED,)), (1, plan.ways)):
            networks = (self.SETTINGS.networks * 2)[:count]
            with mock.patch.object(checks, "check_config", lambda *_, found=networks: Settings(6, 100, found)):
                plan = checks.check_again(wanted, plan)
            self.assertEqual((plan.ways, len(plan.settings.networks)), (ways, count))
        with (mock.patch.object(checks, "check_config", lambda *_: Settings(6, 100, self.SETTINGS.networks)),
              self.assertRaisesRegex(Fault, "it allows 1 of them beside a monitor interface, and 2 networks")):
            checks.check_again(wanted, replace(plan, ways=(Way.ACCESS_POINTS,)))
