"""Tests of tools/live that need neither a radio nor root: what a radio says that it can do, what is changed on the
machine and taken back, how the bridge is started, asked and ended, and what is said to a manager of services. The bridge,
tools/bridge, has tests of its own."""
import contextlib
import io
import json
import os
import pwd
import re
import shutil
import signal
import socket
import stat
import subprocess
import sys
import threading
import time
import unittest
from contextlib import ExitStack, suppress
from dataclasses import replace
from unittest import mock

from common import TOOLS, ToolTest, run_to_end, text_of, tool, wait_until
from configurations import ONE_NETWORK
from frames import address_of, address_text
from live import (asking, changes, checks, children, machine, recording, rights, running, serving, setting_up, showing,
                  state_files, telling, wires)
from live import bridge as bridge_of
from live import page as page_of
from live.bridge import Bridge, FaultCode, Signals, network_word, words_of
from live.changes import Change, Changes
from live.checks import (Plan, Wanted, check_bridge, check_config, check_left, check_names, check_program,
                         check_record, check_wires, read_wires, set_country)
from live.faults import Fault
from live.machine import Interface
from live.recording import make_record
from live.rights import Rights
from live.service import Service
from live.settings import Network, Settings, read_settings
from live.ways import Way
from simulated_machines import OTHER, OURS, OnMachine
from status import asking as asking_of_status
from status.endpoint import Endpoint
from statuses import document, network, only_known, station
from texts import read_text

STRANGER = address_of("02:bb:00:00:00:01")


def setUpModule():
    """Lines are told by the name of what is tested."""
    called_so = mock.patch.object(sys, "argv", ["tools/live"])
    called_so.start()
    unittest.addModuleCleanup(called_so.stop)


class Machine(OnMachine):
    """What is changed on the machine, and taken back."""

    def changed(self, *plans):
        """The commands by which one plan after the other is followed, and those that take all back; what was told."""
        with contextlib.redirect_stderr(io.StringIO()) as told:
            with ExitStack() as stack:
                setting = setting_up.SettingUp(self.WANTED, self.made, stack)
                for plan in plans:
                    setting.follow(plan)
                before = len(self.commands)
        return self.commands[:before], self.commands[before:], told.getvalue()

    def plan(self, bssids=(OURS, OTHER), wires=(), channel=6, ways=(Way.ACTIVE_MONITORS,)):
        """A plan of networks with these addresses."""
        networks = tuple(Network(bssid, b"\x82") for bssid in bssids)
        return Plan(Settings(channel, 100, networks), wires, ways=ways)

    def test_radio(self):
        """The channel is set while the monitor interface is alone; what was added is deleted, and nothing else."""
        made, taken_back, _ = self.changed(self.plan())
        self.assertEqual(made, self.RADIO)
        self.assertEqual(taken_back, ["iw dev mon0n2 del", "iw dev mon0n1 del", "iw dev mon0 del"])
        self.assertEqual(sorted(os.listdir(self.folder)), ["phy9.held", "phy9.lock"])

    def test_ways(self):
        """The interfaces of networks are of the kind that the plan names; each that isn't of that kind is set up anew."""
        kinds = {Way.MANAGED: "managed addr 02:00:00:00:01:01", Way.ACTIVE_MONITORS: "monitor addr 02:00:00:00:01:01 flags active"}
        for way, kind in kinds.items():
            made, _, _ = self.changed(self.plan((OURS,), ways=(way,)))
            self.assertEqual(made, [*self.MONITOR, f"iw phy phy9 interface add mon0n1 type {kind}", "ip link set mon0n1 up"])
            self.commands.clear()
        made, _, _ = self.changed(*(self.plan((OURS,), ways=(way,)) for way in kinds))
        self.assertEqual(made[9:12], ["iw dev mon0n1 del", "iw dev mon0 del", self.MONITOR[0]])

    def test_access_points(self):
        """The kernel's beacon is as rare as it allows, and of an address that no network has, those with the radio's own
        one included."""
        own = {OURS: "000000000101", address_of("02:00:00:00:00:00"): "020000000000"}
        for bssid, sender in own.items():
            with mock.patch.object(machine, "read_file", lambda *_, bssid=bssid: address_text(bssid)):
                made, taken_back, _ = self.changed(self.plan((OURS,), ways=(Way.ACCESS_POINTS,)))
            self.assertEqual(made[7:], [
                "iw phy phy9 interface add mon0n1 type __ap addr 02:00:00:00:01:01",
                "ip link set mon0n1 addrgenmode none", "ip link set mon0n1 up",
                "iw dev mon0n1 ap start waltigon 2437 10000 1 hidden-ssid head 80000000ffffffffffff"
                f"{sender}{sender}00000000000000000000" "1027" "0000" "0000" "010182"])
            self.assertEqual(taken_back, ["iw dev mon0n1 del", "iw dev mon0 del"])
            self.commands.clear()

    def test_another_channel_than_was_asked_for(self):
        """It is told, and what was set up is taken back; so it is where the kernel names none."""
        for said, says in (("channel 1 (2412 MHz), width: 20 MHz", "was set to 2437 MHz, and mon0 is on 2412 MHz"),
                           ("type monitor", "was set to 2437 MHz, and mon0 is on no channel")):
            self.channel = said
            with self.assertRaisesRegex(Fault, f"^phy9: .*{says}"):
                self.changed(self.plan())
            self.assertEqual(self.commands[-2:], ["iw dev mon0 info", "iw dev mon0 del"])

    def test_what_stays_is_left_alone(self):
        """A plan like the one before changes nothing; one with another network that one's interface alone."""
        made, taken_back, _ = self.changed(self.plan(), self.plan(), self.plan((OURS, STRANGER)), self.plan((OURS,)))
        self.assertEqual(made[len(self.RADIO):], [
            "iw dev mon0n2 del", "iw phy phy9 interface add mon0n2 type monitor addr 02:bb:00:00:00:01 flags active",
            "ip link set mon0n2 up", "iw dev mon0n2 del"])
        self.assertEqual(taken_back, ["iw dev mon0n1 del", "iw dev mon0 del"])

    def test_another_channel(self):
        """It can only be set while the monitor interface is alone: all of the radio is set up anew, and no wire is."""
        made, _, _ = self.changed(self.plan((OURS,), self.WIRES), self.plan((OURS,), self.WIRES, 11))
        self.assertEqual(made[13:], [
            "iw dev mon0n1 del", "iw dev mon0 del", *self.RADIO[:3], "iw dev mon0 set freq 2462", *self.RADIO[4:9]])

    def test_wires_that_change(self):
        """A wire that is given no more is taken back before another is set up."""
        self.changed(self.plan((OURS,), self.WIRES), self.plan((OURS,), ((OURS, "nowire2"),)))
        self.assertEqual(self.commands[13:16], [
            "ip link set nowire1 down", "ethtool -K nowire1 gro on", "ethtool -k nowire2"])

    def test_fault_in_the_middle(self):
        """What was done before it is taken back, where one of these fails too the others."""
        self.failing = "iw phy phy9 interface add mon0n2 type monitor addr 02:00:00:00:01:02 flags active"
        with self.assertRaisesRegex(Fault, "it failed"):
            self.changed(self.plan())
        self.assertEqual(self.commands[-2:], ["iw dev mon0n1 del", "iw dev mon0 del"])
        self.failing = "iw dev mon0n1 del"
        self.commands.clear()
        _, taken_back, told = self.changed(self.plan())
        self.assertEqual(taken_back[-1], "iw dev mon0 del")
        self.assertIn("live: not taken back: it failed\n", told)

    def test_wires(self):
        """What can be turned off is, and on again; a network without a wire, and an end elsewhere, are told."""
        made, taken_back, told = self.changed(self.plan(wires=self.WIRES))
        self.assertEqual(made[:4], ["ethtool -k nowire1", "ethtool -K nowire1 gro off", "ethtool -i nowire1",
                                    "ip link set nowire1 up"])
        self.assertEqual(taken_back[-2:], ["ip link set nowire1 down", "ethtool -K nowire1 gro on"])
        self.assertIn("the network 02:00:00:00:01:02 has no --wire", told)
        self.assertIn("`ethtool -K NAME tx off gso off tso off`", told)

    def test_country(self):
        """It is set, and set back in the end; where it holds already nothing is done, and where it doesn't come to hold
        that is told."""
        found = iter(("00", "00", "DE", "DE", "DE"))
        with mock.patch.object(machine, "country", lambda: next(found)):
            with ExitStack() as stack:
                set_country("DE", self.made, stack)
                self.assertEqual(self.commands, ["iw reg set DE"])
            self.assertEqual(self.commands, ["iw reg set DE", "iw reg set 00"])
            with ExitStack() as stack:
                set_country("DE", self.made, stack)
                set_country(None, self.made, stack)
        with (mock.patch.object(machine, "country", lambda: "00"), mock.patch.object(checks, "COUNTRY_SECONDS", 0.2),
              ExitStack() as stack, self.assertRaisesRegex(Fault, "^--country US: the kernel keeps to 00")):
            set_country("US", self.made, stack)
        self.assertEqual(self.commands[2:], ["iw reg set US", "iw reg set 00"])
        said = "global\ncountry DE: DFS-ETSI\n\t(2400 - 2483 @ 40)\n\nphy#0\ncountry US: DFS-FCC\n"
        with mock.patch.object(machine, "run", lambda *words: said):
            self.assertEqual(machine.country(), "DE")

    def start_with_country(self, phy, country):
        """The access point of a radio begins with this country: what it has changed, and what takes it back."""
        made, stack = Changes(phy, self.folder), ExitStack()
        self.addCleanup(made.close)
        stack.callback(made.close)
        set_country(country, made, stack)
        return made, stack

    def use_country(self, country):
        """The kernel keeps to the country that was set."""
        held = [country]

        def run(*words):
            if words[:3] == ("iw", "reg", "set"):
                held[0] = words[3]
            return self.run_command(*words)
        self.patch((machine, "run", run), (machine, "country", lambda: held[0]))

    def countries_of_two(self, first, second, is_first_kept):
        """The countries that hold where two radios begin, once one of them has ended, and once both have."""
        self.use_country("00")
        stacks = [self.start_with_country(phy, country)[1] for phy, country in (("phy0", first), ("phy1", second))]
        found = [machine.country()]
        for stack in reversed(stacks) if is_first_kept else stacks:
            stack.close()
            found.append(machine.country())
        self.assertEqual([name for name in os.listdir(self.folder) if name.endswith(".made")], [])
        return found

    def test_country_of_two_radios(self):
        """It stays as long as one of them serves by it, and the last one sets back what held before both."""
        for is_first_kept in (False, True):
            self.assertEqual(self.countries_of_two("DE", "DE", is_first_kept), ["DE", "DE", "00"])
        self.assertEqual(self.commands, ["iw reg set DE", "iw reg set 00"] * 2)

    def test_two_countries(self):
        """The one of who goes on holds then."""
        self.assertEqual(self.countries_of_two("DE", "US", False), ["US", "US", "00"])
        self.assertEqual(self.countries_of_two("DE", "US", True), ["US", "DE", "00"])

    def test_country_that_somebody_else_has_set(self):
        """It stays, whoever of the radios begins and ends."""
        self.use_country("DE")
        for phy in ("phy0", "phy1"):
            self.start_with_country(phy, "DE")[1].close()
        self.assertEqual(self.commands, [])

    def test_country_while_the_other_was_killed(self):
        """What that one left is taken back by its next start, but not while this one serves by it."""
        self.use_country("00")
        killed, _ = self.start_with_country("phy0", "DE")
        _, stack = self.start_with_country("phy1", "DE")
        killed.close()
        again = Changes("phy0", self.folder)
        self.addCleanup(again.close)
        with contextlib.redirect_stderr(io.StringIO()):
            again.take_back_left()
        self.assertEqual(self.commands, ["iw reg set DE"])
        stack.close()
        self.assertEqual(self.commands, ["iw reg set DE", "iw reg set 00"])

    def test_country_beside_an_earlier_version(self):
        """That one lists no more than what held before it: the country stays while it serves."""
        self.use_country("DE")
        self.write("phy0.made", json.dumps([[changes.COUNTRY, "00", []]]))
        self.start_with_country("phy1", "DE")[1].close()
        self.assertEqual(self.commands, [])
        self.write("phy0.made", "{")
        self.start_with_country("phy1", "US")[1].close()
        self.assertEqual(self.commands, ["iw reg set US", "iw reg set DE"])

    def test_network_manager(self):
        """It is told to leave these interfaces alone, and the radio's other ones, before one is made, and in the end no more;
        the file is there whether it runs or not."""
        path = setting_up.UNMANAGED.format("mon0")
        reloaded = mock.Mock(side_effect=lambda: self.commands.append(f"reload, {os.path.exists(path)}"))
        others = [mock.Mock(radio=radio) for radio in ("phy9", "phy5", "phy9")]
        for interface, name in zip(others, ("wlan3", "wlan5", "mon0n7")):
            interface.name = name
        written = []
        with (mock.patch.object(setting_up, "reload_network_manager", reloaded),
              mock.patch.object(changes, "reload_network_manager", reloaded),
              mock.patch.object(machine, "interfaces", lambda: others),
              mock.patch.object(setting_up.SettingUp, "tune", lambda *_: written.append(read_text(path)))):
            made, taken_back, _ = self.changed(self.plan())
        self.assertEqual((made[0], taken_back[-1]), ("reload, True", "reload, False"))
        self.assertEqual(written, ["[device-waltigon-mon0]\nmatch-device=interface-name:mon0*,interface-name:wlan3\n"
                                   "managed=0\n"])
        self.assertEqual(sorted(os.listdir(self.folder)), ["phy9.held", "phy9.lock"])

    def test_network_manager_without_a_place(self):
        """Where the file can't be written that is told, and stations are served all the same."""
        with mock.patch.object(setting_up, "UNMANAGED", self.path("phy9.lock", "{}.conf")):
            made, _, told = self.changed(self.plan())
        self.assertEqual(made, self.RADIO)
        self.assertIn("mon0.conf: File exists: NetworkManager may take the interfaces of this radio", told)

    def test_left(self):
        """What others made is told with the commands; other names are not looked at, nor what an earlier start left."""
        there = [Interface(name) for name in ("lo", "mon0", "mon0n1", "mon0n12", "mon0x", "mon01")]
        with mock.patch.object(machine, "interfaces", lambda: there):
            with self.assertRaisesRegex(Fault, "^mon0n1, mon0n12: there already.*"
                                               "`iw dev mon0n1 del; iw dev mon0n12 del`"):
                check_left(self.WANTED, ["mon0"])
            check_left(self.WANTED, ["mon0", "mon0n1", "mon0n12"])
        check_names(self.WANTED, 2)
        with self.assertRaisesRegex(Fault, "too long a name: a-long-monitorn2"):
            check_names(Wanted("", "", "", "phy9", "a-long-monitor", (), None, None), 2)


class KilledBefore(OnMachine):
    """What a start left that was killed, as the next one finds it."""

    RADIOS = {"mon0": "phy9", "mon0n1": "phy9", "mon0n2": "phy3", "nowire1": None}

    def kill(self, *made):
        """A start makes these changes and is killed; answers what the next one finds."""
        for change in made:
            self.made.add(change)
        self.made.close()
        again = Changes("phy9", self.folder)
        self.addCleanup(again.close)
        self.patch((Interface, "radio", property(lambda found: self.RADIOS.get(found.name))),
                   (Interface, "exists", property(lambda found: found.name in self.RADIOS)))
        self.addCleanup(setattr, self, "made", again)
        self.made = again
        return again

    def test_own_is_taken_back(self):
        """In reverse order, and what isn't there any more, or is another radio's, is left alone."""
        names = ("mon0", "mon0n1", "mon0n2", "mon0n3")
        again = self.kill(Change(changes.OFFLOADS, "nowire1", ("gro", "lro")), Change(changes.UP, "nowire1"),
                          Change(changes.UP, "nowire2"), *(Change(changes.INTERFACE, name) for name in names))
        self.assertEqual(again.left_interfaces(), ["mon0", "mon0n1"])
        with contextlib.redirect_stderr(io.StringIO()) as told:
            again.take_back_left()
        self.assertEqual(self.commands, ["iw dev mon0n1 del", "iw dev mon0 del", "ip link set nowire1 down",
                                         "ethtool -K nowire1 gro on lro on"])
        self.assertIn("was killed; taking back what it left: interface mon0n1, interface mon0, up nowire1", told.getvalue())
        self.assertEqual((again.left, os.path.exists(again.path)), ([], False))

    def test_country(self):
        """It is set back too."""
        with contextlib.redirect_stderr(io.StringIO()):
            self.kill(Change(changes.COUNTRY, "00")).take_back_left()
        self.assertEqual(self.commands, ["iw reg set 00"])

    def test_one_at_a_time(self):
        """While one runs, another is refused; once it has ended there is nothing to take back."""
        with self.assertRaisesRegex(Fault, "^phy9: another tools/live serves this radio$"):
            Changes("phy9", self.folder)
        Changes("phy8", self.folder).close()
        self.made.close()
        again = Changes("phy9", self.folder)
        self.assertEqual(again.left, [])
        self.made = again

    def test_file_that_is_no_list(self):
        """It is told, with what can be done."""
        self.made.close()
        for text in ("", "[1]", '{"a": 1}', '[["interface"]]'):
            self.write(self.made.path, text)
            with self.assertRaisesRegex(Fault, "take it away where no tools/live runs"):
                Changes("phy9", self.folder)


class HandedOn(OnMachine):
    """What a start leaves as it is set up, where it was asked to, and the next one goes on with."""

    WORDS = replace(OnMachine.WANTED, country="DE")

    def setUp(self):
        super().setUp()
        self.phys, self.addresses, self.up, self.joins, self.found_country = {}, {}, set(), True, "00"
        self.patch(
            (Interface, "radio", property(lambda one: self.phys.get(one.name))),
            (Interface, "is_up", property(lambda one: one.name in self.up)),
            (Interface, "exists", property(lambda one: one.name in self.phys or one.name == "nowire1")),
            (Interface, "address", property(lambda one: self.addresses.get(one.name))),
            (machine, "country", lambda: self.found_country), (machine, "radios", lambda: ["phy9"]),
            (machine, "interfaces", lambda: [Interface(name) for name in (*self.phys, "nowire1")]),
            (checks, "this_kernel", lambda: (6, 12)))

    def run_command(self, *words):
        """The machine is as the commands leave it."""
        match words:
            case ("iw", "reg", "set", country):
                self.found_country = country
            case ("iw", "phy", phy, "interface", "add", name, *more):
                self.phys[name] = phy
                self.addresses[name] = more[more.index("addr") + 1] if "addr" in more else None
            case ("iw", "dev", name, "del"):
                del self.phys[name]
                self.up.discard(name)
            case ("ip", "link", "set", name, "up"):
                self.up.add(name)
            case ("ip", "link", "set", name, "down"):
                self.up.remove(name)
            case ("ethtool", "-K", _, "gro", on):
                self.joins = on == "on"
        said = super().run_command(*words)
        return said if self.joins else said.replace("generic-receive-offload: on", "generic-receive-offload: off")

    def start(self, wanted, settings, wires=OnMachine.WIRES, hands_on=False):
        """A start sets all up and ends; what was done until its end and at its end, and what was told."""
        made = Changes("phy9", self.folder)
        self.made = made
        with contextlib.redirect_stderr(io.StringIO()) as told, ExitStack() as stack:
            stack.callback(made.close)
            ways = checks.check_radio(wanted, settings, made, stack)
            setting_up.SettingUp(wanted, made, stack).follow(Plan(settings, wires, ways=ways))
            done, self.commands = self.commands, []
            if hands_on:
                made.hand_on(checks.as_set_up(settings, Way.ACTIVE_MONITORS))
        ended, self.commands = self.commands, []
        return done, ended, told.getvalue()

    def hand_on(self):
        """A start leaves all as it is set up."""
        self.made.close()
        done, ended, _ = self.start(self.WORDS, self.SETTINGS, hands_on=True)
        self.assertEqual((done[1], done[-len(self.RADIO):]), ("iw reg set DE", self.RADIO))
        self.assertEqual(ended, [])

    def test_goes_on(self):
        """Nothing of the radio is set up anew, and all is taken back in the end, in reverse order."""
        self.hand_on()
        done, ended, told = self.start(self.WORDS, self.SETTINGS)
        self.assertEqual(done, ["iw phy phy9 info"] * 2 + ["ethtool -k nowire1", "ethtool -i nowire1"])
        self.assertEqual(ended, [
            "iw dev mon0n2 del", "iw dev mon0n1 del", "iw dev mon0 del", "ip link set nowire1 down",
            "ethtool -K nowire1 gro on", "iw reg set 00"])
        self.assertIn("going on with what the start before for phy9 has left: mon0, mon0n1, mon0n2", told)
        self.assertEqual(sorted(os.listdir(self.folder)), [".country", "phy9.held", "phy9.lock"])

    def test_goes_on_twice(self):
        """Each start may leave all for the next."""
        self.hand_on()
        done, ended, _ = self.start(self.WORDS, self.SETTINGS, hands_on=True)
        self.assertEqual((done[0], ended), ("iw phy phy9 info", []))
        self.assertEqual(self.start(self.WORDS, self.SETTINGS)[1][0], "iw dev mon0n2 del")

    def test_what_is_wanted_no_more_is_taken_back(self):
        """A wire that is given no more."""
        self.hand_on()
        done, ended, _ = self.start(self.WORDS, self.SETTINGS, wires=())
        self.assertEqual(done[2:], ["ip link set nowire1 down", "ethtool -K nowire1 gro on"])
        self.assertEqual(ended, ["iw dev mon0n2 del", "iw dev mon0n1 del", "iw dev mon0 del", "iw reg set 00"])

    def test_another_radio_than_it_would_be(self):
        """Where anything of it would be set up in another way, all is taken back, and set up anew."""
        one = self.SETTINGS.networks[:1]
        for wanted, settings, change in (
                (self.WORDS, replace(self.SETTINGS, channel=11), lambda: None),
                (self.WORDS, replace(self.SETTINGS, networks=one), lambda: None),
                (self.WORDS, replace(self.SETTINGS, networks=one + (Network(STRANGER, b"\x82"),)), lambda: None),
                (replace(self.WORDS, monitor="mon1"), self.SETTINGS, lambda: None),
                (self.WANTED, self.SETTINGS, lambda: None),
                (self.WORDS, self.SETTINGS, lambda: self.addresses.update(mon0n1="02:00:00:00:01:09")),
                (self.WORDS, self.SETTINGS, lambda: self.up.remove("mon0n2")),
                (self.WORDS, self.SETTINGS, lambda: setattr(self, "found_country", "US")),
                (replace(self.WORDS, way=Way.ACCESS_POINTS), self.SETTINGS, lambda: None),
                (self.WORDS, self.SETTINGS, lambda: self.write("phy9.stay", "1 2437\n")),
                (self.WORDS, self.SETTINGS, lambda: self.write("phy9.stay", "2 managed 2437\n")),
                (self.WORDS, self.SETTINGS, lambda: self.write("phy9.stay")),
                (self.WORDS, self.SETTINGS, lambda: os.unlink(self.path("phy9.stay")))):
            self.setUp()
            self.hand_on()
            change()
            done, ended, told = self.start(wanted, settings)
            self.assertIn("iw dev mon0 del", done)
            self.assertIn(f"iw phy phy9 interface add {wanted.monitor} type monitor flags control", done)
            self.assertIn(f"iw dev {wanted.monitor} del", ended)
            self.assertNotIn("going on with", told)
            self.assertRegex(told, "an earlier start for phy9 (was killed|left its radio set up in another way); taking back")
            self.assertEqual(sorted(os.listdir(self.folder)), [".country", "phy9.held", "phy9.lock"])

    def test_fault_before_it_is_set_up(self):
        """What was handed on is taken back where the next start ends before it goes on with it."""
        self.hand_on()
        made = Changes("phy9", self.folder)
        with contextlib.redirect_stderr(io.StringIO()), ExitStack() as stack:
            stack.callback(made.close)
            checks.check_radio(self.WORDS, self.SETTINGS, made, stack)
            self.commands.clear()
        self.assertEqual(self.commands[-6:], [
            "iw reg set 00", "iw dev mon0n2 del", "iw dev mon0n1 del", "iw dev mon0 del", "ip link set nowire1 down",
            "ethtool -K nowire1 gro on"])
        self.assertFalse(os.path.exists(made.path))


class Opened(str):
    """A socket of a wire, by its name; it is known whether it was closed."""

    is_closed = False

    def close(self):
        """It is closed."""
        self.is_closed = True


class WiresThatGo(OnMachine):
    """Wires that are missing, and come back; of the kernel's files about interfaces there are some of the test."""

    def setUp(self):
        super().setUp()
        self.interfaces = self.path("interfaces")
        self.opened = []
        self.patch((machine, "INTERFACES", self.interfaces), (wires, "open_wire", self.open),
                   (machine, "read_file", self.read_file))
        self.setting_up = setting_up.SettingUp(self.WANTED, self.made, ExitStack())
        self.wires = wires.Wires(self.setting_up)
        self.plan = Plan(self.SETTINGS, ((OTHER, "nowire1"),))
        os.makedirs(self.interfaces)

    def read_file(self, *path):
        """A file of an interface of the test; no other."""
        path = os.path.join(*path)
        if not path.startswith(self.interfaces) or not os.path.exists(path):
            return None
        return read_text(path).strip()

    def have(self, index, is_up=False):
        """There is the interface with this number."""
        for name, text in (("ifindex", str(index)), ("iflink", str(index)), ("type", "1"),
                           ("flags", "0x1003" if is_up else "0x1002")):
            self.write(os.path.join(self.interfaces, "nowire1", name), text)

    def open(self, name):
        """Opens nothing, and keeps the name."""
        self.opened.append(Opened(name))
        return self.opened[-1]

    def look(self):
        """What is opened, and told."""
        with contextlib.redirect_stderr(io.StringIO()) as told:
            return self.wires.look(), told.getvalue()

    def follow(self):
        """All is set up that is there."""
        with contextlib.redirect_stderr(io.StringIO()) as told:
            self.setting_up.follow(self.plan, checks.missing_wires(self.plan))
            return self.wires.open(self.plan), told.getvalue()

    def test_missing_at_the_start(self):
        """It is told once, and taken once it is there; what isn't fit for a wire is told too."""
        opened, told = self.follow()
        self.assertEqual(opened, {})
        self.assertIn("the network 02:00:00:00:01:02 has no wire until nowire1 serves it: nowire1: there is no such", told)
        self.assertEqual(self.look(), ({}, ""))
        self.have(7)
        with mock.patch.object(Interface, "users", ["br0"]):
            self.assertIn("serves br0", self.look()[1])
            self.assertEqual(self.look(), ({}, ""))
        before = len(self.commands)
        self.assertEqual(self.look()[0], {1: "nowire1"})
        self.assertIn("ip link set nowire1 up", self.commands[before:])
        self.assertFalse(self.wires.are_missing)
        self.assertEqual(self.look(), ({}, ""))

    def test_set_down_by_somebody(self):
        """It is taken again once whoever did so sets it up; nothing is set up anew."""
        self.have(7, True)
        self.assertEqual(self.follow()[0], {1: "nowire1"})
        made, before = list(self.made.made), len(self.commands)
        self.wires.went_down(1)
        self.have(7)
        opened, told = self.look()
        self.assertEqual(opened, {})
        self.assertIn("it is down", told)
        self.assertEqual(self.look(), ({}, ""))
        self.have(7, True)
        self.assertEqual(self.look(), ({1: "nowire1"}, ""))
        self.assertEqual((self.made.made, self.commands[before:]), (made, []))

    def test_kept_open(self):
        """A wire stays open from one bridge to the next, and is closed where it went down, is another interface or isn't
        wanted any more."""
        self.have(7, True)
        self.follow()
        self.assertEqual(self.follow()[0], {1: "nowire1"})
        self.assertEqual((len(self.opened), self.opened[0].is_closed), (1, False))
        self.have(8, True)
        self.assertEqual(self.follow()[0], {1: "nowire1"})
        self.assertEqual((len(self.opened), self.opened[0].is_closed), (2, True))
        self.wires.went_down(1)
        self.assertTrue(self.opened[1].is_closed)
        self.look()
        self.plan = Plan(self.SETTINGS, ())
        self.assertEqual(self.follow()[0], {})
        self.assertEqual([opened.is_closed for opened in self.opened], [True] * 3)
        self.wires.close()

    def test_another_index(self):
        """An interface of its name that is another one is set up anew, and of the one that is gone nothing is taken
        back."""
        self.have(7)
        self.follow()
        first = list(self.made.made)
        self.wires.went_down(1)
        self.have(8)
        before = len(self.commands)
        self.assertEqual(self.look()[0], {1: "nowire1"})
        again = self.commands[before:]
        self.assertIn("ethtool -K nowire1 gro off", again)
        self.assertFalse([words for words in again if words.endswith(("down", "gro on"))])
        self.assertEqual(sorted(map(str, self.made.made)), sorted(map(str, first)))
        before = len(self.commands)
        with contextlib.redirect_stderr(io.StringIO()):
            self.setting_up.take_down()
        self.assertEqual(self.commands[before:].count("ip link set nowire1 down"), 1)


class WithFiles(ToolTest):
    """A test with a configuration in its folder."""

    def setUp(self):
        super().setUp()
        self.config = self.write("radio.toml", ONE_NETWORK)

    def wanted(self, program, wires=()):
        """Words."""
        return Wanted(self.config, program, "bridge", "phy0", "mon0", tuple(wires), None, None)


class FilesAndPrograms(WithFiles):
    """What reads files and starts programs."""

    def test_settings(self):
        """Channel, frequency, interval, networks."""
        settings = read_settings(self.config)
        self.assertEqual((settings.channel, settings.frequency, settings.interval), (6, 2437, 100))
        self.assertEqual((settings.bssids, settings.networks[0].sending_rate), ((OURS,), 2))
        self.assertEqual(Settings(14, 100, ()).frequency, 2484)

    def test_faults_before_anything(self):
        """A program that isn't there, one that refuses the configuration, a record that is there."""
        with self.assertRaisesRegex(Fault, "make apctl"):
            check_program(self.path("apctl"))
        refusing = self.write("refusing", "#!/bin/sh\necho fault C4 >&2\nexit 1\n", 0o755)
        with self.assertRaisesRegex(Fault, "fault C4"):
            check_config(refusing, self.config)
        wanted = Wanted("", "", "", "phy0", "mon0", (), self.path("none", "record"), None)
        with self.assertRaisesRegex(Fault, "its folder isn't there"):
            check_record(wanted, read_settings(self.config))

    def test_configuration_that_takes_long(self):
        """To read and to explain one takes a bounded time: whoever reads it again has stations meanwhile."""
        refusing = self.write("refusing", "#!/bin/sh\necho fault C4 >&2\nexit 1\n", 0o755)
        slow = self.write("slow", "#!/bin/sh\nexec sleep 60\n", 0o755)
        began = time.monotonic()
        self.patch((checks, "PROGRAM_SECONDS", 0.2))
        with self.assertRaisesRegex(Fault, "radio.toml: the program hasn't read it within 0 seconds$"):
            check_config(slow, self.config)
        self.patch((checks, "PROGRAM_SECONDS", 60), (checks, "EXPLAIN_SECONDS", 0.2))
        fails = (mock.Mock(side_effect=fault) for fault in (RecursionError, MemoryError))
        for explain in (lambda *_: time.sleep(60), *fails):
            self.patch((checks, "explain_config", explain))
            with self.assertRaisesRegex(Fault, "radio.toml: fault C4\n`tools/explain --said 'fault C4' check .*`"):
                check_config(refusing, self.config)
        self.assertLess(time.monotonic() - began, 30)

    def test_explained_by_a_child(self):
        """A long text comes whole; where no child can begin nothing comes, and nothing is left open."""
        before = os.listdir("/proc/self/fd")
        text = "\udcff\u00e4\n" * 100_000
        self.assertEqual(children.text_of_child(lambda: text, 60), text)
        with mock.patch.object(os, "fork", side_effect=BlockingIOError):
            self.assertIsNone(children.text_of_child(lambda: text, 60))
        self.assertEqual(os.listdir("/proc/self/fd"), before)

    def test_record_that_run_does_not_read_whole(self):
        """It is told where `max_events` ends it; a record that is there is no fault."""
        wanted = Wanted("", "", "", "phy0", "mon0", (), self.config, None)
        with contextlib.redirect_stderr(io.StringIO()) as told:
            check_record(wanted, read_settings(self.config))
        self.assertIn("ends with 100 events of the network 02:00:00:00:01:01", told.getvalue())
        longest = self.write("longest.toml", ONE_NETWORK.replace("max_events = 100", "max_events = 1000000"))
        with contextlib.redirect_stderr(io.StringIO()) as told:
            check_record(wanted, read_settings(longest))
        self.assertEqual(told.getvalue(), "")

    def test_record_limit(self):
        """The bridge is told it, where there is one; without a record it is refused before all else."""
        plan = Plan(read_settings(self.config), ())
        for limit, said in ((None, []), (5000, ["--record-limit", "5000"])):
            wanted = replace(self.wanted("apctl"), record="a.trace", record_limit=limit)
            words = words_of(wanted, plan, 5, (6, "a.trace"), False, None)
            place = words.index("6:a.trace") + 1
            self.assertEqual(words[place:words.index("--network")], said)
        status, _, told = tool("live", self.config, "--phy", "phy0", "--record-limit", "5M")
        self.assertEqual(status, 2)
        self.assertIn("--record-limit says when a record ends: give --record too", told)

    def test_networks_that_relay(self):
        """The bridge is told which networks send on what their stations send to each other."""
        for relays, said in ((True, "true"), (False, "false")):
            network = Network(OURS, b"\x82", ssid=b"a", relays=relays)
            self.assertEqual(network_word(network, {OURS: "wire"}, {}).split("/")[-2:], [said, "wire"])
        for text, relays in ((ONE_NETWORK, True), (f"{ONE_NETWORK}relay = false\n", False)):
            settings = read_settings(self.write("a.toml", text))
            self.assertEqual([network.relays for network in settings.networks], [relays])

    def test_updates_of_wires(self):
        """The bridge is told where wires aren't to learn which stations join."""
        plan = Plan(read_settings(self.config), ())
        for tells, found in ((True, False), (False, True)):
            words = words_of(replace(self.wanted("apctl"), tells_wires=tells), plan, 5, None, False, None)
            self.assertEqual("--no-update" in words, found)

    def test_record_is_for_its_owner_alone(self):
        """Also where the mask would let others read it; where its name is there, whatever stands behind it, it is left
        alone, and the next number is taken."""
        path, before = self.path("today"), os.umask(0)
        self.addCleanup(os.umask, before)
        secret, folder = self.write("secret", "s"), self.path("folder")
        os.mkdir(folder)
        found = []
        for what in (None, lambda: os.symlink(secret, f"{path}.1"), lambda: os.symlink("nowhere", f"{path}.2"),
                     lambda: os.symlink(folder, f"{path}.3"), lambda: os.mkdir(f"{path}.4")):
            if what is not None:
                what()
            descriptor, name = make_record(path)
            self.addCleanup(os.close, descriptor)
            self.assertEqual(stat.S_IMODE(os.lstat(name).st_mode), 0o600)
            self.assertFalse(os.get_inheritable(descriptor))
            found.append(name)
            if name != path:
                os.unlink(name)
        self.assertEqual(found, [path, f"{path}.2", f"{path}.3", f"{path}.4", f"{path}.5"])
        self.assertEqual(os.listdir(folder), [])
        self.assertEqual(os.stat(secret).st_size, 1)
        with self.assertRaisesRegex(Fault, "^--record .*none/x: No such file or directory$"):
            make_record(self.path("none/x"))
        with mock.patch.object(recording, "MOST_RECORDS", 1), self.assertRaisesRegex(Fault, "1 files of this name"):
            make_record(path)

    def test_sizes(self):
        """Of octets, or of the units K, M and G."""
        for text, size in (("1", 1), ("500M", 500 << 20), ("20G", 20 << 30), ("7K", 7168)):
            self.assertEqual(recording.size_of(text), size)
        for text in ("", "0", "0M", "-1", "1T", "M", "1 M", "1.5G", "1m", "9" * 16, "9" * 15 + "G", "٣"):
            with self.assertRaises(ValueError, msg=text):
                recording.size_of(text)

    def test_wires_of_a_file(self):
        """A line each; what stands behind `#` is skipped, and what is no wire is told."""
        path = self.write("wires", "# wires\n\n02:00:00:00:01:01=eth1 # lab\n 02:00:00:00:01:02=eth2\n")
        self.assertEqual(read_wires(path), ((OURS, "eth1"), (OTHER, "eth2")))
        self.assertEqual(read_wires(None), ())
        for text in ("eth1\n", "02:00:00:00:01:01=\n", "02:00=eth1\n"):
            with self.assertRaisesRegex(Fault, "^--wires "):
                read_wires(self.write("wires", text))
        with self.assertRaisesRegex(Fault, "No such file"):
            read_wires(self.path("nothing"))

    def test_faults_of_wires(self):
        """A BSSID that isn't there, a network or an interface given twice, an interface that isn't one for this."""
        settings = read_settings(self.config)
        for given, says in (([(OTHER, "lo")], "no network"), ([(OURS, "lo"), (OURS, "eth9")], "two interfaces"),
                            ([(OURS, "a" * 16)], "no interface has such a name"),
                            ([(OURS, "../lo")], "no interface has such a name"),
                            ([(OURS, "lo")], "no interface of Ethernet")):
            with self.assertRaisesRegex(Fault, says):
                check_wires(self.wanted(""), settings, tuple(given))
        check_wires(self.wanted(""), settings, ((OURS, "later0"),))
        with self.assertRaisesRegex(Fault, "no such interface"):
            checks.check_wire(Interface("later0"))

    def test_words(self):
        """--help says what it is; wrong words are told, and a fault is one line and status 1."""
        self.assertIn("--phy", tool("live", "--help")[1])
        phy = [self.config, "--phy", "phy0"]
        for words in ([], [self.config], [*phy, "--wire", "x=y"], [*phy, "--tables", "0"], [*phy, "--idle", "-1"],
                      [*phy, "--country", "Germany"], [*phy, "--status", "70000"], ["kick"], ["kick", "x", "y"],
                      ["status", "more"], ["status", "--json", "--watch"], ["reload", "more"], [*phy, "--by", "cable"],
                      ["check-radio"], ["check-radio", "phy0", "phy1"], [*phy, "--status", "0.0.0.0:9617"],
                      [*phy, "--status", "9617", "--status-host", "a b"], [*phy, "--status-host", "ap1.example"],
                      [*phy, "--station-metrics"], [*phy, "--status", "9617", "--status-from", "192.0.2.1/24"]):
            self.assertEqual(tool("live", *words)[0], 2, words)
        status, said, told = tool("live", self.config, "--phy", "phy0", "--program", self.path("apctl"))
        self.assertEqual((status, said, len(told.splitlines())), (1, "", 1), told)
        for words, says in ((["status", "--phy", "no-such-radio"], "no-such-radio.sock: no bridge answers"),
                            (["check-radio", "no-such-radio"], "live: no-such-radio: there is no such radio")):
            self.refused("live", *words, says=says)


class Unit(WithFiles):
    """The unit file for systemd."""

    @unittest.skipUnless(shutil.which("systemd-analyze"), "systemd isn't there")
    def test_no_fault(self):
        """systemd finds nothing to say of it, where the command is there."""
        text = text_of("tools", "systemd", "waltigon@.service")
        self.assertEqual(text.count("/usr/local/sbin/waltigon-live"), 1)
        path = self.write("waltigon@phy0.service", text.replace("/usr/local/sbin/waltigon-live",
                                                                os.path.join(TOOLS, "live")))
        done = run_to_end(["systemd-analyze", "verify", "--man=no", path])
        self.assertEqual((done.returncode, done.stdout + done.stderr), (0, ""))

    def test_page_is_found(self):
        """What a page is asked for by is where the bridge listens."""
        self.assertEqual(asking.socket_path("phy0"), "/run/waltigon/phy0.sock")


class Asked(WithFiles):
    """The socket by which a bridge is asked."""

    def setUp(self):
        super().setUp()
        self.patch((changes, "RUN", self.folder))
        self.stack = self.enterContext(ExitStack())

    def answer(self, phy, text):
        """Answers one question, and gives what was asked."""
        listening = asking.listen(phy, os.getegid(), self.stack)
        asked = []

        def take():
            with suppress(BrokenPipeError, ConnectionResetError), listening.accept()[0] as client, \
                    client.makefile("rw") as file:
                asked.append(file.readline())
                file.write(text)
                file.flush()
        thread = threading.Thread(target=take)
        thread.start()
        self.addCleanup(thread.join)
        return asked

    def test_answers(self):
        """An answer is an object of JSON; an error is a fault, and so is what is no answer."""
        asked = self.answer("phy0", '{"kicked": true}\n')
        self.assertEqual(asking.ask(None, "kick a b"), {"kicked": True})
        self.assertEqual(asked, ["kick a b\n"])
        self.answer("phy1", json.dumps({"error": "no such station"}) + "\n")
        with self.assertRaisesRegex(Fault, "^no such station$"):
            asking.ask("phy1", "kick a b")
        self.answer("phy2", "")
        with self.assertRaisesRegex(Fault, "phy2.sock: no bridge answers"):
            asking.ask("phy2", "status")
        with self.assertRaisesRegex(Fault, "bridges run for phy0, phy1, phy2: say which by --phy"):
            asking.ask(None, "status")

    def test_what_a_bridge_never_answers(self):
        """What has no end isn't read on and on, what is no object is a fault, and no text reaches a terminal as it is."""
        self.answer("phy0", "x" * 3_000_000)
        with mock.patch.object(asking_of_status, "MOST_ANSWER", 1 << 20), self.assertRaisesRegex(Fault, "no bridge answers"):
            asking.ask("phy0", "status")
        self.answer("phy1", "[]\n")
        with self.assertRaisesRegex(Fault, "its answer is no object"):
            asking.ask("phy1", "status")
        self.answer("phy2", json.dumps({"error": "\x1b]0;x\x07no"}) + "\n")
        with self.assertRaisesRegex(Fault, r"^\\x1b\]0;x\\x07no$"):
            asking.ask("phy2", "status")

    def test_none_runs(self):
        """It is told; a socket that was left is made anew, and only root and the group that was given may ask."""
        with self.assertRaisesRegex(Fault, "no bridge runs"):
            asking.ask(None, "status")
        self.write("phy0.sock", "left")
        self.answer("phy0", "{}\n")
        found = os.stat(asking.socket_path("phy0"))
        self.assertEqual((found.st_mode & 0o777, found.st_gid), (0o660, os.getegid()))
        if os.geteuid() == 0:
            asking.listen("phy9", 12345, self.stack)
            self.assertEqual((os.stat(asking.socket_path("phy9")).st_gid, os.getegid()), (12345, 0))
        self.assertEqual(asking.ask("phy0", "status"), {})
        self.stack.close()
        self.assertEqual(os.listdir(self.folder), ["radio.toml"])


class RightsOfParts(WithFiles):
    """As whom the bridge and the program run, and what is told where the machine can't."""

    def rights(self, users=(), begins=True, landlock=True, **more):
        """The rights on such a machine, and what was told."""
        wanted = replace(self.wanted("apctl"), **more)
        nobody = pwd.getpwnam("nobody")

        def find(name):
            if name not in users:
                raise KeyError(name)
            return nobody
        with (mock.patch.object(rights.pwd, "getpwnam", find), mock.patch.object(rights, "begins", lambda *_: begins),
              mock.patch.object(rights, "has_landlock", lambda: landlock),
              contextlib.redirect_stderr(io.StringIO()) as told):
            return rights.rights_of(wanted), told.getvalue(), nobody

    def test_user(self):
        """Where the user is there nothing is told; the words of the command name it, and no group beside."""
        found, told, nobody = self.rights(["waltigon"])
        self.assertEqual((found, told), (Rights(nobody, True), ""))
        words = found.words()
        self.assertEqual(words[:4], ["setpriv", f"--reuid={nobody.pw_uid}", f"--regid={nobody.pw_gid}", "--clear-groups"])
        self.assertEqual(words[-2:], ["--no-new-privs", "--"])

    def test_what_the_machine_lacks_is_told_once(self):
        """No user, one who can't run the programs, and no Landlock: with what to do; `--as-root` says that it is wanted."""
        for machine_has, says in (({}, "there is no user waltigon, .*`useradd --system"),
                                  ({"users": ["waltigon"], "begins": False}, "can't run `bridge`: `chmod"),
                                  ({"users": ["waltigon"], "landlock": False}, "no Landlock")):
            found, told, _ = self.rights(**machine_has)
            self.assertRegex(told, f"^live: .*{says}.*--as-root says that it is wanted so\n$")
            self.assertEqual((found.user is None, found.has_bounds), ("landlock" not in machine_has, True))
        found, told, _ = self.rights(landlock=False, as_root=True)
        self.assertEqual((found, told, found.words()), (Rights(None, False), "", []))

    def test_user_of_the_page(self):
        """Where there is none the page is nobody's, which is told where one is wanted; without a page there is nothing."""
        nobody = pwd.getpwnam("nobody")
        for users, port, as_root, found, says in (
                ({"waltigon-status": "root"}, 9617, False, pwd.getpwnam("root"), "^$"), ({}, None, False, None, "^$"),
                ({}, 9617, False, nobody, "^live: there is no user waltigon-status, .*useradd.*wanted so\n$"),
                ({}, 9617, True, nobody, "^$")):
            real = pwd.getpwnam

            def find(name):
                if name.startswith("waltigon"):
                    name = users[name]
                return real(name)
            with (mock.patch.object(rights.pwd, "getpwnam", find), contextlib.redirect_stderr(io.StringIO()) as told):
                wanted = replace(self.wanted("apctl"), status=port, as_root=as_root)
                self.assertEqual(rights.page_user_of(wanted), found)
            self.assertRegex(told.getvalue(), says)

    def test_ended_as_its_user(self):
        """Where root may send no signals to others, it is sent as that user."""
        process, user, acted = mock.Mock(), pwd.getpwnam("nobody"), []
        process.send_signal.side_effect = [PermissionError, None]
        with mock.patch.object(rights.os, "seteuid", acted.append):
            rights.end(process, user, signal.SIGKILL)
        self.assertEqual((acted, process.send_signal.call_args.args), ([user.pw_uid, 0], (signal.SIGKILL,)))
        process.send_signal.side_effect = PermissionError
        with self.assertRaises(PermissionError):
            rights.end(process, None, signal.SIGKILL)

    def test_who_can_run_what(self):
        """It is tried as this user."""
        nobody = pwd.getpwnam("nobody")
        if os.geteuid() != 0:
            self.skipTest("only root can try as another user")
        self.assertTrue(rights.begins(["/bin/true", "x"], nobody))
        self.assertFalse(rights.begins(["/bin/false", "x"], nobody))
        refused = self.write("refused", "#!/bin/sh\nexit 2\n", 0o755)
        self.assertFalse(rights.begins([refused], nobody))
        os.chmod(self.folder, 0o755)
        self.assertTrue(rights.begins([refused], nobody))


class Told(WithFiles):
    """What is said to people, the journal, and a manager of services."""

    def test_levels(self):
        """A line has its level where standard error is the journal's, and else none."""
        with open(self.path("journal"), "w+", encoding="utf-8") as file:
            found = os.fstat(file.fileno())
            journal = f"{found.st_dev}:{found.st_ino}"
            for stream, wanted in ((journal, "<4>live: hello\n<4>you\n"), ("1:2", "live: hello\nyou\n")):
                file.seek(0)
                file.truncate()
                with mock.patch.dict(os.environ, {"JOURNAL_STREAM": stream}), mock.patch("sys.stderr", file):
                    telling.tell("hello\nyou", telling.WARNING)
                file.seek(0)
                self.assertEqual(file.read(), wanted)

    def service(self, **more):
        """A manager of services, as a socket, and what speaks to it."""
        path = self.path("notify")
        manager = socket.socket(socket.AF_UNIX, socket.SOCK_DGRAM)
        self.addCleanup(manager.close)
        manager.bind(path)
        with mock.patch.dict(os.environ, {"NOTIFY_SOCKET": path, **more}):
            return manager, Service()

    def test_service(self):
        """It is told that stations are served, and that all is well where it watches."""
        manager, service = self.service(WATCHDOG_USEC="1000000", WATCHDOG_PID=str(os.getpid()))
        service.ready("3 networks")
        service.alive()
        service.stopping()
        told = [manager.recv(100) for _ in range(3)]
        self.assertEqual(told, [b"READY=1\nSTATUS=3 networks", b"WATCHDOG=1", b"STOPPING=1"])
        service.reloading()
        self.assertRegex(manager.recv(100), rb"^RELOADING=1\nMONOTONIC_USEC=\d+$")

    def test_no_watchdog(self):
        """Where it watches another process, or nothing started this, it is told nothing."""
        manager, service = self.service(WATCHDOG_USEC="1000000", WATCHDOG_PID="1")
        service.alive()
        manager.setblocking(False)
        with self.assertRaises(BlockingIOError):
            manager.recv(100)
        with mock.patch.dict(os.environ):
            os.environ.pop("NOTIFY_SOCKET", None)
            Service().ready("nobody hears it")


# A bridge in place of the compiled one: it tells what a test wants, and writes what it was asked. Where the file `fails`
# is there, it doesn't begin.
BRIDGE = """#!/bin/bash
[ ! -e {folder}/fails ] || {{ echo "fault 3 it doesn't begin"; exit 1; }}
echo "$*" > {folder}/words
echo ready
while read -r request; do
    echo "$request" >> {folder}/asked
    {does}
done
echo status {status}
{after}
"""

SENDS = "[ \"$request\" = open ] && echo sending; [ \"$request\" = 'dismiss 0' ] && echo dismissed"


class WhatStays(WithFiles):
    """What a bridge leaves for the next one, and whose stations stay."""

    def test_files(self):
        """They are their owner's alone, keep what a killed start left, and go in the end."""
        left = self.write("phy0.state.0", "left", 0o644)
        with mock.patch.object(changes, "RUN", self.folder), ExitStack() as stack:
            files = state_files.StateFiles("phy0", stack)
            self.assertEqual([stat.S_IMODE(os.stat(path).st_mode) for path in files.paths], [0o600] * 2)
            self.assertEqual(os.read(files.descriptors[0], 9), b"left")
            os.write(files.descriptors[1], b"more")
        self.assertFalse(os.path.exists(left) or os.path.exists(files.paths[1]))

    def test_link(self):
        """What somebody else has put there is not followed."""
        os.symlink(self.write("other", "other"), self.path("phy0.state.1"))
        with mock.patch.object(changes, "RUN", self.folder), ExitStack() as stack:
            with self.assertRaisesRegex(Fault, "phy0.state.1: Too many levels of symbolic links"):
                state_files.StateFiles("phy0", stack)

    def test_changed_networks(self):
        """Of those that are gone, or are others to their stations."""
        one, two = Network(OURS, b"\x82", ssid=b"a"), Network(OTHER, b"\x82", ssid=b"b")
        before = Plan(Settings(6, 100, (one, two)), ())
        for networks, wanted in (((one, two), []), ((two, one), []), ((one,), [1]), ((), [0, 1]),
                                 ((replace(one, ssid=b"c"), two), [0]), ((one, replace(two, rates=b"\x84")), [1]),
                                 ((replace(one, max_known=9, max_stations=3, max_events=5), two), [])):
            after = Plan(Settings(6, 100, networks), ((OURS, "wire1"),))
            self.assertEqual(state_files.changed_networks(before, after), wanted, networks)
        for settings in (Settings(7, 100, (one, two)), Settings(6, 99, (one, two))):
            self.assertEqual(state_files.changed_networks(before, Plan(settings, ())), [0, 1])


class Reloaded(WithFiles):
    """The word `reload`, and what an access point that runs tells of itself for it."""

    def setUp(self):
        super().setUp()
        self.stack = self.enterContext(ExitStack())
        self.patch((changes, "RUN", self.folder))
        self.program = self.write("apctl", "#!/bin/sh\ngrep -q 'channel = 6$' $2 || { echo 'fault C4' >&2; exit 1; }\n",
                                  0o755)
        self.wanted = Wanted(self.config, self.program, "bridge", "phy0", "mon0", (), None, None)
        self.asked = []

    def run_with(self, fault=None):
        """An access point runs that answers the signal so."""
        told = running.RunFile(self.wanted, self.stack)
        self.stack.callback(signal.signal, signal.SIGHUP, signal.getsignal(signal.SIGHUP))

        def reload(*_):
            self.asked.append("reload")
            threading.Timer(0.2, told.reloaded, (fault,)).start()
        signal.signal(signal.SIGHUP, reload)
        return told

    def test_served(self):
        """It is asked, and what came of it is told."""
        told = self.run_with()
        self.assertEqual(stat.S_IMODE(os.stat(told.path).st_mode), 0o600)
        self.assertEqual(running.reload_running("phy0"), f"{os.path.realpath(self.config)} was read again, and is served")
        self.assertEqual(running.read_run("phy0")["reloads"], 1)
        self.stack.close()
        self.assertFalse(os.path.exists(told.path))

    def test_fault_of_the_configuration(self):
        """It is told in the words of `explain`, and the access point isn't asked."""
        self.run_with()
        self.write("radio.toml", ONE_NETWORK.replace("channel = 6", "channel = 66"))
        with self.assertRaisesRegex(Fault, "fault C4\n.*channel"):
            running.reload_running("phy0")
        self.assertEqual(self.asked, [])

    def test_refused(self):
        """What the access point refuses is told."""
        self.run_with("phy0: this radio allows 2 interfaces")
        with self.assertRaisesRegex(Fault, "all stays as it is: phy0: this radio allows 2 interfaces"):
            running.reload_running("phy0")

    def test_another_process_has_its_number(self):
        """It is sent no signal."""
        told = self.run_with()
        found = json.loads(read_text(told.path))
        self.write("phy0.run", json.dumps({**found, "started": found["started"] - 1}))
        with self.assertRaisesRegex(Fault, "phy0: no access point runs"):
            running.reload_running("phy0")
        self.assertEqual(self.asked, [])

    def test_none_runs(self):
        """There is no file, it isn't whole, or its process has ended."""
        ended = subprocess.Popen(["true"])
        ended.wait()
        for text in (None, "{", "{}", json.dumps({"pid": ended.pid})):
            if text is not None:
                self.write("phy0.run", text)
            with self.assertRaisesRegex(Fault, "phy0: no access point runs that .*phy0.run tells of"):
                running.reload_running("phy0")


class Shown(unittest.TestCase):
    """The status in columns."""

    DOCUMENT = document(
        network(1, b"guests", [station(1), station(12, dozes=True, kept=3, octets_to=1_234_567, signal=None),
                               only_known(3)]),
        network(2, b"", counts=None, wire=None, wire_down=65.0),
        faults=[{"seconds": 3725, "text": "fault memory line 7 network 02:00:00:00:01:02"}])

    def test_columns(self):
        """Networks and their stations, each column below its head."""
        lines = showing.text_of(self.DOCUMENT).splitlines()
        self.assertEqual(lines[0], "phy0, channel 6, for 0:00:12, of e4965d3; 1234 beacons, 7.9 ms late at worst, 0 missed")
        self.assertEqual(lines[2], '02:00:00:00:01:01 guests: 3 stations, wire wire1, 1 kept, 2 lost, 3 unread')
        self.assertEqual(lines[3:7], [
            "  address            state          aid  mode      since  heard   signal  Mb/s to  from     sent  received  kept",
            "  02:aa:00:00:00:01  associated       1  active  0:01:42  0.2 s  -30 dBm       54   5.5  10.2 kB      9 kB     0",
            "  02:aa:00:00:00:0c  associated      12  dozes   0:01:42  0.2 s        -       54   5.5  1.23 MB      9 kB     3",
            "  02:aa:00:00:00:03  authenticated    -  -       0:01:42  0.2 s        -        -     -      0 B       0 B     -"])
        self.assertEqual(lines[8], "02:00:00:00:01:02 (no name): 0 stations, wire none, down for 0:01:05")
        self.assertEqual(lines[10], "1:02:05 ago: fault memory line 7 network 02:00:00:00:01:02")

    def test_stations_that_are_not_listed(self):
        """They are counted."""
        told = document(network(1, b"guests", [station(1)], known=2007, associated=2007, dozing=0))
        self.assertIn("guests: 2007 stations, 1 of them listed, wire wire1", showing.text_of(told))

    def test_who_holds_most_of_a_quota(self):
        """From half of it on."""
        for kept, said in ((249, ""), (250, ", 250 of its quota of 500 kept for 02:aa:00:00:00:01")):
            holder = {"address": "02:aa:00:00:00:01", "kept": kept, "listen": 65535}
            told = document(network(1, b"guests", quota=500, holder=holder))
            self.assertEqual(showing.text_of(told).splitlines()[2].partition("unread")[2], said)

    def test_radio(self):
        """By which interfaces it acknowledges, and what keeps stations from all networks."""
        told = {**self.DOCUMENT, "by": "active-monitors",
                "radio": {"down": None, "unsent": 7.2, "elsewhere": 2412, "heard_elsewhere": 3}}
        lines = showing.text_of(told).splitlines()
        self.assertTrue(lines[0].startswith("phy0, channel 6 by active monitors, for 0:00:12"))
        self.assertEqual(lines[1:3], ["the radio has told no beacon as sent for 0:00:07", "the radio is on 2412 MHz"])
        told["radio"] = {"down": 61, "unsent": None, "elsewhere": None, "heard_elsewhere": 0}
        self.assertEqual(showing.text_of(told).splitlines()[1:3], ["the monitor interface is down for 0:01:01", ""])

    def test_record(self):
        """Why it has ended."""
        for record, wanted in ((None, ""), ({"octets": 7, "fault": None}, ""),
                               ({"octets": 7, "fault": "the limit of 7 octets is reached"},
                                "the record ended: the limit of 7 octets is reached")):
            self.assertEqual(showing.text_of({**self.DOCUMENT, "record": record}).splitlines()[1], wanted)

    def test_terminal(self):
        """What a bridge tells moves nothing there, whatever it is."""
        told = document(network(1, b"guests", [station(1, address="\x1b[2J\u202e")], wire="\x9b1m"),
                        version="\x1b]52;c;eA==\x07", faults=[{"seconds": 1, "text": "a\nb\r\x1b[A"}])
        text = showing.text_of(told)
        self.assertTrue(all(line.isprintable() for line in text.split("\n")))
        self.assertIn("0:00:01 ago: a\\x0ab\\x0d\\x1b[A", text)

    def test_watched(self):
        """Each second until Ctrl-C, also while nobody answers."""
        answers = [self.DOCUMENT, Fault("no bridge answers"), KeyboardInterrupt()]
        told = io.StringIO()
        with (mock.patch.object(showing, "ask", side_effect=answers), mock.patch.object(showing, "WATCH_SECONDS", 0),
              contextlib.redirect_stdout(told)):
            showing.show_status(None, True)
        self.assertEqual(told.getvalue().split(showing.CLEAR)[1:],
                         [showing.text_of(self.DOCUMENT) + "\n", "no bridge answers\n"])


class Running(WithFiles):
    """A bridge of a few lines, started and ended as the compiled one is."""

    def setUp(self):
        super().setUp()
        self.stack = self.enterContext(ExitStack())
        for number in (signal.SIGINT, signal.SIGTERM, signal.SIGHUP, signal.SIGUSR1):
            self.stack.callback(signal.signal, number, signal.getsignal(number))
        self.told = self.stack.enter_context(contextlib.redirect_stderr(io.StringIO()))

    def run_bridge(self, later=lambda: None, tables=None, does=SENDS, status=0, after="true", port=None,
                   hosts=(), sources=(), ways=(Way.ACTIVE_MONITORS,)):
        """Runs it; `later` is called by another thread after a while. Of the machine nothing is changed: what is set up
        is only kept."""
        path = self.write("bridge", BRIDGE.format(folder=self.folder, does=does, status=status, after=after), 0o755)
        wires = ((OURS, "wire1"),)
        wanted = Wanted(self.config, "apctl", path, "phy0", "mon0", wires, self.path("a.trace"), tables,
                        status=Endpoint(port, names=hosts, sources=sources) if port else None,
                        station_metrics=bool(hosts))
        self.followed, self.outcomes = [], []
        setting_up = mock.Mock(follow=lambda plan, missing: self.followed.append(plan), radio_interfaces=lambda: [])
        with ExitStack() as stack:
            for where, name, value in (
                    (changes, "RUN", self.folder), (serving, "page_user_of", lambda _: None),
                    (serving, "check_rights", mock.Mock()), (serving, "SettingUp", lambda *_: setting_up),
                    (serving, "rights_of", lambda _: Rights()), (serving, "open_radio", lambda _: []),
                    (serving, "Wires", lambda _: mock.Mock(are_missing=False, open=lambda plan: {})),
                    (serving, "check", lambda *_: Plan(read_settings(self.config), wires, ways=ways)),
                    (serving, "check_again", lambda _, before: self.check_again(before))):
                stack.enter_context(mock.patch.object(where, name, value))
            stack.enter_context(mock.patch.object(running.RunFile, "reloaded", lambda _, fault: self.outcomes.append(fault)))
            timer = threading.Timer(0.5, later)
            timer.start()
            try:
                serving.serve(wanted)
            finally:
                timer.join()

    def check_again(self, before):
        """The configuration is read again: where it isn't one that is a fault."""
        return replace(before, settings=read_settings(self.config))

    def end_once(self, is_so):
        """Ends it once something is so, or after some seconds."""
        wait_until(is_so)
        self.end()

    def end_once_told(self, text):
        """Ends it once this was told, or after some seconds."""
        self.end_once(lambda: text in self.told.getvalue())

    def end_once_there(self, name):
        """Ends it once this file is there, or after some seconds."""
        self.end_once(lambda: os.path.exists(self.path(name)))

    def times_asked(self, request):
        """How often the bridge was asked for this so far."""
        return self.read("asked").count(f"{request}\n") if os.path.exists(self.path("asked")) else 0

    def end(self):
        """Ends it as a person does."""
        os.kill(os.getpid(), signal.SIGINT)

    def reload_with(self, name, text=""):
        """Runs it; a file is written, the configuration is read again, and a while later all ends."""
        def later():
            self.write(name, text)
            os.kill(os.getpid(), signal.SIGHUP)
            time.sleep(0.8)
            self.end()
        self.run_bridge(later)

    def once(self, name, does):
        """What a bridge does as this is called for the first time, and no more."""
        return f"[ -e {self.folder}/{name} ] || {{ touch {self.folder}/{name}; {does}; }}"

    def left(self):
        """The files of the radio that are there."""
        return sorted(name for name in os.listdir(self.folder) if name.startswith("phy0."))

    def test_runs_and_ends_by_a_signal(self):
        """It is told what there is, signals are passed on, and what it tells is told."""
        def later():
            os.kill(os.getpid(), signal.SIGUSR1)
            time.sleep(0.5)
            self.end()
        self.run_bridge(later)
        self.assertRegex(self.read("words"),
                         "^--name live --phy phy0 --channel 6 --monitor mon0 --interval 100 --by active-monitors --idle 300 --socket [0-9]+ "
                         f"--record [0-9]+:{self.path('a.trace')} --bounds [0-9]+ --network "
                         f"02:00:00:00:01:01/6c6162/82840b16/8/16/8/1/true/wire1 apctl {self.config}\n$")
        self.assertEqual(self.read("asked"), "state\nopen\ntables\n")
        self.assertRegex(self.told.getvalue(), "^live: 1 networks are on channel 6, by active monitor interfaces; Ctrl-C ends it, .*\nlive: the program "
                                               "ended with status 0; taking down what was set up\n$")
        self.assertEqual(len(self.followed), 1)
        self.assertEqual(self.left(), ["phy0.held", "phy0.lock"])

    def test_ends_for_the_next_start(self):
        """Where PHY.stay is there what it set up is left, with the state of stations; the next start takes that file away."""
        def later():
            self.write("phy0.stay", "")
            self.end()
        self.run_bridge(later)
        self.assertIn("; all stays as it is set up, for the next start\n", self.told.getvalue())
        self.assertEqual(self.read("phy0.stay"), "2 active-monitors 2437\n")
        self.assertEqual(self.left(), ["phy0.held", "phy0.lock", "phy0.state.0", "phy0.state.1", "phy0.stay"])
        self.run_bridge(self.end)
        self.assertEqual(self.left(), ["phy0.held", "phy0.lock"])

    def test_ends_by_a_fault(self):
        """Then all is taken down, whoever asks for what."""
        self.write("phy0.stay", "")
        with self.assertRaisesRegex(Fault, "it broke"):
            self.run_bridge(lambda: self.write("phy0.stay", ""), does="[ $request != open ] || { sleep 1; break; }",
                            after="echo 'fault 1 it broke'; exit 1")
        self.assertEqual(self.read("phy0.stay"), "")
        self.assertNotIn("phy0.state.0", os.listdir(self.folder))

    def test_reload(self):
        """By SIGHUP another bridge is started, stations of what is another network now are told to join again, and what
        is set up follows."""
        self.reload_with("radio.toml", ONE_NETWORK.replace("channel = 6", "channel = 11"))
        self.assertEqual(self.read("asked"), "state\nopen\ndismiss 0\nstate\nopen\n")
        self.assertEqual([plan.settings.channel for plan in self.followed], [6, 11])
        told = self.told.getvalue()
        for text in ("reading ", "ended with status 0; it begins anew", "1 networks are on channel 11", "taking down"):
            self.assertIn(text, told)

    def test_reload_that_changes_nothing_for_stations(self):
        """Nobody is told to join again."""
        self.reload_with("radio.toml", ONE_NETWORK.replace("quota = 8", "quota = 9"))
        self.assertEqual(self.read("asked"), "state\nopen\nstate\nopen\n")
        self.assertEqual(self.outcomes, [None])
        self.assertIn(" --sends ", self.read("words"))

    def test_watchdog_while_a_reload_waits(self):
        """A manager of services that hears nothing for some seconds would end all: it is told again and again that all
        is well, while stations are told to join again and while the bridge before ends."""
        told, words = [], {"NOTIFY_SOCKET": self.path("notify"), "WATCHDOG_USEC": "1", "WATCHDOG_PID": str(os.getpid())}
        dismisses = "[ \"$request\" != 'dismiss 0' ] || { sleep 1; echo dismissed; }"
        does = f"[ \"$request\" != open ] || {{ echo sending; }}; {dismisses}"
        self.patch((bridge_of, "MEANWHILE_SECONDS", 0.05))
        with socket.socket(socket.AF_UNIX, socket.SOCK_DGRAM) as manager, mock.patch.dict(os.environ, words):
            manager.bind(self.path("notify"))
            hears = threading.Thread(target=lambda: told.extend(iter(lambda: manager.recv(200), b"end")))
            hears.start()
            try:
                self.run_bridge(self.reload_and_end, does=does, after=self.once("third", "sleep 1"))
            finally:
                manager.sendto(b"end", self.path("notify"))
                hears.join()
        self.assertEqual(self.outcomes, [None])
        begins, ends = (next(place for place, line in enumerate(told) if line.startswith(word)) for word in (
            b"RELOADING=1", b"STOPPING=1"))
        self.assertGreater(told[begins:ends].count(b"WATCHDOG=1"), 10)

    def reload_and_end(self):
        """The configuration is another one, and is read again; then all ends."""
        self.write("radio.toml", ONE_NETWORK.replace("channel = 6", "channel = 11"))
        os.kill(os.getpid(), signal.SIGHUP)
        self.end_once(lambda: self.outcomes)

    def test_reloads_leave_no_descriptors(self):
        """However often the configuration is read again, as many are open as before."""
        self.assertEqual(self.reload_four_times(), [None] * 4)

    def test_reloads_that_fail_leave_no_descriptors(self):
        """Nor where the program doesn't begin with it, or the bridge can't be run."""
        found = self.reload_four_times(lambda: self.write("fails", ""))
        self.assertEqual(found, [None] + ["it doesn't begin"] * 3)
        os.unlink(self.path("fails"))
        found = self.reload_four_times(lambda: os.chmod(self.path("bridge"), 0o600))
        self.assertEqual(found[:1], [None])
        self.assertTrue(all(found[1:]))

    def reload_four_times(self, before_second=lambda: None):
        """What comes of four reloads; as many descriptors are open before each. This is done before the second."""
        opened = []

        def later():
            for turn in range(4):
                if turn == 1:
                    before_second()
                time.sleep(0.2)
                opened.append(len(os.listdir("/proc/self/fd")))
                os.kill(os.getpid(), signal.SIGHUP)
                wait_until(lambda turn=turn: len(self.outcomes) > turn)
            self.end()
        self.run_bridge(later)
        self.assertEqual(opened, opened[:1] * 4)
        return self.outcomes

    def opened_as_it_crashes(self, crash, after="true"):
        """How many descriptors are open while each of four bridges serves, of which three end by this."""
        opened, told_before = [], self.told.getvalue().count("networks are on channel")

        def later():
            for turn in range(4):
                wait_until(lambda turn=turn: self.told.getvalue().count("networks are on channel") - told_before > turn)
                opened.append(len(os.listdir("/proc/self/fd")))
                if turn < 3:
                    crash()
            self.end()
        begins = f"[ $request != open ] || {{ echo $$ > {self.folder}/pid; echo sending; }}"
        does = f"{begins}; [ $request != tables ] || break"
        with mock.patch.object(serving, "EARLY_SECONDS", 0):
            self.run_bridge(later, does=does, after=after)
        return opened

    def test_crashes_leave_no_descriptors(self):
        """However often the bridge is killed, or its program ends, as many are open as before."""
        program_ends = "[ \"$request\" != tables ] || { echo 'fault 4 the program ended by itself'; exit 1; }"
        for crash, after, cause in (
                (lambda: os.kill(int(self.read("pid")), signal.SIGKILL), "true", "the bridge ended by itself"),
                (lambda: os.kill(os.getpid(), signal.SIGUSR1), program_ends, "the program ended by itself")):
            opened = self.opened_as_it_crashes(crash, after)
            self.assertEqual(self.told.getvalue().count(cause), 3)
            self.assertEqual(opened, opened[:1] * 4)

    def test_begins_anew(self):
        """A bridge that is killed, or whose program ends, is followed by another one; what it left is handed on."""
        for does, after, told in (
                (self.once("second", "kill -9 $$"), "true",
                 "the bridge ended by itself, by the signal SIGKILL; it begins anew"),
                (self.once("second", "break"), self.once("third", "echo 'fault 4 the program ended by itself'; exit 1"),
                 "the program ended by itself, with status 0; it begins anew")):
            does = f"[ \"$request\" != open ] || {{ {does}; echo sending; }}"
            self.run_bridge(lambda: self.end_once_told("networks are on channel"), does=does, after=after)
            self.assertIn(told, self.told.getvalue())
            self.assertEqual(self.read("asked"), "state\nopen\nstate\nopen\n")
            for name in ("asked", "second"):
                os.unlink(self.path(name))
            self.told.truncate(0)

    def test_begins_anew_with_what_changed(self):
        """The next program reads the configuration as it is then, and so does the script."""
        does = f"[ \"$request\" != open ] || {{ {self.once('second', 'sleep 0.3; kill -9 $$')}; echo sending; }}"
        changed = threading.Timer(0.2, self.write, ("radio.toml", ONE_NETWORK.replace("channel = 6", "channel = 11")))
        changed.start()
        self.run_bridge(lambda: self.end_once_told("networks are on channel"), does=does)
        changed.join()
        self.assertEqual([plan.settings.channel for plan in self.followed], [6, 11])
        self.assertIn("has changed since it was read, and is read again", self.told.getvalue())

    def test_sends_nothing(self):
        """Then the radio is set up in the next way; where there is none all ends."""
        self.write("words", "")
        nothing = "this radio does not send beside its interfaces: no beacon was seen as sent within 1 second"
        does = f"[ \"$request\" != open ] || {{ {self.once('second', 'break')}; echo sending; }}"
        after = self.once("third", f"echo 'fault 8 {nothing}'; exit 1")
        self.run_bridge(lambda: self.end_once_told("networks are on channel"), does=does, after=after,
                        ways=(Way.MANAGED, Way.ACCESS_POINTS))
        self.assertEqual([plan.way for plan in self.followed], [Way.MANAGED, Way.ACCESS_POINTS])
        self.assertIn("by managed interfaces this radio sends nothing, so it serves by access point interfaces; it begins anew",
                      self.told.getvalue())
        self.assertIn("1 networks are on channel 6, by access point interfaces", self.told.getvalue())
        for name in ("second", "third"):
            os.unlink(self.path(name))
        with self.assertRaisesRegex(Fault, "^this radio does not send beside its interfaces"):
            self.run_bridge(does=does, after=after, ways=(Way.ACCESS_POINTS,))

    def test_beacons_and_channel(self):
        """For what the bridge tells of them the radio is set up anew, each time once."""
        does = SENDS + "; [ $request = open ] && (sleep 0.3; echo unsent; sleep 0.3; echo sending; echo elsewhere 2412; sleep 0.3; echo here)"
        self.run_bridge(lambda: self.end_once(lambda: self.told.getvalue().count("phy0 was set up anew") == 2), does=does)
        told = self.told.getvalue()
        places = [told.index(text) for text in ("phy0 sends nothing", "phy0 was set up anew",
                                                "it is set back to 2437 MHz")]
        self.assertEqual(places, sorted(places))

    def test_does_not_begin_anew_with_a_fault(self):
        """A configuration that has a fault by then is told, and all ends."""
        does = "[ \"$request\" != open ] || { sleep 0.5; kill -9 $$; }"
        changed = threading.Timer(0.2, self.write, ("radio.toml", "channel = "))
        changed.start()
        with self.assertRaisesRegex(Fault, "the bridge ended by itself, by the signal SIGKILL"):
            self.run_bridge(does=does)
        changed.join()
        self.assertIn("it doesn't begin: ", self.told.getvalue())

    def test_does_not_begin_anew(self):
        """Three in a row that end at once, and one that made a call that it may not make, end all."""
        with self.assertRaisesRegex(Fault, "the bridge ended by itself, by the signal SIGKILL"):
            self.run_bridge(does="[ $request != open ] || kill -9 $$")
        self.assertEqual(self.told.getvalue().count("it begins anew"), 2)
        self.told.truncate(0)
        with self.assertRaisesRegex(Fault, "by the signal SIGSYS"):
            self.run_bridge(does="[ $request != open ] || kill -SYS $$")
        with self.assertRaisesRegex(Fault, "the program ended by itself"):
            self.run_bridge(does="[ $request != open ] || break", status=128 + signal.SIGSYS,
                            after="echo 'fault 4 the program ended by itself'; exit 1")
        self.assertNotIn("it begins anew", self.told.getvalue())

    def test_reload_with_a_fault(self):
        """All stays as it is, and the fault is told."""
        self.reload_with("radio.toml", "channel = ")
        self.assertEqual((self.read("asked"), len(self.followed)), ("state\nopen\n", 1))
        self.assertIn("all stays as it is", self.told.getvalue())
        self.assertEqual(len(self.outcomes), 1)
        self.assertIn("not read as a configuration", self.outcomes[0])

    def test_reload_that_does_not_begin(self):
        """Where the program doesn't begin with the new configuration, the one before goes on."""
        self.reload_with("fails")
        self.assertEqual(self.read("asked"), "state\nopen\n")
        self.assertIn("all stays as it is: it doesn't begin", self.told.getvalue())

    def test_files_are_only_its_own_to_change(self):
        """Also where it was started with a mask that keeps nobody out, or its own group."""
        for mask in (0, 0o077):
            before = os.umask(mask)
            self.addCleanup(os.umask, before)
            modes = {}

            def later(modes=modes):
                for name in os.listdir(self.folder):
                    if name.startswith("phy0.") and not name.endswith(".sock"):
                        modes[name] = os.stat(self.path(name)).st_mode & 0o777
                self.end()
            self.run_bridge(later)
            self.assertLessEqual({"phy0.held", "phy0.lock", "phy0.run", "phy0.state.0"}, set(modes))
            self.assertEqual({name: mode for name, mode in modes.items() if mode & 0o022}, {}, oct(mask))
            os.umask(before)

    def test_page(self):
        """The page is told where to ask, and is ended; where it ends by itself that is told."""
        page = self.write("page", f"#!/bin/sh\necho $* > {self.folder}/page-words\n"
                                  "sleep 60 & trap 'kill $!; exit 0' TERM; wait\n", 0o755)
        self.patch((page_of, "PROGRAM", page))
        self.run_bridge(lambda: self.end_once_there("page-words"), port=9617)
        self.assertEqual(self.read("page-words"), f"9617 {self.folder}/phy0.sock\n")
        os.unlink(self.path("page-words"))
        self.run_bridge(lambda: self.end_once_there("page-words"), port=9617, hosts=("ap1.example", "ap2"),
                        sources=("192.0.2.0/24",))
        self.assertEqual(self.read("page-words"), f"9617 {self.folder}/phy0.sock --host ap1.example --host ap2 "
                                                  "--from 192.0.2.0/24 --station-metrics\n")
        self.assertIn(" --alive ", self.read("words"))
        self.assertNotIn(" --sends ", self.read("words"))
        self.assertIn("--name live --phy ", self.read("words"))
        self.write("page", "#!/bin/sh\nexit 3\n", 0o755)
        does = SENDS + "; [ $request = open ] && (sleep 0.3; echo alive)"
        self.run_bridge(lambda: self.end_once_told("the page ended"), does=does, port=9617)
        self.assertIn("--status 9617: the page ended with status 3", self.told.getvalue())
        self.patch((page_of, "PROGRAM", f"{page}-is-nowhere"))
        with self.assertRaisesRegex(Fault, "page-is-nowhere: .*No such file"):
            self.run_bridge(self.end, port=9617)

    def test_page_that_ignores_its_end(self):
        """It is killed some time later, so that all ends."""
        page = self.write("page", f"#!/bin/sh\ntrap '' TERM\necho $$ > {self.folder}/page-number\n"
                                  "while :; do sleep 0.1; done\n", 0o755)
        self.patch((page_of, "PROGRAM", page), (page_of, "SECONDS_TO_END", 0.3))
        self.run_bridge(lambda: self.end_once_there("page-number"), port=9617)
        self.assertFalse(os.path.exists(f"/proc/{self.read('page-number').strip()}"))

    def test_page_whose_port_is_taken(self):
        """The access point runs without it; it is begun once the port is free."""
        page = self.write("page", f"#!/bin/sh\n> {self.folder}/page-begins\nsleep 60 & trap 'kill $!; exit 0' TERM; wait\n",
                          0o755)
        does = SENDS + "; [ $request = open ] && (while sleep 0.1; do echo alive; done) & "
        with socket.create_server(("127.0.0.1", 0)) as taken:
            port = taken.getsockname()[1]

            def later():
                wait_until(lambda: "there is no page" in self.told.getvalue())
                self.begun_while_taken = os.path.exists(self.path("page-begins"))
                taken.close()
                self.end_once_there("page-begins")
            self.patch((page_of, "PROGRAM", page), (page_of, "AGAIN_SECONDS", 0.2))
            self.run_bridge(later, does=does, after="kill $!", port=port)
        self.assertFalse(self.begun_while_taken)
        self.assertTrue(os.path.exists(self.path("page-begins")))
        self.assertEqual(self.told.getvalue().count(
            f"--status {port}: Address already in use: there is no page until this port is free; all else goes on"), 1)
        self.assertIn("1 networks are on channel", self.told.getvalue())

    def test_what_a_bridge_never_tells(self):
        """A number that is none, and a line without an end, are faults by their names."""
        for told, says in (("elsewhere 24x2", "'elsewhere 24x2'"), ("down -1", "'down -1'"), ("down 16", "'down 16'"), ("status 1e3", "'status 1e3'"),
                           ("fault x y", "'fault x y'"), ("down " + 5000 * "9", "'down 999")):
            with self.assertRaisesRegex(Fault, f"^the bridge told what it never tells: {says}"):
                self.run_bridge(does=f"echo {told}")
        with self.assertRaisesRegex(Fault, "^the bridge told a line of more than 4096 octets$"):
            self.run_bridge(does="head -c 1000000 /dev/zero | tr '\\\\0' x")

    def test_tables_by_the_clock(self):
        """--tables asks by itself, again and again."""
        self.run_bridge(lambda: self.end_once(lambda: self.times_asked("tables") >= 2), 0.1)
        self.assertGreaterEqual(self.times_asked("tables"), 2)

    def test_fault(self):
        """What the bridge can't go on with is this program's fault, whatever comes after it."""
        with self.assertRaisesRegex(Fault, "^mon0: Network is down: was it taken down[?]$"):
            self.run_bridge(does="break", after="echo 'fault 9 mon0: Network is down: was it taken down?'; exit 1")
        self.assertIn("the program ended with status 0", self.told.getvalue())

    def test_fault_codes(self):
        """By the number alone it is decided what comes next, and the bridge has the same numbers."""
        with self.assertRaisesRegex(Fault, "the program ended by itself"):
            self.run_bridge(does="break", after="echo 'fault 3 the program ended by itself'; exit 1")
        self.assertNotIn("it begins anew", self.told.getvalue())
        source = text_of("tools/bridge/src/control/faults.rs")
        numbers = dict(re.findall(r"Fault::(\w+)(?:\(_\)| \{ \.\. \})? => (\d+),", source))
        for code in FaultCode:
            self.assertEqual(numbers[code.name.title().replace("_", "")], str(code.value))

    def test_killed(self):
        """A bridge that ends as it shouldn't is told."""
        with self.assertRaisesRegex(Fault, "the bridge ended by itself, with status 3"):
            self.run_bridge(does="exit 3")

    def test_ended_while_it_begins(self):
        """A signal before the networks are open ends it too."""
        path = self.write("slow", "#!/bin/bash\nread -r nothing\nexit 0\n", 0o755)
        bridge = Bridge([path], Signals(self.stack), self.stack)
        timer = threading.Timer(0.3, self.end)
        timer.start()
        bridge.await_networks()
        timer.join()
        self.assertFalse(bridge.is_ready or bridge.has_to_go_on())
        bridge.end()

    def test_networks_that_are_not_open_in_time(self):
        """That is a fault; whoever counts on hearing of it is told meanwhile, again and again."""
        path = self.write("slow", "#!/bin/bash\nread -r nothing\nexit 0\n", 0o755)
        self.patch((bridge_of, "SECONDS_TO_BEGIN", 1), (bridge_of, "MEANWHILE_SECONDS", 0.05))
        meanwhile = mock.Mock()
        bridge = Bridge([path], Signals(self.stack), self.stack, meanwhile=meanwhile)
        bridge.await_networks()
        self.assertGreater(meanwhile.call_count, 5)
        self.assertFalse(bridge.has_to_go_on())
        with self.assertRaisesRegex(Fault, "^the program hasn't opened its networks within 1 seconds$"):
            bridge.end()

    def test_bridge_that_is_not_there(self):
        """It is told how it is built, which packages that takes, and where to build it for an installation."""
        missing = self.path("missing")
        with mock.patch.object(checks.shutil, "which", lambda command: None):
            with self.assertRaisesRegex(Fault, "install Debian's packages cargo librust-ahash.*`make bridge` builds"):
                check_bridge(missing)
        with mock.patch.object(checks.shutil, "which", lambda command: command):
            with self.assertRaisesRegex(Fault, "missing isn't there: `make bridge` builds it"):
                check_bridge(missing)
        with mock.patch.object(checks, "MAKEFILE", missing):
            with self.assertRaisesRegex(Fault, "missing isn't there: in a checkout of the source `make bridge` builds"):
                check_bridge(missing)
        check_bridge(self.write("there", "", 0o755))
