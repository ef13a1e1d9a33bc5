"""Tests of what tools/live knows of radios: what `iw` says of one, the way that it takes, and what is watched while it
serves."""
import contextlib
import io
import os
import struct
import unittest
from contextlib import ExitStack
from unittest import mock

from live import changes, drivers, machine, other_programs, radio_report, setting_up, watching
from live.checks import Plan, check_channel
from live.faults import Fault
from live.links import Link, Links, links_of
from live.machine import Interface
from live.phys import ACCESS_POINT, MANAGED, read_phy
from live.settings import Settings
from live.ways import Way, kernel_of, ways_of
from simulated_machines import COUNTED, SIMULATED, SMALL, OnMachine


class Radios(unittest.TestCase):
    """What `iw` says of a radio."""

    def test_simulated(self):
        """Many networks, and of its channels those that may be used."""
        phy = read_phy(SIMULATED)
        self.assertEqual([phy.most_networks(mode) for mode in (MANAGED, ACCESS_POINT)], [2048, 2048])
        self.assertEqual((phy.has_active_monitors, phy.has_contexts), (True, False))
        self.assertIsNone(phy.fault_of(2437))
        self.assertEqual([phy.fault_of(frequency) for frequency in (2467, 2484, 5260, 2407)],
                         ["no IR", "disabled", "no IR", "this radio doesn't have it"])

    def test_small(self):
        """Without combinations it has one interface beside the monitor."""
        phy = read_phy(SMALL)
        self.assertEqual([phy.most_networks(mode) for mode in (MANAGED, ACCESS_POINT)], [1, 0])
        self.assertEqual((phy.fault_of(2437), phy.has_active_monitors), (None, False))

    def test_monitor_that_is_counted(self):
        """Where the monitor is one of the combination, it takes a place; access points that none has beside them are
        none."""
        phy = read_phy(COUNTED)
        self.assertEqual([phy.most_networks(mode) for mode in (MANAGED, ACCESS_POINT)], [2, 0])

    def test_channels(self):
        """More than one at a time are a sign of channel contexts."""
        self.assertTrue(read_phy(SIMULATED.replace("#channels <= 1", "#channels <= 2")).has_contexts)

    def test_channel_that_may_not_be_used(self):
        """It is told by name."""
        for channel, says in ((12, r"channel 12 \(2467 MHz\): no IR"), (14, r"channel 14 \(2484 MHz\): disabled")):
            with self.assertRaisesRegex(Fault, says):
                check_channel(read_phy(SIMULATED), Settings(channel, 100, ()))
        check_channel(read_phy(SIMULATED), Settings(6, 100, ()))


class Ways(unittest.TestCase):
    """Which way a radio takes on a kernel."""

    PASSIVE = SIMULATED.replace("Device supports active monitor", "Device supports nothing")
    CONTEXTS = PASSIVE.replace("#channels <= 1", "#channels <= 2")
    OLD, NEW = (6, 1), (6, 12)

    def ways(self, text, kernel, networks=3, forced=None):
        """The ways of a radio."""
        return ways_of("phy0", read_phy(text), kernel, networks, forced)

    def test_rule(self):
        """Active monitors where the radio has them; else managed interfaces before Linux 6.9, and then access points."""
        for text, kernel, wanted in (
                (SIMULATED, self.OLD, (Way.ACTIVE_MONITORS,)), (SIMULATED, self.NEW, (Way.ACTIVE_MONITORS,)),
                (self.PASSIVE, self.OLD, (Way.MANAGED, Way.ACCESS_POINTS)),
                (self.PASSIVE, (6, 8), (Way.MANAGED, Way.ACCESS_POINTS)), (self.PASSIVE, (6, 9), (Way.ACCESS_POINTS,)),
                (self.PASSIVE, self.NEW, (Way.ACCESS_POINTS,)), (self.PASSIVE, (7, 3), (Way.ACCESS_POINTS,)),
                (self.CONTEXTS, self.OLD, (Way.ACCESS_POINTS,))):
            self.assertEqual(self.ways(text, kernel), wanted, kernel)

    def test_number_of_networks(self):
        """A way that doesn't hold so many is left out; active monitors hold any number."""
        self.assertEqual(self.ways(SIMULATED, self.OLD, 3000), (Way.ACTIVE_MONITORS,))
        self.assertEqual(self.ways(SMALL, self.OLD, 1), (Way.MANAGED,))
        with self.assertRaisesRegex(Fault, "not by managed interfaces: it allows 1 of them beside a monitor interface, and 2"):
            self.ways(SMALL, self.OLD, 2)

    def test_forced(self):
        """It is the only one, and refused where the radio or the kernel can't."""
        self.assertEqual(self.ways(SIMULATED, self.OLD, forced=Way.MANAGED), (Way.MANAGED,))
        self.assertEqual(self.ways(SIMULATED, self.NEW, forced=Way.ACCESS_POINTS), (Way.ACCESS_POINTS,))
        for text, way, says in ((SIMULATED, Way.MANAGED, "from kernel 6.9 on they take the channel away"),
                                (self.PASSIVE, Way.ACTIVE_MONITORS, "it has no active monitors"),
                                (SMALL, Way.ACCESS_POINTS, "it has no mode AP")):
            with self.assertRaisesRegex(Fault, f"^phy0: .*not by {way.interfaces}: {says}"):
                self.ways(text, self.NEW, 1, way)

    def test_none(self):
        """Each way is told, with why the radio can't take it."""
        with self.assertRaises(Fault) as refused:
            self.ways(SMALL.replace("* monitor", "* AP"), self.NEW)
        self.assertEqual(str(refused.exception).count("it has no mode monitor"), 3)

    def test_kernels(self):
        """The version of a release; one that tells none is a fault."""
        self.assertEqual([kernel_of(text) for text in ("6.1.0-50-amd64", "6.12.117+deb13-amd64", "7.3.4")],
                         [(6, 1), (6, 12), (7, 3)])
        with self.assertRaisesRegex(Fault, "tells no version"):
            kernel_of("unknown")


class Reported(OnMachine):
    """What is told of a radio by its name, and where it refuses an interface."""

    def setUp(self):
        super().setUp()
        self.radios = self.path("ieee80211")
        os.makedirs(os.path.join(self.radios, "phy9", "device"))
        self.text, self.others, self.failing_with = SIMULATED, [], ""
        self.drive("mac80211_hwsim")
        self.write(os.path.join(self.radios, "phy9", "macaddress"), "02:00:00:00:00:00\n")
        self.patch(
            (machine, "RADIOS", self.radios), (machine, "interfaces", lambda: self.others),
            (changes, "RUN", self.folder), (other_programs, "PROCESSES", self.radios),
            (machine, "country", lambda: "DE"), (radio_report, "this_kernel", lambda: (6, 12)))

    def drive(self, name):
        """The radio has this driver."""
        link = os.path.join(self.radios, "phy9", "device", "driver")
        if os.path.lexists(link):
            os.unlink(link)
        os.makedirs(self.path(name), exist_ok=True)
        os.symlink(self.path(name), link)

    def run_command(self, *words):
        """A radio that says what the test wants, or takes no more interfaces."""
        if words == ("iw", "phy", "phy9", "info"):
            return self.text
        if self.failing_with and words[:3] == ("ip", "link", "set") and words[3] == "mon0n2":
            raise Fault(f"`{' '.join(words)}` failed: RTNETLINK answers: {self.failing_with}")
        return super().run_command(*words)

    def told(self, forced=None):
        """What is told, and what is missing."""
        lines, missing = radio_report.report("phy9", forced)
        return "\n".join(lines), missing

    def test_fit(self):
        """The way, how many networks, rates, acknowledgements and channels; nothing is missing, or changed."""
        told, missing = self.told()
        self.assertEqual(told.splitlines(), [
            "phy9: the driver is mac80211_hwsim (simulated, and tried)",
            "it serves by active monitor interfaces (--by active-monitors): each network has one; no other interface of this "
            "radio may be up meanwhile",
            "networks: at most 16", "rates: the bridge's choice is used", "acknowledgements: told for each frame",
            "channels that may be used: 1 6 11 (country DE)"])
        self.assertEqual((missing, self.commands), ([], []))

    def test_ways(self):
        """Each that would be tried, the first one first; a forced one alone."""
        self.text = SIMULATED.replace("Device supports active monitor", "Device supports nothing")
        with mock.patch.object(radio_report, "this_kernel", lambda: (6, 1)):
            told, missing = self.told()
            self.assertIn("it serves by managed interfaces (--by managed)", told)
            self.assertIn("where it sends nothing by these, it serves by access point interfaces", told)
            self.assertEqual(missing, [])
            self.assertNotIn("managed", self.told(Way.ACCESS_POINTS)[0])
        self.assertIn("it has no active monitors", self.told(Way.ACTIVE_MONITORS)[1][0])

    def test_drivers(self):
        """What is known of them; of another one nothing is."""
        for name, says in (("mt7603e", "networks: at most 4"), ("mt76x2u", "but for bits 2 to 4 of the first octet"),
                           ("mt7601u", "networks: at most 1"), ("ath9k", "choose BSSIDs that differ in few bits"),
                           ("mt7915e", "rates: the radio chooses those of data by itself"),
                           ("mt7921e", "on Linux 7.3 it has no active monitors"), ("newest", "of which nothing is known"),
                           ("newest", "acknowledgements: not known")):
            self.drive(name)
            self.assertIn(says, self.told()[0])
        for name in ("ath10k_pci", "ath9k_htc", "iwlwifi", "rtw_8822be", "rtl8xxxu", "rt2800usb"):
            self.assertIs(drivers.known(name).has_active_monitors, False, name)

    def test_missing(self):
        """No way, no channel, and another interface that is up; one that isn't there is a fault."""
        self.text, self.others = SMALL.replace("* monitor", "* AP").replace("2437.0 MHz [6] (20.0", "2437 MHz [6] (no IR"), [
            mock.Mock(radio="phy9", is_up=True, is_monitor=False), mock.Mock(radio="phy5", is_up=True, is_monitor=False)]
        self.others[0].name = "wlan0"
        told, missing = self.told()
        self.assertIn("channels that may be used: none", told)
        self.assertEqual([what.split()[0] for what in missing], ["phy9:", "no", "wlan0"])
        with self.assertRaisesRegex(Fault, "phy7: there is no such radio; there are: phy9"):
            radio_report.report("phy7", None)

    def test_refused_interfaces(self):
        """It is told what that means, with what is known of the driver."""
        for name, failing_with, says in (
                ("mt7603e", "No space left on device", "the driver mt7603e takes no more such interfaces, at most 4 for networks"),
                ("newest", "No space left on device", "the driver newest takes no more such interfaces: serve fewer"),
                ("mt76x2e", "Device or resource busy", "no interface with this address: the BSSIDs have to be the radio's own"),
                ("newest", "Device or resource busy", "choose BSSIDs that are like the radio's own address (02:00:00:00:00:00)"),
                ("newest", "Operation not possible", "answers: Operation not possible$")):
            self.drive(name)
            self.failing_with = failing_with
            with (self.assertRaisesRegex(Fault, says.replace("(", r"\(").replace(")", r"\)")), ExitStack() as stack,
                  contextlib.redirect_stderr(io.StringIO())):
                setting_up.SettingUp(self.WANTED, self.made, stack).follow(Plan(self.SETTINGS, (), "octets"))
            self.assertEqual(self.commands[-3:], ["iw dev mon0n2 del", "iw dev mon0n1 del", "iw dev mon0 del"])


class KernelTells(unittest.TestCase):
    """What rtnetlink tells of interfaces."""

    @staticmethod
    def message(name, flags, kind=16, hardware=1):
        """A message of an interface; behind its name there is another attribute."""
        text = name.encode() + b"\0"
        attributes = struct.pack("=HH", 4 + len(text), 3) + text + bytes(-len(text) % 4) + struct.pack("=HHI", 8, 4, 1500)
        body = struct.pack("=BxHiII", 0, hardware, 7, flags, 0) + attributes
        return struct.pack("=IHHII", 16 + len(body), kind, 0, 0, 0) + body

    def test_messages(self):
        """Each interface, whether it is up, and one that is gone is not."""
        octets = (self.message("wlan0", 0x1003) + self.message("mon0", 0x1002, hardware=803) + struct.pack("=IHHII", 16, 3, 0, 0, 0)
                  + self.message("wlan1", 0x1003, 17))
        self.assertEqual(list(links_of(octets)), [Link("wlan0", 1, True), Link("mon0", 803, False), Link("wlan1", 1, False)])
        self.assertTrue(Link("mon0", 803, False).is_monitor)
        for cut in range(len(octets)):
            self.assertLessEqual(len(list(links_of(octets[:cut]))), 3)

    def test_socket(self):
        """All that waits is read; where the kernel has thrown some away, what comes behind is read all the same."""
        with ExitStack() as stack:
            found = Links(stack)
            self.assertGreaterEqual(found.fileno(), 0)
            answers = [self.message("wlan0", 1), OSError(105, "No buffer space available"), self.message("wlan1", 1),
                       BlockingIOError()]
            found.socket.close()
            found.socket = mock.Mock(recv=mock.Mock(side_effect=answers))
            self.assertEqual([link.name for link in found.changed()], ["wlan0", "wlan1"])
            found.socket.recv.side_effect = OSError(1, "no")
            with self.assertRaises(OSError):
                found.changed()


class Watched(OnMachine):
    """What is told, and mended, while a radio serves."""

    def setUp(self):
        super().setUp()
        self.phys = {"mon0": "phy9", "mon0n1": "phy9", "mon0n2": "phy9"}
        self.up = set(self.phys)
        self.waiting, self.status = [], []
        self.patch(
            (Interface, "radio", property(lambda one: self.phys.get(one.name))),
            (Interface, "exists", property(lambda one: one.name in self.phys)),
            (Interface, "is_up", property(lambda one: one.name in self.up)),
            (Interface, "is_monitor", property(lambda one: one.name.startswith("mon"))),
            (machine, "interfaces", lambda: [Interface(name) for name in self.phys]),
            (watching, "Links", lambda _: mock.Mock(changed=self.changed)))
        stack = self.enterContext(ExitStack())
        setting = setting_up.SettingUp(self.WANTED, self.made, stack)
        self.plan = Plan(self.SETTINGS, (), "octets")
        self.bridge = mock.Mock(is_unsent=False, elsewhere=None)
        self.watch = watching.RadioWatch(self.WANTED, setting, mock.Mock(status=self.status.append), stack)
        with contextlib.redirect_stderr(io.StringIO()):
            setting.follow(self.plan)
        self.watch.begin(self.plan)
        self.commands.clear()

    def changed(self):
        """What the kernel tells."""
        found, self.waiting = self.waiting, []
        return found

    def set(self, name, is_up, phy="phy9", hardware=1):
        """An interface goes up or down."""
        self.phys[name] = phy
        (self.up.add if is_up else self.up.discard)(name)
        self.waiting.append(Link(name, hardware, is_up))

    def look(self):
        """What is told."""
        with contextlib.redirect_stderr(io.StringIO()) as told:
            self.watch.look(self.bridge, self.plan)
        return told.getvalue()

    ANEW = ["ip link set mon0n2 down", "ip link set mon0n1 down", "ip link set mon0 down", *OnMachine.MONITOR[2:],
            "ip link set mon0n1 up", "ip link set mon0n2 up"]

    def test_another_interface(self):
        """It is told by name, once; where it is down again all is set up anew, the monitor interface first."""
        self.set("wlan0", True)
        told = self.look()
        self.assertIn("wlan0 of phy9 is up: while it is up, this radio sends nothing", told)
        self.assertIn("`ip link set wlan0 down`", told)
        self.assertEqual(self.status, ["2 networks are on channel 6; wlan0 of phy9 is up beside them"])
        self.set("wlan0", True)
        self.assertEqual((self.look(), self.commands), ("", []))
        self.set("wlan0", False)
        told = self.look()
        self.assertEqual(self.commands, self.ANEW)
        self.assertIn("wlan0 of phy9 is down again", told)
        self.assertIn("phy9 was set up anew", told)
        self.assertEqual(self.status[-1], "2 networks are on channel 6")
        self.assertEqual((self.look(), self.watch.seconds), ("", None))

    def test_two_other_interfaces(self):
        """Each is told with its command; all is set up anew once both are down."""
        self.set("wlan0", True)
        self.set("wlan1", True)
        told = self.look()
        for name in ("wlan0", "wlan1"):
            self.assertIn(f"{name} of phy9 is up", told)
            self.assertIn(f"`ip link set {name} down`", told)
        self.set("wlan0", False)
        self.look()
        self.assertEqual(self.commands, [])
        self.set("wlan1", False)
        self.look()
        self.assertEqual(self.commands, self.ANEW)

    def test_another_interface_for_a_moment(self):
        """One that is down again as one looks has stopped the radio all the same."""
        self.set("wlan0", True)
        self.set("wlan0", False)
        self.assertIn("wlan0 of phy9 is up", self.look())
        self.assertEqual(self.commands, self.ANEW)

    def test_what_disturbs_nobody(self):
        """Monitors, other radios' interfaces, wired ones, and the radio's own that come up."""
        self.set("mon7", True, hardware=803)
        self.set("wlan5", True, phy="phy5")
        self.set("eth0", True, phy=None)
        self.set("mon0n1", True, hardware=803)
        self.assertEqual((self.look(), self.commands, self.status), ("", [], []))

    def test_up_as_it_begins(self):
        """One that came up before it was watched is told too, in the words of each way."""
        for way, says in ((Way.MANAGED, "where it scans or joins a network"), (Way.ACCESS_POINTS, "while it scans")):
            self.set("wlan0", True)
            self.watch.others.clear()
            with contextlib.redirect_stderr(io.StringIO()) as told:
                self.watch.begin(Plan(self.SETTINGS, (), "octets", ways=(way,)))
            self.assertIn(f"wlan0 of phy9 is up: {says}", told.getvalue())

    def test_access_points_keep_their_channel(self):
        """Nothing of them is set up anew for another interface."""
        self.plan = Plan(self.SETTINGS, (), "octets", ways=(Way.ACCESS_POINTS,))
        self.set("wlan0", True)
        self.set("wlan0", False)
        self.assertIn("wlan0 of phy9 is down again", self.look())
        self.assertEqual(self.commands, [])

    def test_own_that_is_taken_down(self):
        """It is told, and set up anew; one that is gone is made again."""
        self.set("mon0n1", False, hardware=803)
        self.assertIn("mon0n1 was taken down by somebody", self.look())
        self.assertEqual(self.commands, self.ANEW)
        self.commands.clear()
        del self.phys["mon0n2"]
        self.waiting.append(Link("mon0n2", 803, False))
        self.look()
        self.assertEqual(self.commands, [*self.ANEW[1:-1], self.RADIO[-2], self.ANEW[-1]])

    def test_tried_again(self):
        """Where it can't be set up anew, as where radios are blocked, that is told once, and tried each second."""
        self.failing = "ip link set mon0 up"
        self.set("mon0", False, hardware=803)
        told = self.look()
        self.assertIn("the radio isn't set up anew, which is tried again each second: it failed", told)
        self.assertLessEqual(self.watch.seconds, 1)
        self.assertEqual(self.look(), "")
        self.watch.next_try = 0.0
        self.assertEqual(self.look(), "")
        self.failing, self.watch.next_try = None, 0.0
        self.assertIn("phy9 was set up anew", self.look())

    def test_down_as_it_begins(self):
        """Where an own interface is down as another bridge begins, that is mended too."""
        self.set("mon0n1", False, hardware=803)
        self.watch.begin(self.plan)
        self.assertIn("phy9 was set up anew", self.look())
        self.assertEqual(self.commands, self.ANEW)

    def test_no_beacon_is_sent(self):
        """It is told, and all is set up anew once; that beacons go again is told too."""
        self.bridge.is_unsent = True
        self.assertIn("phy9 sends nothing: its interfaces are taken down and up once", self.look())
        self.assertEqual(self.commands, self.ANEW)
        self.assertEqual(self.status[-1], "2 networks are on channel 6; no beacon is told as sent")
        self.assertEqual((self.look(), len(self.commands)), ("", len(self.ANEW)))
        self.bridge.is_unsent = False
        self.assertEqual((self.look(), len(self.commands)), ("", len(self.ANEW)))
        self.assertEqual(self.status[-1], "2 networks are on channel 6")

    def test_no_beacon_is_sent_beside_another_interface(self):
        """That one is to blame: nothing is set up until it is down."""
        self.set("wlan0", True)
        self.bridge.is_unsent = True
        self.look()
        self.assertEqual(self.commands, [])
        self.set("wlan0", False)
        self.look()
        self.assertEqual(self.commands, self.ANEW)

    def test_elsewhere(self):
        """Both frequencies are told, and the radio gets its channel back."""
        self.bridge.elsewhere = 2412
        self.assertIn("phy9 is on 2412 MHz, so no station finds the networks: it is set back to 2437 MHz", self.look())
        self.assertEqual(self.commands, self.ANEW)
        self.assertEqual(self.status[-1], "2 networks are on channel 6; the radio is on 2412 MHz")
        self.bridge.elsewhere = None
        self.assertEqual((self.look(), len(self.commands)), ("", len(self.ANEW)))
        self.assertEqual(self.status[-1], "2 networks are on channel 6")
