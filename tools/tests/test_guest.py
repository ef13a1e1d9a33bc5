"""Tests of how the cases of real stations go on where one failed: no case depends on how another ended."""
import contextlib
import io
import os
import unittest
from unittest import mock

import airing
import crowding
import parts
import points
import profiling
import sharing
import stage
from common import ToolTest, module_of
from stations import Failed
from texts import read_text

cases, compare, share_cases, wrong_bridges = (
    module_of("guest", name) for name in ("cases", "compare", "share-cases", "wrong-bridges"))


class WrongBridges(unittest.TestCase):
    """The edits of bridges that are wrong on purpose."""

    def test_each_edit_applies(self):
        """What it replaces is in the bridge, once."""
        edits = wrong_bridges.read_edits()
        self.assertGreater(len(edits), 8)
        for name, edit in edits.items():
            text = read_text(os.path.join(wrong_bridges.BRIDGE, edit["file"]))
            self.assertEqual(text.count(edit["old"]), 1, name)


class FakeStart:
    """A start of the bridge that only notes what is done with it."""

    def __init__(self, done, lost=0):
        self.name, self.done, self.lost = "part", done, lost
        self.networks = ()
        self.is_up = False

    def anew(self):
        """Another one, whose capture loses one time less."""
        return FakeStart(self.done, max(0, self.lost - 1))

    def is_running(self):
        """Whether it runs."""
        return self.is_up

    def begin(self):
        """It runs from now on."""
        self.is_up = True
        self.done.append("begins")

    def take_down(self):
        """It doesn't any more."""
        self.is_up = False

    def end(self):
        """The same, as it should."""
        self.is_up = False
        self.done.append("ends")

    def agrees_with_run(self):
        """It does."""
        return "the same"

    def agrees_with_observed(self):
        """It does, where the capture lost nothing."""
        if self.lost:
            raise stage.NotSeen("7 packets dropped by kernel")
        return "9 frames heard"


class FakePart(parts.Part):
    """Three cases, of which some fail, and the end."""

    failing: tuple[str, ...] = ()

    def set_up(self):
        """Begins it, and lets stations join."""
        self.start.begin()
        self.start.done.append("join")

    def run(self):
        """Its cases in order."""
        self.begins("begins", self.set_up)
        for name in ("first", "second", "third"):
            self.case(name, lambda name=name: self.tried(name))
        self.end()

    def tried(self, name):
        """It finds the bridge running, and takes it down where it fails."""
        if not self.start.is_running():
            raise AssertionError("nothing runs")
        self.start.done.append(name)
        if name in self.failing:
            self.start.take_down()
            raise Failed("on purpose")


class NoCaseDependsOnAnother(unittest.TestCase):
    """What is begun anew, and what is told."""

    def run_part(self, failing=(), words=(), lost=0):
        """Runs the part; gives what was done, the cases, and what was told."""
        done, played = [], cases.Cases("bridge", "program", list(words))
        played.stations, played.hosts = [], []
        part = FakePart(played, FakeStart(done, lost))
        part.failing = failing
        with contextlib.redirect_stdout(io.StringIO()) as told:
            part.run()
        return done, played, told.getvalue()

    def test_nothing_is_begun_anew_where_all_pass(self):
        """One start serves all."""
        done, played, _ = self.run_part()
        self.assertEqual(done, ["begins", "join", "first", "second", "third", "ends"])
        self.assertEqual((played.passed, played.failed), (7, 0))

    def test_after_a_case_that_failed_all_is_begun_anew(self):
        """The next case finds it so, and the end and what is compared too."""
        done, played, _ = self.run_part(failing=("first", "third"))
        wanted = ["begins", "join", "first", "begins", "join", "second", "third", "begins", "join", "ends"]
        self.assertEqual(done, wanted)
        self.assertEqual((played.passed, played.failed), (5, 2))

    def test_a_case_runs_alone(self):
        """Without those that begin the part."""
        done, played, _ = self.run_part(words=("third",))
        self.assertEqual(done, ["begins", "join", "third"])
        self.assertEqual((played.passed, played.failed), (1, 0))

    def test_where_packets_were_lost_it_is_seen_once_more(self):
        """It is told as not seen; where the second time loses some too, the case fails."""
        done, played, told = self.run_part(lost=1)
        self.assertEqual(done[-2:], ["begins", "ends"])
        self.assertEqual((played.passed, played.failed), (7, 0))
        self.assertIn("not seen: part: 7 packets dropped by kernel; once more\n", told)
        self.assertIn("passed: part: another radio heard these frames: 9 frames heard, once", told)
        _, played, _ = self.run_part(lost=2)
        self.assertEqual((played.passed, played.failed), (6, 1))


REPORT = """
    40.00%|400|bridge|bridge|[.] receive
    20.00%|200|bridge|[kernel.kallsyms]|[k] pipe_write
    10.00%|100|apctl|[kernel.kallsyms]|[k] pipe_read
    10.00%|100|iperf3|[kernel.kallsyms]|[k] packet_rcv
     5.00%|50|swapper|[kernel.kallsyms]|[k] default_idle
     5.00%|50|perf|[kernel.kallsyms]|[k] pipe_read
     5.00%|50|ksoftirqd/0|[kernel.kallsyms]|[k] ieee80211_rx_napi
     5.00%|50|kworker/0:1|[kernel.kallsyms]|[k] strlen
"""

SYMBOLS = """ffffffff81000000 T _stext
ffffffff81000010 t pipe_write
ffffffffc0000000 t ieee80211_rx_napi	[mac80211]
ffffffffc0000010 t pipe_write	[mac80211]
"""


class Profile(unittest.TestCase):
    """What the samples of a profile are taken for."""

    def test_samples_are_told_apart_by_process_and_by_what_is_done(self):
        """What nobody does isn't counted, nor what the profile takes itself."""
        wanted = {("bridge", profiling.ITSELF): 400, ("bridge", "pipes"): 200, ("apctl", "pipes"): 100,
                  ("iperf3", profiling.PACKETS): 100, ("ksoftirqd/0", profiling.RADIO): 50,
                  ("kworker/0:1", profiling.REST): 50}
        self.assertEqual(profiling.by_process(REPORT, profiling.modules_of(SYMBOLS)), wanted)

    def test_shares_are_of_owners_and_of_the_kernels_works(self):
        """The former come first, the largest before others, and are all of it together."""
        found = compare.shares(profiling.by_process(REPORT, profiling.modules_of(SYMBOLS)), 1800)
        wanted = {"`tools/bridge`: its own": 800, "`tools/bridge`: the kernel's": 400,
                  f"{compare.OTHERS}: the kernel's": 400, "`apctl`: the kernel's": 200, "the kernel's: pipes": 600,
                  f"the kernel's: {profiling.PACKETS}": 200, f"the kernel's: {profiling.RADIO}": 100,
                  f"the kernel's: {profiling.REST}": 100}
        self.assertEqual({name: round(part) for name, part in found.items()}, wanted)
        self.assertEqual(list(found)[0], "`tools/bridge`: its own")
        self.assertEqual(round(sum(part for name, part in found.items() if not name.startswith("the kernel's"))), 1800)


LOG = """2026-11-27T12:00:02Z live: 02:bb:00:00:00:00 was forgotten by 02:00:00:00:01:01: silent for 14 seconds
2026-11-27T12:00:02Z live: 02:bb:00:00:00:01 was forgotten by 02:00:00:00:01:01: silent for 14 seconds
2026-11-27T12:00:03Z live: 46 more lines of stations in one second, of 02:00:00:00:01:01
2026-11-27T12:00:03Z live: 02:bb:00:00:00:02 was forgotten by 02:00:00:00:01:01: silent for 14 seconds
"""


class Log(unittest.TestCase):
    """What is read from the log of the access point."""

    def test_who_is_forgotten_without_a_line_of_the_log_is_counted_too(self):
        """The log has no room for each."""
        self.assertEqual(compare.forgotten(LOG), 49)
        self.assertEqual(compare.forgotten(""), 0)


BSSID, STATION, GROUP = (bytes.fromhex(text) for text in ("020000000101", "020000000201", "ffffffffffff"))


def frame(kind, receiver, number, stamp=0):
    """A frame of a network, of this first octet."""
    return bytes([kind, 0, 0, 0]) + receiver + BSSID + BSSID + bytes([number << 4, 0]) + stamp.to_bytes(8, "little")


def unit_for_station(number, body):
    """A unit of a network for a station, with this body in hexadecimal."""
    return bytes([0x08, 2, 0, 0]) + STATION + BSSID + BSSID + bytes([number << 4, 0]) + bytes.fromhex(body)


class OnAir(unittest.TestCase):
    """What another radio heard beside what was written."""

    beacons = [frame(0x80, GROUP, number) for number in range(3)]
    units = [frame(0x08, GROUP, number) for number in range(4)]
    answer = frame(0x08, STATION, 9)

    def test_a_beacon_may_overtake_frames_for_a_group(self):
        """And frames for a station go whenever they go."""
        one, two, _ = self.beacons
        wrote = [one, self.answer, *self.units, two]
        stage.same_on_air("heard", [one, self.units[0], two, *self.units[1:], self.answer], wrote)

    def test_nothing_may_overtake_a_beacon(self):
        """Not one frame for a group, of several."""
        one, two, _ = self.beacons
        with self.assertRaisesRegex(Failed, "1 frames for a group went before a beacon"):
            stage.same_on_air("heard", [one, self.units[0], two, self.units[1]], [one, two, *self.units[:2]])

    def test_frames_of_a_kind_keep_their_order_and_number(self):
        """Beacons do, and frames for a group."""
        for wrote in (self.beacons, self.units):
            for heard in (wrote[::-1], wrote[1:], [wrote[0], *wrote], [wrote[0], self.answer, *wrote[1:]]):
                with self.assertRaises(Failed):
                    stage.same_on_air("heard", heard, wrote)

    def test_the_timestamp_is_left_out_that_the_kernels_radio_writes(self):
        """Of beacons from Linux 7 on, of probe responses always."""
        for release, leaves_beacons_out in (("6.1.0-50-amd64", False), ("6.12.117+deb13-amd64", False),
                                            ("7.3.4+deb13-amd64", True)):
            stamped = stage.stamped_by_radio(release)
            for kind, is_left_out in ((0x80, leaves_beacons_out), (0x50, True), (0x08, False)):
                found = [stage.comparable(frame(kind, GROUP, 1, stamp), stamped) for stamp in (7, 8)]
                self.assertEqual(found[0] == found[1], is_left_out, (release, kind))


class HandedBack(unittest.TestCase):
    """Units that went back to the program, since their station dozed."""

    bssid = BSSID.hex(":")
    lost, unsent, other = (unit_for_station(number, text) for number, text in
                           ((1, "aaaa03000000080001"), (2, "aaaa03000000080002"), (3, "424203")))
    record = ["W 02:00:00:00:01:01 020000000201020000000101080000", "# handed back: the lines from here on are units",
              "W 02:00:00:00:01:01 020000000201020000000101080001", "W 02:00:00:00:01:01 020000000201020000000101080002",
              "# handed back: up to here", "T", "W 02:00:00:00:01:01 0200000002010200000001010003424203"]

    def test_the_record_says_which_went_back(self):
        """Only lines between its comments do."""
        found = stage.handed_back(self.record)
        wanted = {(self.bssid, stage.wired_form(octets)): 1 for octets in (self.lost, self.unsent)}
        self.assertEqual(found, wanted)

    def test_what_went_back_before_it_was_sent_needs_not_be_heard(self):
        """All else does: what went back after it was lost, and what didn't go back."""
        again = [unit_for_station(number, octets[24:].hex()) for number, octets in ((4, self.lost), (5, self.unsent))]
        wrote, heard = [self.lost, self.unsent, *again, self.other], [self.lost, *again, self.other]
        back = stage.handed_back(self.record)
        self.assertEqual(stage.without_unsent(self.bssid, wrote, heard, back), heard)
        for missing in (again[0], self.other):
            without = [octets for octets in heard if octets != missing]
            found = stage.without_unsent(self.bssid, wrote, without, back)
            self.assertEqual(found == without, missing == again[0])
        self.assertEqual(stage.without_unsent("02:00:00:00:01:02", wrote, heard, back), wrote)


class FullNetworks(ToolTest):
    """Made-up stations that fill networks."""

    def setUp(self):
        super().setUp()
        self.networks = [crowding.Network(f"02:00:00:00:01:0{place}", f"full{place}") for place in (1, 2)]
        self.sent, self.waiting, self.refusing = [], [], set()
        air = mock.Mock(send=self.send, recv=self.recv)
        self.patch((crowding.socket, "socket", lambda *_: air), (crowding, "ANSWER_SECONDS", 0))
        self.crowd = crowding.Crowd("obs0", self.networks)

    def send(self, packet):
        """The access point hears a frame, and answers an association request; the radio shows that it sent that one."""
        octets = packet[8:]
        self.sent.append(octets)
        if octets[0] == 0:
            status = 17 if octets[10:16] in self.refusing else 0
            answer = b"\x10\0\0\0" + octets[10:16] + octets[4:10] * 2 + bytes(4) + bytes([status, 0, 1, 0xc0])
            self.waiting += [bytes([0, 0, 10, 0, 0, 0x80, 0, 0, 0, 0]) + octets,
                             bytes([0, 0, 8, 0, 0, 0, 0, 0]) + answer]

    def recv(self, *_):
        """What the monitor interface shows."""
        if not self.waiting:
            raise BlockingIOError
        return self.waiting.pop(0)

    def test_those_that_are_not_associated_ask_again(self):
        """By what they hear, and no others."""
        self.refusing = {self.networks[1].station(1)}
        self.crowd.join(range(3))
        self.assertEqual(list(self.crowd.joined.values()), [{0, 1, 2}, {0, 2}])
        self.assertEqual(len(self.sent), 12)
        self.refusing.clear()
        self.crowd.join(range(3))
        self.assertEqual([(octets[0], octets[10:16]) for octets in self.sent[12:]],
                         [(kind, self.networks[1].station(1)) for kind in (0xb0, 0)])
        self.assertEqual(list(self.crowd.joined.values()), [{0, 1, 2}] * 2)


class Folders(ToolTest):
    """Files of starts of one name."""

    def test_each_start_has_a_folder_of_its_own(self):
        """By numbers."""
        names = [os.path.basename(stage.new_folder(self.folder, "silence")) for _ in range(3)]
        self.assertEqual(names, ["silence", "silence-2", "silence-3"])


class Shares(unittest.TestCase):
    """What is said of networks that share the air, and what has to hold."""

    figures = share_cases.Figures(units=2990, at_95=0.84, worst=1203.4, lost=2, beacons=131.2, guests=1010,
                                  answers=301.0, busy=0.3)

    def test_a_cell_says_all_figures(self):
        """The guests are left out where they have nothing to receive."""
        self.assertEqual(str(self.figures), "2,990; 0.8, 1,203; 2; 131; guests 1,010")
        alone = share_cases.Figures(3000, 12.6, 21.2, 0, 104.0, None, 0.0, 0.3)
        self.assertEqual(str(alone), "3,000; 13, 21; 0; 104")

    def test_each_aim_that_is_missed_is_told_with_its_figure(self):
        """And no other."""
        missed = self.figures.misses(share_cases.Aims(guests=1011), "fair")
        self.assertEqual(missed, ["2,990 units, not 3,000", "of 1,203 ms at worst, not 150", "2 pings lost, not 0",
                                  "131 ms without a beacon, not 130", "1,010 units of guests, not 1,011"])
        easy = share_cases.Aims(2990, 0.84, 1204, 2, 132, 132, 1010)
        self.assertEqual(self.figures.misses(easy, "fair"), [])
        late = share_cases.Aims(2990, 0.8, 1204, 2, 132, 132, 1010)
        self.assertEqual(self.figures.misses(late, "fair"), ["a delay of 0.8 ms at 95 %, not 0.8"])
        probed = share_cases.Aims(2990, 0.84, 1204, 2, 132, 132, 1010, 300)
        self.assertEqual(self.figures.misses(probed, "fair"), ["301 ms of answers to probes, not 300"])

    def test_beacons_may_be_later_on_one_queue_where_a_guest_vanishes(self):
        """There alone."""
        vanished = next(row for row in share_cases.ROWS if "vanishes" in row.name)
        figures = share_cases.Figures(2990, 50.0, 100.0, 1, 150.0, 300, 0.0, 0.3)
        self.assertEqual(figures.misses(vanished.aims, "one"), [])
        self.assertEqual(figures.misses(vanished.aims, "fair"), ["150 ms without a beacon, not 130"])

    def test_nothing_received_is_no_good_delay(self):
        """It is endless."""
        none = sharing.Delays([])
        self.assertEqual((none.at(95), none.at(100)), (float("inf"), float("inf")))
        some = sharing.Delays([float(number) for number in range(100, 0, -1)])
        self.assertEqual((some.at(95), some.at(100)), (95.0, 100.0))

    def test_silence_counts_from_the_begin_and_to_the_end(self):
        """So a network that never sends again is silent for long."""
        self.assertEqual(sharing.longest_silence([1.0, 2.0, 4.5], 0.5, 5.0), 2.5)
        self.assertEqual(sharing.longest_silence([1.0, 2.0], 0.5, 9.0), 7.0)
        self.assertEqual(sharing.longest_silence([], 1.0, 9.0), 8.0)
        self.assertEqual(sharing.longest_silence([0.1, 1.2, 1.9, 9.5], 1.0, 2.0), 0.7)

    def test_weights_are_words_of_the_access_point(self):
        """A weight of 1 needs none."""
        point = points.Own.__new__(points.Own)
        wanted = {(1, 1, 1): (), (1, 1): (), (2, 1): ("--share", "02:00:00:00:01:01=2")}
        for division in share_cases.DIVISIONS:
            self.assertEqual(division.words(point), wanted[division.weights])

    def test_parts_of_the_air_leave_beacons_out(self):
        """And others' frames."""
        class Stage:
            """An air that has counted."""

            class air:  # pylint: disable=invalid-name
                """What it counted."""

                @staticmethod
                def airtimes():
                    """Two networks, one of them twice, a beacon, and a stranger."""
                    return [airing.Airtime("02:00:00:00:01:01", "a", "data", 1, 30, 30, 0),
                            airing.Airtime("02:00:00:00:01:01", "b", "probe", 1, 20, 0, 0),
                            airing.Airtime("02:00:00:00:01:01", "b", "beacon", 1, 900, 900, 0),
                            airing.Airtime("02:00:00:00:01:02", "c", "data", 1, 150, 20, 0),
                            airing.Airtime("02:00:00:00:09:09", "c", "data", 1, 150, 20, 0)]

        played = share_cases.Cases([], Stage)
        parts_of_air = played.parts(points.Own.__new__(points.Own), 2)
        self.assertEqual(parts_of_air.sending, [25.0, 75.0])
        self.assertEqual(parts_of_air.with_spaces, [32.0, 68.0])

    def test_air_times_are_read(self):
        """As the air writes them."""
        line = "from 02:00:00:00:01:ab to ff:ff:ff:ff:ff:ff beacon tries 2 sending 15 spaces 11 dropped 3"
        air = airing.Air.__new__(airing.Air)
        air.tell = lambda said: [line, "refused 0"] if said == "airtime" else []
        self.assertEqual(air.airtimes(), [airing.Airtime("02:00:00:00:01:ab", "ff:ff:ff:ff:ff:ff", "beacon", 2, 15, 11,
                                                         3)])

    def test_no_row_is_asked_for_by_the_name_of_another(self):
        """Each can be run alone."""
        names = [row.name for row in share_cases.ROWS] + [division.name for division in share_cases.DIVISIONS]
        for name in names:
            self.assertEqual([other for other in names if name in other], [name])
