"""Tests of what the cases of stations that doze count, and of the stations that are made up for them."""
import contextlib
import os
import select
import socket
import subprocess
import time
import unittest

import dozing
import following
import made_up
from common import GUEST_TOOLS, module_of
from frames import Frame, address_of
from stations import Radio

doze_cases = module_of("guest", "doze-cases")
BSSID, HARDWARE, ALL, PORT = "02:00:00:00:01:01", "02:00:00:00:03:00", "ff:ff:ff:ff:ff:ff", 9000
MILLISECOND = 1_000_000
RADIOTAP = bytes([0, 0, 8, 0, 0, 0, 0, 0])
FROM_NETWORK, MORE = 0x02, 0x20


class Counted(unittest.TestCase):
    """What came of units."""

    def test_what_is_lost_twice_and_out_of_order_is_counted(self):
        """A unit that comes again isn't out of order too."""
        stamps = [1, 2, 4, 3, 4, 6, 5, 1]
        came = dozing.Came(7, [(stamp * MILLISECOND, (stamp + 10) * MILLISECOND) for stamp in stamps])
        figures = dozing.Figures.of([came])
        self.assertEqual((figures.sent, figures.came, figures.twice, figures.out_of_order), (7, 6, 2, 2))
        self.assertEqual(figures.delays, [10.0] * 6)
        self.assertEqual(str(figures), "6 of 7; 2, 2; 10, 10, 10")

    def test_order_is_that_of_each_station(self):
        """Not that of all."""
        parts = [dozing.Came(1, [(5, 6)]), dozing.Came(1, [(4, 7)])]
        self.assertEqual(dozing.Figures.of(parts).out_of_order, 0)

    def test_a_delay_counts_from_the_wake_on_or_from_when_it_was_sent_later(self):
        """Which a row may ask for."""
        came = dozing.Came(2, [(1 * MILLISECOND, 30 * MILLISECOND), (25 * MILLISECOND, 31 * MILLISECOND)])
        self.assertEqual(came.delays(20 * MILLISECOND), [10.0, 6.0])

    def test_each_aim_that_is_missed_is_told(self):
        """What the program counted as lost is no miss."""
        figures = dozing.Figures(1000, 990, 1, 1, [1.0, 140.4])
        self.assertEqual(figures.misses(140), ["10 lost that the program didn't count", "2 twice or out of order",
                                               "a delay of 140 ms, not 140"])
        figures = dozing.Figures(1000, 990, 1, 0, [1.0, 139.0], 10)
        self.assertEqual(figures.misses(140), [])
        self.assertEqual(str(figures), "990 of 1,000 (10 counted as lost); 1, 0; 70, 139, 139")

    def test_where_nothing_came_only_that_is_told(self):
        """There is no delay."""
        figures = dozing.Figures.of([dozing.Came(3)])
        self.assertEqual(figures.misses(100), ["3 lost that the program didn't count"])
        self.assertEqual(str(figures), "0 of 3; 0, 0; nan, nan, nan")

    def test_what_a_row_asks_for_besides_is_told_too(self):
        """Behind the aims of all rows."""
        figures = dozing.Figures(1, 0, 0, 0, [], more_misses=["too few went back"])
        self.assertEqual(figures.misses(100), ["1 lost that the program didn't count", "too few went back"])

    def test_units_that_went_back_together_are_counted(self):
        """Those between two comments, and no marks of other lines."""
        since = "# handed back: the lines from here on are units of stations that doze"
        up_to = "# handed back: up to here"
        unit = "W 02:00:00:00:01:01 00"
        lines = [unit, unit, unit, since, unit, up_to, "T", since, unit, unit, "A 00", up_to, unit]
        self.assertEqual(dozing.most_handed_back(lines), 2)
        self.assertEqual(dozing.most_handed_back([]), 0)

    def test_the_largest_wakes_come_in_different_parts_of_the_beacon_interval(self):
        """None before the last one's round has ended."""
        moments = doze_cases.rounds_of(7.0, 5.0)
        self.assertEqual([round((moment - 7) / 0.1024 % 1, 6) for moment in moments], [0, 0.25, 0.5, 0.75])
        self.assertTrue(all(later - moment >= 5 for moment, later in zip(moments, moments[1:])))

    def test_no_row_is_asked_for_by_the_name_of_another(self):
        """But rows beside a download, and those whose units age."""
        names = [row.name for row in doze_cases.rows()]
        self.assertEqual(len(names), len(set(names)))
        for name in names:
            others = [other for other in names if name in other and other != name]
            self.assertTrue(all(other.startswith(f"{name}, ") for other in others), name)


class Followed(unittest.TestCase):
    """What goes on the air behind DTIM beacons."""

    OTHER, STATION = "02:00:00:00:01:03", "02:00:00:00:03:00"

    def setUp(self):
        self.heard = []

    def beacon(self, moment, count, has_group, sender=BSSID):
        """A beacon with a TIM."""
        tim = bytes([5, 4, count, 3, has_group, 0])
        self.hear(moment, 0x80, 0, ALL, sender, bytes(12) + bytes([0, 1, 0x61]) + tim)

    def unit(self, moment, receiver, has_more=False, number=0, sender=BSSID):
        """A unit of a network."""
        self.hear(moment, 0x08, FROM_NETWORK | (MORE if has_more else 0), receiver, sender, b"", number)

    def hear(self, moment, control, flags, receiver, sender, body, number=0):
        """A frame that another radio hears."""
        addresses = address_of(receiver) + address_of(sender) + address_of(sender)
        self.heard.append((moment, Frame(bytes([control, flags, 0, 0]) + addresses + (number << 4).to_bytes(2, "little")
                                         + body)))

    def found(self):
        """What followed the network's beacons."""
        return following.following(self.heard, address_of(BSSID))

    def test_the_last_unit_and_what_goes_before_it_are_found(self):
        """A unit that is tried again is one; another network's and a Null frame are none."""
        self.unit(0.9, ALL)
        self.beacon(1.0, 0, True)
        self.unit(1.005, self.STATION, number=7)
        self.unit(1.006, self.STATION, number=7)
        self.unit(1.007, ALL, has_more=True, number=8)
        self.unit(1.008, self.STATION, number=9, sender=self.OTHER)
        self.unit(1.009, self.STATION, number=9)
        self.hear(1.01, 0x48, FROM_NETWORK, self.STATION, BSSID, b"", 20)
        self.unit(1.02, ALL, number=10)
        self.unit(1.03, self.STATION, number=11)
        self.unit(1.04, ALL, number=12)
        self.beacon(1.1, 2, False)
        self.unit(1.11, ALL)
        each, = self.found()
        self.assertEqual((each.is_whole, round(each.wait, 3), len(each.before)), (True, 20.0, 2))
        self.assertEqual(following.misses([each], 2), [])
        self.assertEqual(following.misses([each], 1), ["2 units to stations between a beacon and its last unit for the "
                                                       "group"])

    def test_units_behind_the_last_one_of_the_group_that_came_do_not_count(self):
        """Where the very last one is lost, the one before it ends what is counted."""
        self.beacon(1.0, 0, True)
        self.unit(1.01, ALL, has_more=True)
        self.unit(1.02, self.STATION, number=3)
        self.beacon(1.1, 0, True)
        self.unit(1.115, ALL)
        cut, whole = self.found()
        self.assertEqual((cut.is_whole, len(cut.before), whole.is_whole), (False, 0, True))
        self.assertEqual(following.misses([cut, whole], 0), ["1 beacons without the last unit for the group"])
        self.assertEqual(following.told([cut, whole]), "the last one 12 ms behind its beacon, 15 at worst, and at most "
                                                       "0 to stations of its network between")

    def test_a_beacon_that_is_no_dtim_or_tells_of_no_group_is_followed_by_nothing(self):
        """Which is told where there is no other."""
        self.beacon(1.0, 1, True)
        self.unit(1.01, ALL)
        self.beacon(1.1, 0, False)
        self.unit(1.11, ALL)
        self.beacon(1.2, 0, True, sender=self.OTHER)
        self.unit(1.21, ALL)
        self.assertEqual(self.found(), [])
        self.assertEqual(following.misses([], 1), ["no beacon told of units for the group"])
        self.assertEqual(following.told([]), "no beacon told of any")

    def test_the_worst_interval_counts_early_late_and_missing(self):
        """By how much it differs."""
        self.assertAlmostEqual(following.unevenness([0.1, 0.2, 0.3015, 0.4], 100), 1.5)
        self.assertAlmostEqual(following.unevenness([0.1, 0.3], 100), 100)
        self.assertEqual(following.unevenness([0.1], 100), float("inf"))


class Sent(unittest.TestCase):
    """What the program `stamped` sends."""

    def test_bursts_go_at_their_times(self):
        """All of a burst at once, and no burst early."""
        with socket.socket(socket.AF_INET, socket.SOCK_DGRAM) as taken:
            taken.bind(("127.0.0.1", 0))
            taken.settimeout(20)
            begin = time.monotonic() + 0.5
            words = ["send", "127.0.0.1", str(taken.getsockname()[1]), str(begin), "1", "10", "100", "--burst", "5"]
            subprocess.run([os.path.join(GUEST_TOOLS, "stamped"), *words], check=True, capture_output=True, timeout=60)
            stamps = [int.from_bytes(taken.recv(200)[:8], "big") / 1e9 - begin for _ in range(10)]
        self.assertGreaterEqual(stamps[0], 0)
        self.assertLess(stamps[4] - stamps[0], 0.4)
        self.assertGreaterEqual(stamps[5], 0.5)
        self.assertEqual(stamps, sorted(stamps))


class Taken(unittest.TestCase):
    """What the program `stamped` takes."""

    def test_all_that_came_is_told_if_it_is_ended_meanwhile(self):
        """More than a pipe holds, so that it still tells as the signal comes."""
        number = 9000
        with socket.socket(socket.AF_INET, socket.SOCK_DGRAM) as free:
            free.bind(("127.0.0.1", 0))
            port = free.getsockname()[1]
        words = [os.path.join(GUEST_TOOLS, "stamped"), "receive", "127.0.0.1", str(port), "1000000", "1", "--stamps"]
        with subprocess.Popen(words, stdout=subprocess.PIPE) as receiving:
            self.assertEqual(receiving.stdout.readline(), b"ready\n")
            with socket.socket(socket.AF_INET, socket.SOCK_DGRAM) as sending:
                for _ in range(number):
                    sending.sendto(time.monotonic_ns().to_bytes(8, "big"), ("127.0.0.1", port))
            self.assertTrue(select.select([receiving.stdout], [], [], 60)[0], "it begins to tell")
            receiving.terminate()
            delays, stamps = receiving.communicate(timeout=60)[0].splitlines()
        self.assertEqual(len(delays.split()), len(stamps.split()))
        self.assertGreater(len(stamps.split()), 6000)


class Heard(made_up.Habit):
    """Keeps what it is told."""

    def __init__(self):
        self.told = []

    def hears_beacon(self, station, has_units):
        self.told.append(("beacon", has_units))

    def hears_unit(self, station, has_more):
        self.told.append(("unit", has_more))


class Stations(unittest.TestCase):
    """A station that is made up, without a radio."""

    def setUp(self):
        self.station = made_up.MadeUp(Radio("phy2", "wlan2"), 2, HARDWARE, "10.0.1.10", 2437, PORT, Heard())
        self.station.bssid, self.station.identifier = address_of(BSSID), 3
        self.sent = []
        self.station.send = lambda frame, rate: self.sent.append(Frame(frame))

    def take(self, control, flags, receiver, body, number=0, sender=BSSID):
        """The station hears a frame."""
        addresses = address_of(receiver) + address_of(sender) + address_of(BSSID)
        frame = bytes([control, flags, 0, 0]) + addresses + (number << 4).to_bytes(2, "little") + body
        self.station.take(RADIOTAP + frame, 7)

    def test_a_datagram_is_read_as_it_was_made(self):
        """By its port alone."""
        body = made_up.datagram("10.0.1.1", "10.0.1.10", PORT, (77).to_bytes(8, "big") + bytes(20))
        self.assertEqual(made_up.stamp_of(body, PORT), 77)
        self.assertIsNone(made_up.stamp_of(body, PORT + 1))
        self.assertIsNone(made_up.stamp_of(body[:40], PORT))
        self.assertEqual(made_up.check_sum(body[8:28]), 0)

    def test_only_what_is_for_it_or_for_a_group_comes_to_its_socket(self):
        """From its network alone."""
        sending, taken = socket.socketpair(socket.AF_UNIX, socket.SOCK_DGRAM)
        with sending, taken:
            taken.setblocking(False)
            made_up.let_through(taken, address_of(BSSID), address_of(HARDWARE))
            other = address_of("02:00:00:00:09:09")
            for start, receiver, sender in ((8, HARDWARE, BSSID), (32, HARDWARE, BSSID), (8, ALL, BSSID),
                                            (8, "02:00:00:00:03:01", BSSID), (8, HARDWARE, "02:00:00:00:01:02")):
                header = bytes([0, 0, start]) + bytes(start - 3)
                sending.send(header + bytes(4) + address_of(receiver) + address_of(sender) + other)
            sending.send(bytes([0, 0, 8, 0]))
            came = []
            with contextlib.suppress(BlockingIOError):
                while True:
                    packet = taken.recv(100)
                    came.append((packet[2], packet[packet[2] + 4:packet[2] + 10].hex(":")))
        self.assertEqual(came, [(8, HARDWARE), (32, HARDWARE), (8, ALL)])

    def test_units_for_it_are_counted_and_others_not(self):
        """Nor one that is sent again."""
        body = made_up.datagram("10.0.1.1", "10.0.1.10", PORT, (77).to_bytes(8, "big"))
        self.take(0x08, FROM_NETWORK | MORE, HARDWARE, body, 5)
        self.take(0x08, FROM_NETWORK | MORE | 0x08, HARDWARE, body, 5)
        self.take(0x08, FROM_NETWORK, HARDWARE, body, 6)
        self.take(0x08, FROM_NETWORK, "02:00:00:00:03:01", body, 7)
        self.take(0x08, FROM_NETWORK, HARDWARE, body, 8, sender="02:00:00:00:01:02")
        self.assertEqual(self.station.units, [(77, 7), (77, 7)])
        self.assertEqual(self.station.habit.told, [("unit", True), ("unit", False)])

    def test_a_beacon_says_whether_units_are_kept(self):
        """By the station's own bit."""
        for bits, has_units in ((0x08, True), (0x10, False)):
            self.take(0x80, 0, ALL, bytes(12) + bytes([5, 4, 0, 1, 0, bits]))
            self.assertEqual(self.station.habit.told.pop(), ("beacon", has_units))

    def test_who_polls_asks_at_each_so_manieth_beacon_until_no_more_are_kept(self):
        """One poll a unit."""
        habit = made_up.Polls(3)
        habit.begin(self.station)
        for _ in range(6):
            habit.hears_beacon(self.station, True)
        habit.hears_beacon(self.station, False)
        for has_more in (True, False):
            habit.hears_unit(self.station, has_more)
        self.assertEqual([(frame.type, frame.subtype) for frame in self.sent], [(2, 4), (1, 10), (1, 10), (1, 10)])
        self.assertEqual(self.sent[1].octets.hex(), "a41003c0" + BSSID.replace(":", "") + HARDWARE.replace(":", ""))

    def test_who_wakes_dozes_again_once_nothing_comes(self):
        """By the bit of its Null frames."""
        habit = made_up.Wakes(1)
        habit.begin(self.station)
        habit.hears_beacon(self.station, True)
        habit.hears_beacon(self.station, True)
        before = habit.due
        habit.hears_unit(self.station, True)
        self.assertGreater(habit.due, before)
        habit.act(self.station)
        self.assertEqual((habit.due, [frame.power_management for frame in self.sent]),
                         (made_up.NEVER, [True, False, True]))

    def test_turns_come_at_their_moments(self):
        """And end."""
        habit = made_up.Turns((5.0, True), (7.0, False))
        habit.begin(self.station)
        dues = [habit.due]
        for _ in range(2):
            habit.act(self.station)
            dues.append(habit.due)
        self.assertEqual(dues, [5.0, 7.0, made_up.NEVER])
        self.assertEqual([frame.power_management for frame in self.sent], [True, False])

    def test_naps_alternate_and_are_told_by_datagrams_where_that_is_asked(self):
        """With the bit in them."""
        habit = made_up.Naps(1, 0.1, 0.2, ("02:00:00:00:09:01", "10.0.1.1", PORT))
        for _ in range(3):
            habit.act(self.station)
        self.assertEqual([frame.power_management for frame in self.sent], [True, False, True])
        self.assertTrue(all(made_up.stamp_of(frame.body, PORT) for frame in self.sent))
        self.assertEqual({frame.third for frame in self.sent}, {address_of("02:00:00:00:09:01")})
