"""Tests of what the cases of a site of two access points measure, and of how they tell it."""
import contextlib
import io
import struct
import unittest

import points
import roaming
from common import ToolTest, module_of
from dozing import Came
from frames import address_of
from stations import Failed

MILLISECOND, SECOND = 10 ** 6, 10 ** 9
STATION, OTHER = "02:00:00:00:02:00", "02:00:00:00:03:00"
site_cases = module_of("guest", "site-cases")


def frame(source, behind):
    """A frame of Ethernet to all."""
    return b"\xff" * 6 + address_of(source) + behind


class Measured(ToolTest):
    """What is read of a wire, and of units that came."""

    def test_updates_are_known(self):
        """Also one that was filled up; another frame isn't one."""
        update = frame(STATION, roaming.UPDATE)
        self.assertTrue(roaming.is_update(update) and roaming.is_update(update + bytes(40)))
        self.assertFalse(roaming.is_update(frame(STATION, roaming.PLAIN)))

    def test_a_capture_has_times(self):
        """Of each packet, and a packet that was cut isn't lost for it."""
        packets = ((3, 5, b"one"), (4, 999999, b"second"))
        path = self.write("capture", bytes(24) + b"".join(
            struct.pack("<IIII", seconds, microseconds, len(octets), len(octets)) + octets
            for seconds, microseconds, octets in packets))
        wanted = [(3 * SECOND + 5000, b"one"), (4 * SECOND + 999999000, b"second")]
        self.assertEqual(roaming.timed_packets(path), wanted)

    def test_the_first_frame_of_a_source_behind_a_moment(self):
        """Others and earlier ones don't count; 0 stands for none."""
        frames = [(1, frame(STATION, b"")), (5, frame(OTHER, b"")), (7, frame(STATION, b"")), (9, frame(STATION, b""))]
        self.assertEqual([roaming.first_after(frames, moment, STATION) for moment in (1, 2, 8, 10)], [1, 7, 9, 0])

    def test_silence_counts_from_the_begin_and_to_the_end(self):
        """So a station to which nothing comes any more is silent for long."""
        came = Came(3, [(0, 1010 * MILLISECOND), (0, 1030 * MILLISECOND), (0, 1500 * MILLISECOND)])
        self.assertAlmostEqual(roaming.longest_silence(came, 1.0, 1.6), 470.0)
        self.assertAlmostEqual(roaming.longest_silence(came, 1.0, 3.0), 1500.0)
        self.assertAlmostEqual(roaming.longest_silence(Came(3), 1.0, 3.0), 2000.0)

    def test_the_first_unit_behind_a_moment(self):
        """Infinite where none came."""
        came = Came(3, [(0, 10 * MILLISECOND), (0, 30 * MILLISECOND)])
        self.assertEqual([roaming.first_delay(came, moment * MILLISECOND) for moment in (0, 11, 30, 31)],
                         [10.0, 19.0, 0.0, float("inf")])

    def test_a_stations_own_first_frame(self):
        """An update isn't its own."""
        frames = [(1 * MILLISECOND, frame(STATION, roaming.UPDATE)), (5 * MILLISECOND, frame(STATION, roaming.PLAIN))]
        self.assertEqual(site_cases.first_own_delay(frames, 1 * MILLISECOND), 4.0)

    def test_access_points_of_a_site_differ(self):
        """In addresses, channels, files and interfaces; their networks are the same."""
        kind = roaming.Kind("ours", self.folder, "live", "apctl")
        own = [kind.make(f"phy{number}", number, channel) for number, channel in enumerate(roaming.CHANNELS)]
        beside = [roaming.Kind("hostapd", self.folder).make(f"phy{number}", number, 1) for number in (0, 1)]
        self.assertEqual([point.bssid(2) for point in own], ["02:00:00:00:01:03", "02:00:00:00:11:03"])
        self.assertEqual([point.bssid(2) for point in beside], ["02:00:00:00:01:02", "02:00:00:00:11:02"])
        self.assertEqual([point.channel for point in own], [1, 6])
        self.assertEqual(len({point.config for point in (*own, *beside)}), 4)
        self.assertEqual([point.words[point.words.index("--monitor") + 1] for point in own], ["mon0", "mon1"])
        self.assertEqual([point.interface_of(place) for point in beside for place in (0, 1)],
                         ["ap0", "ap0_1", "ap1", "ap1_1"])
        self.assertIsInstance(beside[0], points.Hostapd)


class FakeSite:
    """A site that only notes what begins and ends."""

    def __init__(self):
        self.points, self.done = [], []

    def begin(self, kind, channels, more):
        """Begins."""
        self.done.append((kind.name, channels, more))

    def end(self):
        """Ends."""
        self.done.append("end")


class Told(unittest.TestCase):
    """What a row says, and whether it passes."""

    def played(self, measure, program="apctl"):
        """Plays a row: what was told, and the cases."""
        site = FakeSite()
        cases = site_cases.Cases([], site)
        cases.keep_logs = lambda name: None
        kind = roaming.Kind("ours" if program else "hostapd", "folder", program=program)
        with contextlib.redirect_stdout(io.StringIO()) as told:
            cases.try_row(kind, site_cases.Row("it roams", measure, more=("--no-update",)))
        self.assertEqual(site.done, [(kind.name, roaming.CHANNELS, ("--no-update",)), "end"])
        return told.getvalue(), cases

    def test_an_aim_that_is_missed_fails(self):
        """It is named, and the table has the cell all the same; nothing has to hold for hostapd."""
        def measure(_):
            return site_cases.Outcome.of("3 of 100", (True, "at most 5"), (False, "at most 2"))
        told, cases = self.played(measure)
        self.assertTrue(told.startswith("FAILED: ours: it roams: 3 of 100; not met: at most 2 ("), told)
        self.assertEqual(cases.table()[2:], ["| it roams | 3 of 100 |"])
        told, cases = self.played(measure, None)
        self.assertTrue(told.startswith("passed: hostapd: it roams: 3 of 100 ("), told)
        self.assertEqual((cases.passed, cases.failed), (1, 0))

    def test_all_ends_where_a_row_fails(self):
        """So the next one finds the site as at first."""
        def measure(_):
            raise Failed("it never joins")
        told, cases = self.played(measure)
        self.assertTrue(told.startswith("FAILED: ours: it roams: it never joins ("), told)
        self.assertEqual((cases.passed, cases.failed), (0, 1))
