"""Tests of cases of the guest that are marked as failing, and of what those of dozing stations see on the air."""
import contextlib
import io
import unittest

import dozing
import made_up
import runner
import sendings
from common import module_of
from frames import Frame, address_of
from stations import Failed, Radio

doze_cases = module_of("guest", "doze-cases")
BSSID, HARDWARE, OTHER = "02:00:00:00:01:01", "02:00:00:00:03:00", "02:00:00:00:03:01"
ALL, PORT = "ff:ff:ff:ff:ff:ff", 9
RADIOTAP = bytes([0, 0, 8, 0, 0, 0, 0, 0])


def failing(fault):
    """A case that fails so."""
    def call():
        raise fault
    return call


class Marked(unittest.TestCase):
    """A case that is marked."""

    def tried(self, call, fails):
        """What is told of one case, and the runner with the status."""
        cases = runner.Runner([])
        with contextlib.redirect_stdout(io.StringIO()) as told, contextlib.redirect_stderr(io.StringIO()):
            passed = cases.case("it goes", call, fails)
            status = cases.end()
        return told.getvalue().splitlines(), (cases.passed, cases.failed, cases.marked), passed, status

    def test_it_is_told_as_expected_where_it_fails(self):
        """It counts as neither, and how many there are is said before the last line."""
        told, counts, passed, status = self.tried(failing(Failed("a unit came twice")), "it comes by a new number")
        self.assertEqual(told[0], "fails as marked: it goes: a unit came twice; it comes by a new number (0 s)")
        self.assertEqual(told[2:], ["marked as failing, and failed, which counts as neither: 1", "0 passed, 0 failed"])
        self.assertEqual((counts, passed, status), ((0, 0, 1), False, 0))

    def test_it_is_told_as_a_failure_where_it_passes(self):
        told, counts, passed, status = self.tried(lambda: "none came twice", "it comes by a new number")
        self.assertEqual(told[0], "FAILED: it goes: marked as failing, and it passed: none came twice (0 s)")
        self.assertEqual(told[2:], ["0 passed, 1 failed"])
        self.assertEqual((counts, passed, status), ((0, 1, 0), True, 1))

    def test_a_fault_of_another_kind_is_a_failure_all_the_same(self):
        """As where a file isn't there."""
        told, counts, _, status = self.tried(failing(OSError("no such file")), "it comes by a new number")
        self.assertEqual(told[0], "FAILED: it goes: no such file (0 s)")
        self.assertEqual((counts, status), ((0, 1, 0), 1))

    def test_others_are_told_as_before(self):
        for call, line, counts in ((lambda: None, "passed: it goes (0 s)", (1, 0, 0)),
                                   (lambda: "7 units", "passed: it goes: 7 units (0 s)", (1, 0, 0)),
                                   (failing(Failed("none came")), "FAILED: it goes: none came (0 s)", (0, 1, 0))):
            told, found, _, status = self.tried(call, "")
            self.assertEqual((told[0], found, status), (line, counts, counts[1]))

    def test_where_none_was_tried_it_fails(self):
        cases = runner.Runner(["word"])
        with contextlib.redirect_stdout(io.StringIO()):
            self.assertIsNone(cases.case("it goes", lambda: None, "why"))
            self.assertEqual(cases.end(), 1)

    def test_rows_that_are_marked_say_why(self):
        """And there are some, of which each is this access point's alone."""
        marked = [row for row in doze_cases.rows() if row.fails]
        self.assertTrue(marked)
        for row in marked:
            self.assertGreater(len(row.fails.split()), 3, row.name)


class Lost(unittest.TestCase):
    """What may be lost."""

    def test_what_the_radio_had_may_be_lost_besides(self):
        figures = dozing.Figures(100, 88, 0, 0, [1.0], counted=1, with_radio=10)
        self.assertEqual(figures.misses(10), ["1 lost that the program didn't count"])
        figures.with_radio = 11
        self.assertEqual(figures.misses(10), [])

    def test_a_row_may_let_fewer_come_out_of_order(self):
        figures = dozing.Figures(2000, 2000, 0, 2, [1.0])
        self.assertEqual(figures.misses(10), [])
        figures.most_odd = 1
        self.assertEqual(figures.misses(10), ["2 twice or out of order"])


class OnTheAir(unittest.TestCase):
    """What another radio hears of units to a station."""

    def setUp(self):
        self.heard = []

    def poll(self, is_again=False, station=HARDWARE):
        """A PS-Poll, as the simulated radios give it."""
        frame = bytearray(made_up.poll_of(address_of(BSSID), station, 1) + bytes(8))
        frame[1] |= 0x08 if is_again else 0
        self.heard.append((0.0, Frame(bytes(frame))))

    def unit(self, number, stamp=0, receiver=HARDWARE, control=0x08, flags=0x02, port=PORT):
        """A unit of the network."""
        header = bytes([control, flags, 0, 0]) + address_of(receiver) + address_of(BSSID) * 2
        body = made_up.datagram("10.0.1.1", "10.0.1.10", port, stamp.to_bytes(8, "big"))
        self.heard.append((0.0, Frame(header + (number << 4).to_bytes(2, "little") + body)))

    def polls(self):
        """What its polls brought."""
        return sendings.polls_of(self.heard, address_of(HARDWARE))

    def test_a_poll_that_comes_again_before_its_answer_asks_for_nothing(self):
        """A second unit for it is unasked."""
        self.poll()
        self.poll(is_again=True)
        self.unit(2)
        self.assertEqual(self.polls(), sendings.Polls(number=1, early=1))
        self.unit(3)
        self.assertEqual(self.polls(), sendings.Polls(number=1, early=1, unasked=1))

    def test_a_poll_that_comes_again_behind_its_answer_asks_anew(self):
        """Since none can tell it from another poll."""
        self.poll()
        self.unit(1)
        self.poll(is_again=True)
        self.unit(2)
        self.poll()
        self.unit(3)
        self.assertEqual(self.polls(), sendings.Polls(number=2))

    def test_a_unit_that_is_tried_again_is_one(self):
        """And Null frames and other stations' units are none."""
        self.poll()
        self.unit(2)
        self.unit(2, flags=0x0a)
        self.poll(station=OTHER)
        self.unit(3, receiver=OTHER)
        self.unit(4, control=0x48)
        self.assertEqual(self.polls(), sendings.Polls(number=1))

    def test_each_unit_goes_for_the_first_time_once(self):
        """Whatever number it has then."""
        for number, stamp in enumerate((30, 10, 30, 20, 10)):
            self.unit(number, stamp)
        self.unit(9, 40, receiver=OTHER)
        self.unit(10, 50, port=PORT + 1)
        self.assertEqual(sendings.first_sendings(self.heard, address_of(HARDWARE), PORT), [30, 10, 20])

    def test_two_orders_differ_where_neither_is_the_beginning_of_the_other(self):
        for one, other, place in (([1, 2, 3], [1, 2], None), ([], [1], None), ([1, 2], [1, 2], None),
                                  ([1, 2, 3], [1, 3, 2], 1), ([2], [1], 0)):
            self.assertEqual(sendings.difference(one, other), place)


class MadeUp(unittest.TestCase):
    """A made-up station of these cases, without a radio."""

    def setUp(self):
        self.station = made_up.MadeUp(Radio("phy2", "wlan2"), 2, HARDWARE, "10.0.1.10", 2437, PORT)
        self.station.bssid = address_of(BSSID)
        self.said = []
        self.station.say = self.said.append

    def take(self, receiver, number=0):
        """It hears a unit."""
        header = bytes([0x08, 2, 0, 0]) + address_of(receiver) + address_of(BSSID) * 2
        body = made_up.datagram("10.0.1.1", "10.0.1.255", PORT, (77).to_bytes(8, "big"))
        self.station.take(RADIOTAP + header + (number << 4).to_bytes(2, "little") + body, 7)

    def test_units_for_groups_are_taken_where_that_is_asked(self):
        self.take(ALL)
        self.assertEqual(self.station.units, [])
        self.station.takes_groups = True
        self.take(ALL)
        self.take(HARDWARE, 1)
        self.assertEqual(self.station.units, [(77, 7), (77, 7)])

    def test_it_dozes_at_a_unit_once_each_time_that_it_is_told_to(self):
        """And wakes after its time."""
        self.station.habit = habit = made_up.DozesAtUnit(0.3)
        self.take(HARDWARE)
        self.assertEqual((self.said, habit.due), ([], made_up.NEVER))
        habit.is_told = True
        self.take(HARDWARE, 1)
        self.take(HARDWARE, 2)
        self.assertEqual(self.said, [True])
        self.assertLess(habit.due, made_up.NEVER)
        habit.act(self.station)
        self.assertEqual((self.said, habit.due), ([True, False], made_up.NEVER))


if __name__ == "__main__":
    unittest.main()
