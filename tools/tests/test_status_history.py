"""Tests of the last ten minutes that the status page's server keeps, and of the names that an operator gives stations."""
import json
import os
import time
import unittest
import urllib.error
import urllib.request

from common import ToolTest, wait_until
from live.checks import check_station_names
from live.faults import Fault
from status.document import Untold, complete
from status.history import MOST_POINTS, History
from status.names import Names
from status.server import serve
from statuses import busy, document, network, only_known, station

FIRST, STATION = "02:00:00:00:01:01", "02:aa:00:00:00:01"


def history_of(*documents, each=5.0):
    """The history of documents that came evenly, the last of them at the moment 1000."""
    history = History()
    for place, told in enumerate(documents):
        history.take(told, 1000 - each * (len(documents) - 1 - place))
    return history


def series(history, place=0):
    """What is told of the network of a place."""
    return history.document(1000)["networks"][place]


class Points(unittest.TestCase):
    """What stands in it."""

    def test_counts_become_rates(self):
        history = history_of(busy(2, 100), busy(2, 105), busy(2, 110))
        self.assertEqual(history.document(1002)["seconds"], [12.0, 7.0, 2.0])
        self.assertEqual(series(history, 1), {"bssid": "02:00:00:00:01:02", "air": [None, 0.04, 0.04],
                                              "to": [None, 2000, 2000], "from": [None, 400, 400],
                                              "stations": [2, 2, 2], "lost": [None, 0.4, 0.4]})
        self.assertEqual(history.of_station(FIRST, STATION, 1000),
                         {"seconds": [10.0, 5.0, 0.0], "bssid": FIRST, "address": STATION, "to": [None, 1000, 1000],
                          "from": [None, 200, 200], "signal": [-30, -30, -30], "kept": [0, 0, 0]})

    def test_what_was_not_told_is_unknown_and_the_rate_behind_it_is_right(self):
        found = series(history_of(busy(1, 100), busy(1, 105), None, busy(1, 115)))
        self.assertEqual(found["to"], [None, 2000, None, 2000])
        self.assertEqual(found["stations"], [2, 2, None, 2])

    def test_a_program_that_began_anew_has_no_rate(self):
        found = series(history_of(busy(1, 100), busy(1, 105), busy(1, 3), busy(1, 8)))
        self.assertEqual(found["air"], [None, 0.02, None, 0.02])
        self.assertEqual(found["to"], [None, 2000, None, 2000])
        self.assertEqual(found["lost"], [None, 0.4, None, 0.4])

    def test_a_station_that_joined_again_lowers_no_rate(self):
        first, second = busy(1, 100), busy(1, 105)
        second["networks"][0]["stations"][0].update(octets_to=0, octets_from=0)
        history = history_of(first, second)
        self.assertEqual(series(history)["to"], [None, 1000])
        self.assertEqual(history.of_station(FIRST, STATION, 1000)["to"], [None, None])

    def test_who_is_gone_and_networks_that_are_gone_are_forgotten(self):
        first = busy(2, 100)
        second = document({**first["networks"][0], "stations": [only_known(1)]}, since=105.0)
        history = history_of(first, second)
        self.assertEqual([one["bssid"] for one in history.document(1000)["networks"]], [FIRST])
        self.assertIsNone(history.of_station(FIRST, STATION, 1000))
        self.assertIsNone(history.of_station("02:00:00:00:01:02", "02:aa:00:00:00:11", 1000))
        self.assertEqual(series(history)["stations"], [2, 0])

    def test_what_came_later_begins_later(self):
        history = history_of(busy(1, 100), busy(2, 105), busy(2, 110))
        self.assertEqual(series(history, 1)["to"], [None, None, 2000])
        self.assertEqual(series(history, 1)["stations"], [None, 2, 2])

    def test_counts_that_were_not_told_and_a_network_without_stations(self):
        empty = network(1, b"guests", counts=None)
        found = series(history_of(document(empty, since=5.0), document(empty, since=10.0)))
        self.assertEqual(found["lost"], [None, None])
        self.assertEqual(found["to"], [None, 0])

    def test_stations_that_are_not_listed_are_counted(self):
        crowded = document(network(1, b"guests", [station(1)], known=3000, associated=2007, dozing=0))
        self.assertEqual(series(history_of(crowded))["stations"], [2007])

    def test_ten_minutes_are_kept_and_no_more(self):
        """Also where points come seldom, and of sixteen networks of a thousand stations in few octets."""
        history = history_of(*(busy(1, 100 + 5 * place) for place in range(300)))
        told = history.document(1000)
        self.assertEqual((len(told["seconds"]), told["seconds"][0]), (MOST_POINTS, 600.0))
        self.assertEqual(len(told["networks"][0]["air"]), MOST_POINTS)
        self.assertEqual(len(history.of_station(FIRST, STATION, 1000)["to"]), MOST_POINTS)
        seldom = history_of(*(busy(1, 100 + 40 * place) for place in range(200)), each=40.0)
        told = seldom.document(1000)
        self.assertEqual(told["seconds"], [40.0 * place for place in range(15, -1, -1)])
        self.assertEqual(told["networks"][0]["to"], [2000] * 16)
        kept = sum(len(one.numbers) * one.numbers.itemsize for one in history.all_series())
        self.assertEqual(kept, MOST_POINTS * 4 * (5 + 2 * 4))


class Served(unittest.TestCase):
    """The server keeps it by itself, and serves it."""

    def setUp(self):
        self.told, self.began = document(network(1, b"guests", [station(1)])), time.monotonic()
        self.server = serve(0, self.ask, each=0.05)
        self.addCleanup(self.server.close)

    def ask(self):
        """The document of now, or why none is told."""
        if isinstance(self.told, Exception):
            raise self.told
        return {**self.told, "since": time.monotonic() - self.began}

    def get(self, query=""):
        """What the server answers: a document, or the status of a fault."""
        try:
            with urllib.request.urlopen(f"{self.server.url}history.json{query}", timeout=20) as answer:
                return json.load(answer)
        except urllib.error.HTTPError as fault:
            with fault:
                return fault.code

    def wait(self, is_so):
        """Waits until what is served is so."""
        self.assertTrue(wait_until(lambda: is_so(self.get())), self.get())

    def test_points_are_added_while_the_access_point_answers_and_while_it_does_not(self):
        self.wait(lambda told: len(told["seconds"]) > 3 and told["networks"][0]["stations"][-1] == 1)
        station_told = self.get(f"?bssid={FIRST}&station={STATION.upper()}")
        self.assertEqual(station_told["signal"][-1], -30)
        self.assertEqual(self.get(f"?bssid={FIRST}&station=02:aa:00:00:00:02"), 404)
        self.told = Untold("no access point runs")
        self.wait(lambda told: told["networks"][0]["stations"][-1] is None)
        self.told = document(network(1, b"guests", [station(1), station(2)]))
        self.wait(lambda told: told["networks"][0]["stations"][-1] == 2)
        self.told = {"networks": "none"}
        self.wait(lambda told: told["networks"] == [] or told["networks"][0]["stations"][-1] is None)
        self.told = document(network(1, b"guests"))
        self.wait(lambda told: told["networks"] and told["networks"][0]["stations"][-1] == 0)


class NamesFile(ToolTest):
    """The file of names."""

    def test_what_is_read(self):
        path = self.write("names", "# stations\n\n02:AA:00:00:00:01\tprinter in the hall  # of the office\n"
                                   " 02:aa:00:00:00:02   Küche\n")
        names = Names(path).look()
        self.assertEqual(names, {"02:aa:00:00:00:01": "printer in the hall", "02:aa:00:00:00:02": "Küche"})
        made = complete(document(network(1, b"guests", [station(1), station(3)])), 0, names)
        self.assertEqual([one.get("name") for one in made["networks"][0]["stations"]], ["printer in the hall", None])

    def test_what_is_refused_names_its_line(self):
        for line in ("02:aa:00:00:00:01", "02:aa:00:00:00 x", "printer 02:aa:00:00:00:01", "02-aa-00-00-00-01 x",
                     f"02:aa:00:00:00:01 {'x' * 65}", "02:aa:00:00:00:01 a\x07b"):
            with self.subTest(line=line), self.assertRaisesRegex(ValueError, r"names: line 2: not an address and a name"):
                Names(self.write("names", f"02:aa:00:00:00:09 x\n{line}\n"))
        with self.assertRaises(FileNotFoundError):
            Names(self.path("none"))

    def test_an_access_point_tells_of_a_fault_before_it_sets_anything_up(self):
        check_station_names(None)
        check_station_names(self.write("names", "02:aa:00:00:00:01 one\n"))
        with self.assertRaisesRegex(Fault, "--names: .*names: line 1: not an address"):
            check_station_names(self.write("names", "one 02:aa:00:00:00:01\n"))
        with self.assertRaisesRegex(Fault, "--names: .*No such file"):
            check_station_names(self.path("none"))

    def test_a_changed_file_is_read_again_unless_it_has_a_fault(self):
        names = Names(self.write("names", "02:aa:00:00:00:01 one\n"))
        self.write("names", "02:aa:00:00:00:01 another\n")
        self.assertEqual(names.look(), {"02:aa:00:00:00:01": "another"})
        self.write("names", "x\n")
        self.assertEqual(names.look(), {"02:aa:00:00:00:01": "another"})
        os.remove(self.path("names"))
        self.assertEqual(names.look(), {"02:aa:00:00:00:01": "another"})
