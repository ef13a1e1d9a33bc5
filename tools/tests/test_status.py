"""Tests of the status that tools/live --status serves: what is shown of an SSID, the text format of Prometheus, the
server over a status document that a test gives, and tools/status beside a bridge that only has its socket."""
import contextlib
import json
import os
import re
import shutil
import signal
import socket
import subprocess
import sys
import time
import unittest
from concurrent.futures import ThreadPoolExecutor
from unittest import mock

from common import TOOLS, ToolTest, run_to_end, wait_until
from status import asking, server
from status.asking import status_of
from status.document import NO_NAME, NOT_YET, Untold, complete, name_of
from status.metrics import Family, Kind, metrics_of
from status.page import page_text
from status.server import MOST_CONNECTIONS, MOST_HEAD, policy_of, serve
from statuses import (FakeBridge, answer_of, answer_once_it_listens, document, free_port, line_of, network, only_known,
                      station)
from texts import read_text

MARKUP = b'</script><b onclick="x">&\\"'
THREE = document(
    network(1, b"guests", [station(1), station(2, dozes=True, kept=3, signal=None), only_known(3)],
            refusals={"1": 5, "18": 1}),
    network(2, MARKUP, counts=None, wire=None),
    network(3, b"\xff\n\x00", wire_down=12.5),
    drops={'the air: "late"\nframes': 3}, left_out={"the air: sent again": 12},
    faults=[{"seconds": 3.2, "text": "fault L2 line 3"}], by="active-monitors")
SAMPLE = re.compile(r"([a-z_]+)(?:\{(.*)\})? (\S+)")
NEVER = 3600.0  # so many seconds lie between points of the history where a test adds none
LABEL = re.compile(r'([a-z_]+)="((?:[^"\\\n]|\\["\\n])*)"(?:,|$)')


def parse(text):
    """A small reader of the text format: the families by their names, each its kind and its samples by their labels."""
    families = {}
    assert text.endswith("\n")
    for line in text.splitlines():
        if line.startswith("#"):
            _, word, name, rest = line.split(" ", 3)
            family = families.setdefault(name, {"samples": {}})
            assert word.lower() not in family, line
            family[word.lower()] = rest
            continue
        name, inner, number = SAMPLE.fullmatch(line).groups()
        if name not in families:  # a sample of a histogram
            base, ending = name.rsplit("_", 1)
            assert families[base]["type"] == "histogram" and ending in ("bucket", "sum", "count"), line
            families[base]["samples"][ending, inner] = float(number)
            continue
        labels, at = {}, 0
        while at < len(inner or ""):
            label = LABEL.match(inner, at)
            labels[label[1]] = re.sub(r"\\(.)", lambda found: "\n" if found[1] == "n" else found[1], label[2])
            at = label.end()
        key = tuple(labels.items())
        assert key not in families[name]["samples"], line
        families[name]["samples"][key] = float(number)
    return families


def samples(families, name, **labels):
    """The numbers of a family that have these labels."""
    return [number for key, number in families[f"waltigon_{name}"]["samples"].items()
            if labels.items() <= dict(key).items()]


class Names(unittest.TestCase):
    """What is shown of an SSID."""

    def test_utf8_is_shown_and_other_octets_by_their_digits(self):
        for octets, shown in ((b"guests", "guests"), ("Gäste ☕".encode(), "Gäste ☕"), (b"\xff\xfe", "hex fffe"),
                              (b"\xc3", "hex c3"), (b"", NO_NAME), (MARKUP, MARKUP.decode())):
            with self.subTest(octets=octets):
                self.assertEqual(name_of(octets.hex()), shown)

    def test_what_would_not_be_seen_is_escaped(self):
        for text, shown in (("\x00a\n", "\\x00a\\x0a"), ("a\u202eb", "a\\u{202e}b"), ("\U000e0041", "\\u{e0041}"),
                            (" a ", '" a "'), ("  ", '"  "'), ("\u200b", "\\u{200b}"), ("\xa0", "\\xa0")):
            with self.subTest(text=text):
                self.assertEqual(name_of(text.encode().hex()), shown)

    def test_a_name_that_was_not_told(self):
        self.assertEqual(name_of(None), NOT_YET)
        made = complete(document({**network(1, b""), "ssid": None, "counts": {}}), 0)
        self.assertEqual(samples(parse(metrics_of(made)), "network_stations", ssid=NOT_YET), [0, 0])

    def test_every_pair_of_octets_has_a_name_that_can_be_printed(self):
        for pair in range(1 << 16):
            name = name_of(pair.to_bytes(2, "big").hex())
            self.assertTrue(name.isprintable() and name.strip() == name != "", name)

    def test_the_document_keeps_what_was_told(self):
        made = complete(THREE, 1.5)
        self.assertEqual(made["now"], 1.5)
        self.assertEqual([one["name"] for one in made["networks"]], ["guests", MARKUP.decode(), "hex ff0a00"])
        for one, told in zip(made["networks"], THREE["networks"], strict=True):
            self.assertEqual({**one, **told}, one)


class Metrics(unittest.TestCase):
    """The text format of Prometheus."""

    def setUp(self):
        self.text = metrics_of(complete(THREE, 0), of_each_station=True)
        self.families = parse(self.text)

    def test_each_family_has_a_help_a_type_and_a_right_name(self):
        for name, family in self.families.items():
            self.assertRegex(name, r"^waltigon_[a-z_]+$")
            self.assertTrue(family["help"].endswith("."), name)
            kind = "histogram" if name == "waltigon_beacon_lateness_seconds" else "gauge"
            self.assertEqual(family["type"], "counter" if name.endswith("_total") else kind, name)
            self.assertTrue(family["samples"], name)

    def test_the_numbers_of_all(self):
        info = {"version": "e4965d3", "phy": "phy0", "channel": "6", "by": "active-monitors"}
        self.assertEqual(self.families["waltigon_info"]["samples"], {tuple(info.items()): 1})
        self.assertEqual(samples(self.families, "uptime_seconds"), [12.345])
        self.assertEqual(samples(self.families, "beacons_sent_total"), [1234])
        self.assertAlmostEqual(samples(self.families, "beacon_lateness_mean_seconds")[0], 0.000412)
        self.assertAlmostEqual(samples(self.families, "beacon_lateness_worst_seconds")[0], 0.0079)
        self.assertEqual(samples(self.families, "frames_dropped_total", reason='the air: "late"\nframes'), [3])
        self.assertEqual(samples(self.families, "frames_left_out_total", reason="the air: sent again"), [12])

    def test_the_numbers_of_networks(self):
        guests = {"bssid": "02:00:00:00:01:01", "ssid": "guests"}
        self.assertEqual(samples(self.families, "network_stations", **guests, state="associated"), [2])
        self.assertEqual(samples(self.families, "network_stations", **guests, state="authenticated"), [1])
        self.assertEqual(samples(self.families, "network_refusals_total", **guests, status="1"), [5])
        self.assertEqual(samples(self.families, "network_lost_units_total", **guests), [2])
        self.assertEqual(samples(self.families, "network_wire_up"), [1, 0], "one has no wire")
        self.assertEqual(samples(self.families, "network_events_total", ssid=MARKUP.decode()), [], "not known yet")
        self.assertEqual(samples(self.families, "network_stations", ssid=MARKUP.decode()), [0, 0])

    def test_how_late_beacons_were(self):
        """A histogram: its bounds in seconds, the last of them without end."""
        self.assertEqual(self.families["waltigon_beacon_lateness_seconds"]["samples"], {
            ("bucket", 'le="0.001"'): 1200, ("bucket", 'le="0.01"'): 1234, ("bucket", 'le="0.2"'): 1234,
            ("bucket", 'le="+Inf"'): 1234, ("sum", None): 0.508, ("count", None): 1234})

    def test_how_the_radio_does(self):
        for radio, wanted in (({"down": None, "unsent": None, "elsewhere": None}, [1, 1, 1]),
                              ({"down": 2.5, "unsent": None, "elsewhere": None}, [0, 1, 1]),
                              ({"down": None, "unsent": 6.0, "elsewhere": 2412}, [1, 0, 0])):
            families = parse(metrics_of(complete(document(radio=radio), 0)))
            found = [samples(families, f"radio_{name}")[0] for name in ("up", "sends", "on_channel")]
            self.assertEqual(found, wanted, radio)

    def test_how_stations_came_and_went(self):
        guests = {"bssid": "02:00:00:00:01:01", "ssid": "guests"}
        self.assertEqual(samples(self.families, "network_joins_total", **guests), [9])
        for reason, number in (("said", 3), ("silent", 2), ("unassociated", 1), ("kicked", 0), ("moved", 1)):
            self.assertEqual(samples(self.families, "network_leaves_total", **guests, reason=reason), [number])
        self.assertEqual(samples(self.families, "network_moves_total", **guests, direction="in"), [2])
        self.assertEqual(samples(self.families, "network_moves_total", **guests, direction="out"), [1])
        self.assertEqual(samples(self.families, "network_claims_total", **guests), [1])
        self.assertEqual(samples(self.families, "network_wire_updates_total"), [4, 4], "one has no wire")

    def test_limits_and_what_comes_near_them(self):
        told = document(network(1, b"x", quota=500, max_stations=2007, max_known=10000, air={
            "weight": 1, "seconds": 1.5, "waiting": 3, "waiting_octets": 4200, "most_waiting_octets": 2097152,
            "sent_again": 8, "unacknowledged": 7, "unsent": {}}))
        families = parse(metrics_of(complete(told, 0)))
        for name, number in (("max_stations", 2007), ("max_known_stations", 10000), ("quota_units", 500),
                             ("air_waiting_frames", 3), ("air_waiting_bytes", 4200), ("air_max_waiting_bytes", 2097152),
                             ("repeated_units_total", 8), ("unacknowledged_units_total", 7)):
            self.assertEqual(samples(families, f"network_{name}"), [number], name)

    def test_single_stations_are_left_out_unless_asked_for(self):
        text = metrics_of(complete(THREE, 0))
        self.assertNotIn("station=", text)
        self.assertNotIn("02:aa", text)
        self.assertEqual([line for line in self.text.splitlines() if "waltigon_station_" not in line], text.splitlines())

    def test_stations_that_are_not_listed_are_counted(self):
        listed = [station(number, dozes=number < 300) for number in range(1000)]
        crowded = network(1, b"x", listed, known=5000, associated=2007, dozing=700)
        families = parse(metrics_of(complete(document(crowded), 0)))
        self.assertEqual(samples(families, "network_stations", state="associated"), [2007])
        self.assertEqual(samples(families, "network_stations", state="authenticated"), [2993])

    def test_who_holds_a_quota(self):
        holder = {"address": "02:aa:00:00:00:01", "kept": 450, "listen": 65535}
        told = document(network(1, b"x", quota=500, holder=holder), network(2, b"y", quota=7, holder=None),
                        network(3, b"z", counts=None, quota=7, holder=None))
        families = parse(metrics_of(complete(told, 0)))
        self.assertEqual(samples(families, "network_quota_units"), [500, 7, 7])
        self.assertEqual(samples(families, "network_held_units"), [450, 0], "not known yet of the third")

    def test_the_numbers_of_stations(self):
        first, second = ({"bssid": "02:00:00:00:01:01", "station": f"02:aa:00:00:00:0{number}"} for number in (1, 2))
        self.assertEqual(samples(self.families, "station_bytes_total", **first, direction="to"), [10240])
        self.assertEqual(samples(self.families, "station_frames_total", **first, direction="from"), [1])
        self.assertEqual(samples(self.families, "station_rate_bytes_per_second", **first), [54e6 / 8, 5.5e6 / 8])
        self.assertEqual(samples(self.families, "station_signal_dbm", **first), [-30])
        self.assertEqual(samples(self.families, "station_signal_dbm", **second), [], "not known")
        self.assertEqual(samples(self.families, "station_kept_units", **second), [3])
        self.assertEqual(samples(self.families, "station_dozes", **second), [1])
        self.assertEqual(samples(self.families, "station_heard_seconds", **second), [0.25])
        self.assertNotIn("02:aa:00:00:00:03", self.text, "one that only authenticated has no figures of its own")

    def test_label_values_and_helps_come_back_as_they_were(self):
        for text in ('"', "\\", "\n", '\\n"\\"', "\\\\\n", "ä{}, =", MARKUP.decode()):
            family = Family("waltigon_x", Kind.GAUGE, "a\\b\nc.")
            family.add(0.5, name=text, other="o")
            lines = list(family.lines())
            self.assertEqual(lines[0], "# HELP waltigon_x a\\\\b\\nc.")
            self.assertEqual(parse("\n".join(lines) + "\n")["waltigon_x"]["samples"],
                             {(("name", text), ("other", "o")): 0.5})

    def test_no_network_and_large_numbers(self):
        empty = parse(metrics_of(complete(document(), 0)))
        self.assertNotIn("waltigon_network_stations", empty)
        large = document(beacons={"sent": 2**63, "late_ms_mean": None, "late_ms_worst": None, "missed": 0})
        self.assertIn(f"\nwaltigon_beacons_sent_total {2**63}\n", metrics_of(complete(large, 0)))

    @unittest.skipUnless(shutil.which("promtool"), "promtool isn't there: Debian's package prometheus has it")
    def test_promtool_finds_nothing(self):
        done = run_to_end(["promtool", "check", "metrics"], input=self.text)
        self.assertEqual((done.returncode, done.stdout + done.stderr), (0, ""))


class Serving(unittest.TestCase):
    """The server over a document that a test gives."""

    def setUp(self):
        self.told = THREE
        self.asked = 0
        self.server = serve(0, self.ask, each=NEVER)
        self.addCleanup(self.server.close)
        self.port = self.server.server_address[1]

    def ask(self):
        """Gives the document, or raises what stands in its place."""
        self.asked += 1
        if isinstance(self.told, Exception):
            raise self.told
        return self.told

    def get(self, path, method="GET", host=None, site=None):
        """Asks for something: the status, the headers, and the text."""
        return answer_of(self.port, path, method=method, host=host, site=site)

    def raw(self, octets):
        """Sends octets, and reads until the connection is closed."""
        with socket.create_connection(("127.0.0.1", self.port), timeout=20) as connection:
            connection.sendall(octets)
            with contextlib.suppress(ConnectionResetError):
                return b"".join(iter(lambda: connection.recv(1 << 16), b""))
        return b""

    def test_the_three_forms(self):
        status, headers, text = self.get("/")
        self.assertEqual((status, headers["Content-Type"]), (200, "text/html; charset=utf-8"))
        self.assertTrue(text.startswith("<!DOCTYPE html>"))
        status, headers, text = self.get("/status.json")
        self.assertEqual((status, headers["Content-Type"]), (200, "application/json"))
        made = json.loads(text)
        self.assertEqual({**made, "now": 0}, complete(THREE, 0))
        self.assertAlmostEqual(made["now"], time.time(), delta=20)
        status, headers, text = self.get("/metrics?any")
        self.assertEqual((status, headers["Content-Type"]), (200, "text/plain; version=0.0.4; charset=utf-8"))
        self.assertEqual(text, metrics_of(complete(THREE, 0)))

    def test_head_is_answered_as_get_without_the_text(self):
        for path in ("/", "/metrics", "/none"):
            status, headers, text = self.get(path, "HEAD")
            other_status, other_headers, other = self.get(path)
            self.assertEqual((status, headers["Content-Length"], text), (other_status, str(len(other.encode())), ""))
            self.assertEqual(headers["Content-Length"], other_headers["Content-Length"])

    def test_no_other_method(self):
        for method in ("POST", "PUT", "DELETE", "OPTIONS", "PATCH", "TRACE", "CONNECT", "BREW", "get"):
            status, headers, _ = self.get("/", method)
            self.assertEqual((status, headers["Allow"]), (405, "GET, HEAD"), method)
        self.assertEqual(self.asked, 0)

    def test_an_unknown_path(self):
        for path in ("/status", "/metrics/", "/index.html", "/../status.json", "/%2e"):
            self.assertEqual(self.get(path)[0], 404, path)
        answer = self.raw(b"GET http://elsewhere/metrics HTTP/1.1\r\nHost: localhost\r\n\r\n")
        self.assertTrue(answer.startswith(b"HTTP/1.1 404 "), answer[:60])
        self.assertEqual(self.asked, 0)

    def test_only_this_machine_as_the_host(self):
        for host in ("localhost", "LocalHost:8080", "127.0.0.1", f"127.0.0.1:{self.port}"):
            self.assertEqual(self.get("/metrics", host=host)[0], 200, host)
        asked = self.asked
        for host in ("evil.example", "127.0.0.1.evil.example", "localhost.evil.example:80", "localhost:", "[::1]",
                     "127.0.0.1:123456", "localhost@evil.example", "127.0.0.2", "0.0.0.0", "localhost,evil.example"):
            self.assertEqual(self.get("/metrics", host=host)[0], 421, host)
        for head in (b"", b"Host: localhost\r\nHost: evil.example\r\n", b"Host:\r\n"):
            answer = self.raw(b"GET /metrics HTTP/1.1\r\n" + head + b"\r\n")
            self.assertTrue(answer.startswith(b"HTTP/1.1 421 "), answer[:60])
        self.assertEqual(self.asked, asked)

    def test_what_a_page_of_another_site_has_a_browser_ask(self):
        """Nothing is told, the page itself included, and the bridge isn't asked. A request that says nothing is
        answered."""
        self.enterContext(mock.patch.object(server, "FRESH_SECONDS", 0))
        for path in ("/", "/status.json", "/history.json", "/metrics"):
            for site in ("same-origin", "none", None):
                self.assertEqual(self.get(path, site=site)[0], 200, (path, site))
        asked = self.asked
        for path in ("/", "/status.json", "/history.json", "/metrics", "/none"):
            for site in ("cross-site", "same-site", "", "Same-Origin", "same-origin, cross-site"):
                status, _, text = self.get(path, site=site)
                self.assertEqual((status, text.partition(" ")[0]), (403, "403"), (path, site))
        head = b"Host: localhost\r\nSec-Fetch-Site: none\r\nSec-Fetch-Site: cross-site\r\n"
        answer = self.raw(b"GET / HTTP/1.1\r\n" + head + b"\r\n")
        self.assertTrue(answer.startswith(b"HTTP/1.1 403 "), answer[:60])
        self.assertEqual((asked, self.asked), (6, 6))

    def test_each_answer_keeps_a_browser_from_what_is_not_of_here(self):
        for path, status in (("/", 200), ("/status.json", 200), ("/metrics", 200), ("/none", 404)):
            got, headers, _ = self.get(path)
            self.assertEqual(got, status)
            policy = dict(part.split(" ", 1) for part in headers["Content-Security-Policy"].split("; "))
            self.assertEqual(policy["default-src"], "'none'")
            self.assertRegex(policy["script-src"], r"^'sha256-[A-Za-z0-9+/=]+'$")
            self.assertEqual((headers["X-Content-Type-Options"], headers["Cache-Control"], headers["Connection"]),
                             ("nosniff", "no-store", "close"))
            self.assertEqual(headers["Access-Control-Allow-Origin"], None)
            self.assertNotIn("Python", headers["Server"])

    def test_no_request_and_a_broken_one(self):
        self.assertEqual(self.raw(b"\r\n\r\n"), b"")
        for head in (b"GET\r\n\r\n", b"GET / HTTP/9\r\n\r\n", b"GET / HTTP/1.1\r\nx y\r\n\r\n", b"\xff\xfe <b>\r\n\r\n",
                     b"GET / HTTP/1.1\nHost: localhost\nx" + b"\n\n"):
            answer = self.raw(head)
            self.assertRegex(answer.split(b"\r\n")[0], rb"^HTTP/1\.1 (4|5|200)", head)
            self.assertNotIn(b"<b>", answer.partition(b"\r\n\r\n")[0])
        self.assertEqual(self.get("/")[0], 200)

    def test_a_head_that_is_too_long(self):
        answer = self.raw(b"GET / HTTP/1.1\r\nHost: localhost\r\nx: " + b"y" * MOST_HEAD)
        self.assertTrue(answer == b"" or b" 431 " in answer.split(b"\r\n")[0], answer[:60])
        self.assertEqual(self.get("/")[0], 200)

    def test_who_is_too_slow_is_closed(self):
        with mock.patch.object(server, "SECONDS", 0.3):
            begun = time.monotonic()
            with socket.create_connection(("127.0.0.1", self.port), timeout=20) as connection:
                connection.sendall(b"GET / HT")
                with contextlib.suppress(ConnectionError):
                    while not connection.recv(1) == b"":
                        pass
            self.assertLess(time.monotonic() - begun, 10)

    def test_not_more_connections_than_there_is_room_for(self):
        with contextlib.ExitStack() as stack:
            held = [stack.enter_context(socket.create_connection(("127.0.0.1", self.port), timeout=20))
                    for _ in range(MOST_CONNECTIONS)]
            self.assertEqual(len(held), MOST_CONNECTIONS)
            self.assertTrue(wait_until(lambda: not self.has_room()))
            self.assertEqual(self.raw(b""), b"", "closed at once")
        self.assertTrue(wait_until(self.has_room))
        self.assertEqual(self.get("/")[0], 200)

    def has_room(self):
        """Whether one more would be served."""
        if self.server.room.acquire(blocking=False):
            self.server.room.release()
            return True
        return False

    def test_what_cannot_be_told_is_said(self):
        self.enterContext(mock.patch.object(server, "FRESH_SECONDS", 0))
        self.told = Untold("no access point runs")
        self.assertEqual(self.get("/status.json")[::2], (503, "503 no access point runs\n"))
        self.assertEqual(self.get("/metrics")[0], 503)
        self.assertEqual(self.get("/")[0], 200, "the page shows it")
        for told in ({}, [], document(network(1, b"x"), beacons=None), {"networks": [{"ssid": 5}]}):
            self.told = told
            self.assertEqual(self.get("/metrics")[0], 500, told)
        self.told = document(since=float("nan"))
        self.assertEqual(self.get("/status.json")[0], 500)
        self.told = THREE
        self.assertEqual(self.get("/status.json")[0], 200)

    def test_an_answer_serves_those_who_ask_soon_after(self):
        def slow():
            self.asked += 1
            time.sleep(0.1)
            return THREE
        with mock.patch.object(self.server.status, "ask", slow), mock.patch.object(server, "FRESH_SECONDS", 60), \
                ThreadPoolExecutor(8) as pool:
            self.assertEqual(set(pool.map(lambda _: self.get("/status.json")[0], range(24))), {200})
        self.assertEqual(self.asked, 1)

    def test_who_asks_while_nobody_answers_is_told(self):
        with self.server.status.asking, mock.patch.object(server, "SECONDS", 0.2):
            self.assertEqual(self.get("/metrics")[::2], (503, "503 the access point doesn't answer\n"))

    def test_it_is_on_127_0_0_1_alone_and_leaves_its_port_free(self):
        self.assertEqual(self.server.server_address[0], "127.0.0.1")
        with self.assertRaises(OSError):
            socket.create_connection(("127.0.0.2", self.port), timeout=5)
        with self.assertRaises(OSError):
            serve(self.port, self.ask)
        second = serve(0, self.ask)
        port = second.server_address[1]
        second.close()
        serve(port, self.ask).close()


class Asking(ToolTest):
    """The bridge is asked over its socket."""

    def bridge(self, answer):
        """A bridge that answers so; its socket."""
        made = FakeBridge(self.path("x.sock"), answer)
        self.addCleanup(made.close)
        return made.path

    def untold(self, path, says):
        """It can't be told, and says why."""
        with self.assertRaisesRegex(Untold, re.escape(says)):
            status_of(path)

    def test_a_document_in_pieces_and_a_long_one(self):
        long = document(*(network(number, b"n", [station(place) for place in range(2000)]) for number in range(1, 4)))
        self.assertEqual(status_of(self.bridge(lambda line: line_of(long) if line == b"status\n" else None)), long)

    def test_why_there_is_none(self):
        self.untold(self.path("none.sock"), "no access point runs at")
        left = socket.socket(socket.AF_UNIX)
        left.bind(self.path("left.sock"))
        left.close()
        self.untold(self.path("left.sock"), "no access point runs at")

    def test_what_is_no_document(self):
        answers = iter((b'{"error": "busy"}\n', b"[]\n", b"{}", b'{"version": ', b"\xff\n", None))
        path = self.bridge(lambda _: next(answers))
        with mock.patch.object(asking, "SECONDS", 0.3):
            for says in ("the bridge says: busy", "the bridge says: []", "the bridge doesn't answer",
                         "the bridge doesn't answer", "isn't whole", "isn't whole"):
                self.untold(path, says)

    def test_no_answer_in_time(self):
        with mock.patch.object(asking, "SECONDS", 0.2):
            self.untold(self.bridge(lambda _: b""), "the bridge doesn't answer")


class Tool(ToolTest):
    """tools/status, as tools/live and a person start it."""

    def metrics(self, port):
        """What it answers, once it listens."""
        status, _, text = answer_once_it_listens(port)
        return status, text

    def start(self, port, **other):
        """Starts it."""
        started = subprocess.Popen([os.path.join(TOOLS, "status"), str(port), self.path("x.sock")],
                                   stderr=subprocess.PIPE, **other)
        self.addCleanup(started.stderr.close)
        self.addCleanup(started.wait)
        self.addCleanup(started.kill)
        return started

    def test_it_serves_what_the_bridge_tells(self):
        os.chmod(self.folder, 0o755)
        port = free_port()
        started = self.start(port)
        self.assertEqual(self.metrics(port)[0], 503, "no bridge yet")
        bridge = FakeBridge(self.path("x.sock"), lambda _: line_of(THREE))
        self.addCleanup(bridge.listener.close)
        time.sleep(0.6)
        self.assertEqual(self.metrics(port), (200, metrics_of(complete(THREE, 0))))
        user = re.search(r"^Uid:\t(\d+)\t(\d+)\t(\d+)", read_text(f"/proc/{started.pid}/status"), re.M)
        self.assertNotIn("0", user.groups(), "it goes on without root's rights")
        bridge.close()
        time.sleep(0.6)
        self.assertEqual(self.metrics(port)[0], 503, "the bridge ended")
        started.send_signal(signal.SIGTERM)
        self.assertEqual(started.wait(20), -signal.SIGTERM)
        self.assertEqual(started.stderr.read(), b"")

    def test_ctrl_c_ends_it_without_a_word(self):
        # Where a shell started the tests in the background, they ignore the signal, and so would what they start.
        before = signal.signal(signal.SIGINT, signal.default_int_handler)
        self.addCleanup(signal.signal, signal.SIGINT, before)
        port = free_port()
        started = self.start(port)
        self.metrics(port)
        started.send_signal(signal.SIGINT)
        self.assertEqual((started.wait(20), started.stderr.read()), (0, b""))

    def test_it_ends_when_its_parent_has_ended(self):
        port = free_port()
        starter = ("import subprocess, sys, time\nsubprocess.Popen(sys.argv[1:])\ntime.sleep(60)")
        with subprocess.Popen([sys.executable, "-c", starter, os.path.join(TOOLS, "status"), str(port),
                               self.path("x.sock")]) as parent:
            self.metrics(port)
            parent.kill()

        def is_free():
            with contextlib.suppress(OSError):
                socket.create_server(("127.0.0.1", port)).close()
                return True
            return False
        self.assertTrue(wait_until(is_free))

    def test_a_taken_port_and_wrong_words(self):
        with socket.create_server(("127.0.0.1", 0)) as taken:
            port = taken.getsockname()[1]
            says = f"status: 127.0.0.1:{port}: Address already in use"
            self.refused("status", str(port), self.path("x.sock"), says=says)
        for word in ("0", "65536", "x", "-1", "٣"):
            started = self.start(word)
            self.assertEqual(started.wait(20), 2)
            self.assertIn(f"{word} is no port".encode(), started.stderr.read())


class Page(unittest.TestCase):
    """The page's file."""

    def setUp(self):
        self.text = page_text()

    def test_nothing_comes_from_elsewhere(self):
        self.assertNotRegex(self.text, r"(?i)https?:|//[a-z]|@import|url\(|<img|<iframe|<object|\bsrc\b")
        self.assertEqual(re.findall(r"<link.*", self.text), ['<link rel="icon" href="data:,">'])
        self.assertEqual((self.text.count("<script"), self.text.count("<style")), (1, 1))

    def test_nothing_that_was_told_becomes_markup(self):
        for word in ("innerHTML", "outerHTML", "insertAdjacent", "document.write", "eval(", "Function(", " style=",
                     "onclick", "onload"):
            self.assertNotIn(word, self.text)

    def test_the_policy_knows_its_script(self):
        changed = policy_of(self.text.replace("refresh();\n</script>", "refresh(); \n</script>"))
        self.assertNotEqual(changed, policy_of(self.text))
        self.assertEqual(changed.partition("style-src")[2], policy_of(self.text).partition("style-src")[2])
