"""Tests of what tools/explain says of what a running access point tells, given as a trace or as a configuration."""
import unittest

from common import PROGRAM, ToolTest, needs_program, tool
from explaining.of_access_point import of_access_point
from explaining.source import Source

RECORD = "the trace of an access point is the file of `tools/live --record FILE`"
LOG, STATUS = "this is the log of tools/live, and no trace", "as `tools/live status --json` prints it, and no trace"
TOLD = (("Nov 28 10:32:34 ap1 waltigon-live[812]: 02:aa:00:00:00:01 joined 02:00:00:00:00:01, identifier 1", LOG),
        ("2026-11-28T10:32:34+0000 ap1 waltigon-live[812]: 02:aa:00:00:00:01 left", LOG),
        ("2026-11-28T10:32:34Z live: 2 stations of 02:00:00:00:01:01 stay; 1 are told to join again", LOG),
        ('{"_HOSTNAME":"ap1","MESSAGE":"joined","SYSLOG_IDENTIFIER":"waltigon-live"}',
         "as `journalctl -o json` prints it"),
        ('{"time": "2026-11-28T10:32:34.123Z", "event": "joined", "bssid": "02:00:00:00:00:01"}',
         "this is what `tools/live events` prints, and no trace"),
        ('waltigon_network_stations{bssid="02:00:00:00:00:01",state="associated"} 3', "the metrics of the status page"),
        ('{"version": "0.9.0", "format": 1, "phy": "phy0", "beacons": {"sent": 3}, "networks": []}', STATUS),
        ('{\n "version": "0.9.0",\n "phy": "phy0",\n "beacons": {"sent": 3},\n "networks": []\n}', STATUS),
        ('{\n  "time": "2026-11-28T10:32:34.123Z",\n  "event": "joined"\n}', "this is what `tools/live events` prints"),
        ('[\n {"bssid": "02:00:00:00:00:01", "event": "left", "station": "02:aa:00:00:00:01", "reason": 3}\n]',
         "this is what `tools/live events` prints"),
        ('{"bssid": "02:00:00:00:00:01", "ssid": "6c6162", "counts": {"events": 1}, "quota": 8, "joins": 3}', STATUS),
        ('{"address": "02:aa:00:00:00:01", "state": "associated", "signal": -40, "heard": 0.1}', STATUS),
        ('{"seconds": [0, 5], "networks": [{"bssid": "02:00:00:00:00:01", "to": [1, 2], "from": [3, 4]}]}',
         "the last ten minutes"),
        ("phy0, channel 6 by active monitors, for 0:03:20, of 0.9.0; 3 beacons, 1 ms late at worst, 0 missed",
         "this is what `tools/live status` prints, and no trace"))
OTHERS = ('{"version": 2, "channel": 6, "network": [{"bssid": "02:00:00:00:00:01", "ssid": "lab"}]}', "[[network]]",
          '{"_source": {"layers": {"frame_raw": ["b000"]}}}', '{"time": 1, "octets": "b000"}', "[",
          "Nov 28 10:32:34 ap1 hostapd[812]: wlan0: AP-ENABLED", "{", '{"event": 1}', "T", "phy0", "live",
          "A 4000 0000 ffffffffffff 02aa00000001 ffffffffffff 0000 0000", "# waltigon_info is 1")
CONFIG = """version = 1
channel = 6
interval = 100
queue = 64
[[network]]
bssid = "02:00:00:00:00:01"
ssid = "lab"
rates = "82840b16"
dtim = 1
max_stations = 8
max_known = 16
quota = 8
max_events = 100
"""


class AccessPoint(ToolTest):
    """Its log, events, status and metrics."""

    def write(self, name, text):
        """A file with a text."""
        with open(self.path(name), "w", encoding="utf-8") as file:
            file.write(text + "\n")
        return self.path(name)

    @needs_program
    def test_what_it_tells_is_named_with_its_record(self):
        config = self.write("my.toml", CONFIG)
        for text, says in TOLD:
            with self.subTest(text=text):
                _, said, _ = tool("explain", "--program", PROGRAM, "run", config, self.write("my.trace", text))
                self.assertIn("my.trace:1:1: ", said)
                self.assertIn(says, said)
                self.assertIn(f"  {RECORD}\n", said)

    @needs_program
    def test_a_line_of_it_among_a_trace_goes(self):
        config, trace = self.write("my.toml", CONFIG), self.write("my.trace", f"T\n{TOLD[2][0]}\nT")
        _, said, _ = tool("explain", "--program", PROGRAM, "run", config, trace)
        self.assertIn(f"my.trace:2:1: {LOG}", said)
        self.assertIn("  leave such lines out\n", said)

    @needs_program
    def test_as_a_configuration_it_is_named_too(self):
        for text, says in TOLD[:-1]:
            says = says.replace("as `tools/live status", "this is the status of an access point, as `tools/live status")
            _, said, _ = tool("explain", "--program", PROGRAM, "check", self.write("my.toml", text))
            self.assertIn(says.replace("no trace", "no configuration"), said)
            self.assertNotIn("--record", said)

    @needs_program
    def test_a_report_in_json(self):
        """What networks sent is no line of a trace."""
        report = '{\n"format": 1,\n"networks": [{"bssid": "02:00:00:00:00:01", "ssid_octets": "6c6162", "events": 1,' \
            f'"air": ["{"5000" * 12}"]}}]\n}}'
        config = self.write("my.toml", CONFIG)
        _, said, _ = tool("explain", "--program", PROGRAM, "run", config, self.write("my.trace", report))
        self.assertIn("this is a report in JSON, as tools/report-to-json writes it, and no trace", said)
        self.assertIn("a report is what the program answers, and a trace what came to its networks", said)
        self.assertNotIn("write `A", said)

    def test_others_are_none_of_it(self):
        for text in OTHERS:
            self.assertIsNone(of_access_point(Source("x", text.encode()), 1, True), text)


if __name__ == "__main__":
    unittest.main()
