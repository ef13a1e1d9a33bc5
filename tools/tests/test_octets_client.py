"""Tests of examples/octets_client.py: what it prints of a trace is what the program's report has."""
import os

from common import CASES, PROGRAM, ROOT, ToolTest, needs_program, report_of, run_to_end
from frames import address_text
from texts import SEPARATOR, read_text

CLIENT = os.path.join(ROOT, "examples", "octets_client.py")
MOST_LINES = 120
RUNS = ("first_trace", "three_networks_over_some_intervals", "guests_are_kept_apart", "station_dozes_and_polls")


class Client(ToolTest):
    """The client beside the built program."""

    def run_client(self, config, trace, program=PROGRAM):
        """Its status, and what it writes."""
        paths = self.write("my.toml", config), self.write("my.trace", trace)
        done = run_to_end([CLIENT, *paths, program], timeout=60)
        return done.returncode, done.stdout, done.stderr

    def texts_of(self, name):
        """The configuration and the trace of an example."""
        config, _, trace = read_text(os.path.join(CASES[name], "input")).partition(f"\n{SEPARATOR}\n")
        return f"{config}\n", trace

    def test_it_is_short(self):
        """It is at most 120 lines, so that one reads it whole."""
        self.assertLessEqual(read_text(CLIENT).count("\n"), MOST_LINES)

    @needs_program
    def test_frames_and_tables_are_those_of_the_report(self):
        """Of several examples each network's frames come in the report's order, and the tables are the report's."""
        for name in RUNS:
            status, stdout, stderr = self.run_client(*self.texts_of(name))
            self.assertEqual((status, stderr), (0, ""), name)
            lines = [line.split(" ", 1)[1] for line in stdout.splitlines() if line[0].isdigit()]
            told = [line for line in stdout.splitlines() if not line[0].isdigit()]
            for section in report_of(CASES[name]):
                bssid = address_text(section.bssid)
                for word, frames in (("air", section.air), ("wire", section.wire)):
                    found = [line.split()[2] for line in lines if line.startswith(f"{word} {bssid} ")]
                    self.assertEqual(found, [frame.hex() for frame in frames], f"{name}: {bssid}")
            report = read_text(os.path.join(CASES[name], "stdout")).splitlines()
            self.assertEqual(told, [line for line in report if line.split()[0] not in ("air", "wire")], name)

    @needs_program
    def test_each_frame_stands_behind_its_line(self):
        """The line that brought a frame is named before it."""
        stdout = self.run_client(*self.texts_of("first_trace"))[1]
        brought = [int(line.split()[0]) for line in stdout.splitlines() if line[0].isdigit()]
        self.assertEqual(brought, [2, 3, 4, 5, 8, 9])

    @needs_program
    def test_faults_of_records(self):
        """A record with a fault is told, and the next one is served."""
        config, _ = self.texts_of("first_trace")
        status, stdout, _ = self.run_client(config, "W 02:00:00:00:00:09 00\nT\n")
        self.assertEqual(status, 0)
        self.assertTrue(stdout.startswith("1 fault L4 record 1\n2 air 02:00:00:00:00:01 8000"), stdout)

    @needs_program
    def test_a_configuration_with_a_fault(self):
        """The program's own line is on standard error, and the client tells its status."""
        status, stdout, stderr = self.run_client("version = 3\n", "T\n")
        self.assertEqual((status, stdout), (1, ""))
        self.assertIn("fault C2\n", stderr)
        self.assertIn("the program has ended: status 1", stderr)

    def test_a_program_that_ends(self):
        """Where the program ends early the client says so, and doesn't wait for ever."""
        program = self.write("program", b"#!/bin/sh\nprintf 'O\\0\\0\\0\\0\\0\\001\\0\\0'\nexit 7\n", 0o755)
        status, _, stderr = self.run_client("", "T\nT\nT\n", program)
        self.assertEqual(status, 1)
        self.assertIn("the program has ended: status 7", stderr)
