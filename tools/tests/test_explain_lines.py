"""Tests of `tools/explain --lines`: which line of a trace brought which answer, by what the program says."""
import os
import subprocess
import unittest

from common import CASES, PROGRAM, ROOT, ToolTest, input_of, needs_program, report_of, tool, with_report
from explaining import line_by_line
from explaining.changes import changes, has_effect
from explaining.line_by_line import Answers, Unanswered, steps
from mistakes import CONFIG, PROBE
from texts import SEPARATOR, Section, Station

FIRST = os.path.join(CASES["first_trace"], "input")
# What has to be said of each line of examples/first_trace, by its number in the file.
SAID = {
    18: ["a probe request of 02:aa:00:00:00:01 for `lab`; to all", "lab sends: probe response to 02:aa:00:00:00:01",
         "air 5000 0000 02aa00000001 020000000001"],
    19: ["an authentication of 02:aa:00:00:00:01: Open System, number 1; to lab", "status 0 (success)",
         "02:aa:00:00:00:01 is authenticated"],
    20: ["an association request of 02:aa:00:00:00:01 for `lab`", "association response", "identifier 1",
         "is associated, identifier 1"],
    21: ["a Data frame of 02:aa:00:00:00:01 to 02:bb:00:00:00:01, says that it is awake",
         "lab puts on its wire: a unit to",
         "wire 02bb0000000102aa00000001080001"],
    22: ["a Null frame of 02:aa:00:00:00:01, says that it dozes", "lab: 02:aa:00:00:00:01 dozes"],
    23: ["a unit to 02:aa:00:00:00:01 from 02:bb:00:00:00:01, IPv4, came over the wire of lab",
         "units kept for 02:aa:00:00:00:01: 1"],
    24: ["a beacon interval begins", "beacon to all, a DTIM (period 1): units wait for identifier 1"],
    25: ["a PS-Poll of 02:aa:00:00:00:01, identifier 1; to lab", "lab sends: data to 02:aa:00:00:00:01 from 02:bb",
         "units kept for 02:aa:00:00:00:01: 0"],
    26: ["a deauthentication of 02:aa:00:00:00:01, reason 3 (the station leaves)", "02:aa:00:00:00:01 is unknown"],
}


def without_frames(section):
    """What the tables say of a network."""
    return section._replace(air=[], wire=[])


class Changes(unittest.TestCase):
    """The tables before a line beside those after it."""

    def section(self, *stations, **counts):
        """A table."""
        usual = {"events": 1, "clock": 0, "unread": 0, "lost": 0, "kept": 0, **counts}
        return Section(b"\2" * 6, b"lab", **usual, stations=list(stations), air=[], wire=[])

    def test_each_change_is_said(self):
        """A station that comes, joins, dozes, wakes and goes; units that are kept and lost."""
        address = bytes.fromhex("02aa00000001")
        none, known = self.section(), self.section(Station(address, None, 0, False, 0))
        joined, dozing = (self.section(Station(address, 3, 10, doze, 0)) for doze in (False, True))
        keeps = self.section(Station(address, 3, 10, True, 2), kept=3)
        for before, after, said in ((none, known, ["is authenticated"]),
                                    (known, joined, ["is associated, identifier 3"]),
                                    (joined, dozing, ["dozes"]), (dozing, joined, ["is awake"]),
                                    (joined, known, ["is authenticated only"]), (known, none, ["is unknown"]),
                                    (dozing, keeps, ["units kept for 02:aa:00:00:00:01: 2",
                                                     "units kept for the group: 1"]),
                                    (none, self.section(lost=2), ["units lost: 2"]), (none, none, [])):
            found = changes(before, after)
            self.assertEqual(len(found), len(said), found)
            for words, text in zip(said, found):
                self.assertIn(words, text)
            self.assertEqual(has_effect(before, after), bool(said))
        self.assertFalse(has_effect(none, self.section(events=2, unread=1)))


class LineByLine(ToolTest):
    """The program's answers to single lines."""

    @needs_program
    def test_frames_are_those_of_the_reports(self):
        """The frames of a case's lines, one after the other, are those of its report, and the last tables too."""
        count = 0
        for folder in with_report():
            text, lines = input_of(folder)
            config = text.split(f"\n{SEPARATOR}\n")[0].encode()
            found = list(steps(PROGRAM, config, lines))
            self.assertEqual([step.line for step in found], lines, folder)
            for section in report_of(folder):
                if not lines or found[-1].after[section.bssid].events != section.events:
                    continue  # its history is full, which `live` doesn't bound
                sent = [sent for step in found for sent in step.sent if sent.bssid == section.bssid]
                self.assertEqual([one.octets for one in sent if not one.is_wired], section.air, folder)
                self.assertEqual([one.octets for one in sent if one.is_wired], section.wire, folder)
                self.assertEqual(found[-1].after[section.bssid], without_frames(section), folder)
                count += 1
        self.assertGreater(count, 100)

    def test_answers_that_are_none(self):
        """What doesn't answer as `live` does is told, and isn't taken for answers."""
        for answer in ("", "ok 1", "no\n", "ok 1\nT\n", "ok 1\nnetwork 02:00:00:00:00:01 ssid 6c6162\n"):
            with open(self.path("answers"), "w", encoding="ascii") as file:
                file.write(answer)
            with open(self.path("answers"), "rb") as file, self.assertRaises(Unanswered):
                Answers(file).next()

    def test_a_program_that_ends_early_is_told(self):
        """The tool ends with status 1 and one message."""
        with open(self.path("program"), "w", encoding="ascii") as file:
            file.write('#!/bin/sh\n[ "$1" = live ] || exec cat >/dev/null\n')
        os.chmod(self.path("program"), 0o755)
        self.refused("explain", "--program", self.path("program"), "--lines", FIRST, says="`live` ended before")

    @needs_program
    def test_more_than_is_looked_at(self):
        """Where the answers are too many, the first of them are shown, and how many lines aren't."""
        most, line_by_line.MOST_OCTETS = line_by_line.MOST_OCTETS, 1000
        self.addCleanup(setattr, line_by_line, "MOST_OCTETS", most)
        text, lines = input_of(CASES["first_trace"])
        found = list(steps(PROGRAM, text.split(f"\n{SEPARATOR}\n")[0].encode(), lines))
        self.assertTrue(0 < len(found) < len(lines), len(found))


class Shown(ToolTest):
    """What a person reads."""

    @needs_program
    def test_first_trace(self):
        """Each line of docs/FIRST_TRACE.md with what it brought."""
        status, stdout, stderr = tool("explain", "--lines", FIRST)
        self.assertEqual((status, stderr), (0, ""))
        parts = dict(zip(SAID, stdout.removesuffix("\n\n").split("\n\n"), strict=True))
        for number, says in SAID.items():
            self.assertTrue(parts[number].startswith(f"{FIRST}:{number}: "), parts[number])
            for words in says:
                self.assertIn(words, parts[number])

    @needs_program
    def test_two_files(self):
        """A configuration and a trace; a line that does nothing says so."""
        self.write(CONFIG, f"{PROBE}\nW 02:00:00:00:00:02 02aa00000001 02bb00000001 0800 01\n")
        status, stdout, stderr = tool("explain", "--lines", self.path("my.toml"), self.path("my.trace"))
        self.assertEqual((status, stderr), (0, ""))
        self.assertEqual(stdout.count("sends: probe response"), 2)
        self.assertIn("my.trace:2: a unit to 02:aa:00:00:00:01", stdout)
        self.assertIn("nothing is sent, and nothing changes", stdout)

    def write(self, config, trace):
        """The two files."""
        for name, text in (("my.toml", config), ("my.trace", trace)):
            with open(self.path(name), "w", encoding="ascii") as file:
                file.write(text)

    @needs_program
    def test_texts_that_it_does_not_show(self):
        """Several traces, a configuration alone, and a pipe are refused; a fault is explained as ever."""
        self.write(CONFIG, "T\nA 4\n")
        config, trace = self.path("my.toml"), self.path("my.trace")
        status, stdout, _ = tool("explain", "--lines", config, trace)
        self.assertEqual((status, stdout.split("\n")[0]), (1, f"command: build/apctl run {config} {trace} "
                                                           "(`run` is added)"))
        self.assertEqual(stdout.split("\n")[1], "fault L2 line 2")
        self.write(CONFIG, "T\n")
        self.refused("explain", "--lines", "play", config, trace, trace, says="--lines takes a configuration and one "
                     "trace")
        self.refused("explain", "--lines", "check", config, says="--lines takes a configuration and one trace")
        done = subprocess.run([os.path.join(ROOT, "tools", "explain"), "--lines", "--said", "fault C1", "check",
                               config],
                              capture_output=True, text=True, check=False)
        self.assertEqual((done.returncode, done.stdout), (2, ""))
