"""Tests of stations that stay while the program or the bridge is killed and while the configuration is read again: both run
as `tools/live` starts them, with packet sockets of a network namespace. They take root, the built bridge and the built
program; `make test-live` tries the same with real stations."""
import json
import os
import sys
import unittest

from common import PROGRAM, TOOLS, ToolTest, run_program, run_to_end
from test_rights import BRIDGE, NEEDS_COMMANDS, can_try

SCRIPT = os.path.join(TOOLS, "tests", "staying.py")
OURS, OTHER = "02:00:00:00:01:01", "02:00:00:00:01:02"
STAY = [["02:aa:00:00:00:01", 1, False], ["02:aa:00:00:00:03", 3, False], ["02:aa:00:00:00:04", 4, True]]
FIFTH = ["02:aa:00:00:00:05", 1, False]
ALL = "ff:ff:ff:ff:ff:ff"


@unittest.skipUnless(os.environ.get("ATTACKS"), "ATTACKS isn't set, as make test-live sets it")
@unittest.skipUnless(os.geteuid() == 0 and can_try(), "it takes root, and namespaces")
@unittest.skipUnless(os.path.exists(BRIDGE), "the bridge isn't there (make bridge builds it)")
@unittest.skipUnless(os.path.exists(PROGRAM), "build/apctl isn't there (make apctl builds it)")
@NEEDS_COMMANDS
class Staying(ToolTest):
    """Stations of two networks, with a gap among the identifiers and one that dozes."""

    def test_stays(self):
        """Each keeps its identifier and its mode, and none is told to leave but those whose network changed."""
        os.chmod(self.folder, 0o755)
        words = ["unshare", "--net", "--mount", sys.executable, SCRIPT, BRIDGE, PROGRAM, self.folder]
        done = run_to_end(words, timeout=240)
        self.assertEqual(done.returncode, 0, done.stderr)
        found = json.loads(done.stdout)
        log = found.pop("log")
        self.assertNotIn("fault", found, log)
        self.assertEqual(found.pop("made"), ["phy0.held", "phy0.lock"])
        same, gone = {OURS: STAY, OTHER: [FIFTH]}, {OURS: STAY, OTHER: []}
        wanted = {"joined": (same, []), "killed 2": (same, []), "killed 3": (same, []), "nothing": (same, []),
                  "name": (gone, [[ALL, OTHER]]),
                  "fewer": ({OURS: STAY[:2], OTHER: []}, [[ALL, OTHER], [STAY[2][0], OURS]])}
        self.assertEqual({name: (told["tables"], told["left"]) for name, told in found.items()}, wanted, log)
        self.assertEqual(log.count(" joins "), 5, log)
        self.look_at_records(log)

    def look_at_records(self, log):
        """Of each program but the first the record has its marks, and `run` on it has the same stations."""
        for number in range(1, 6):
            lines = self.read(f"record.{number}").splitlines()
            marks = [line for line in lines if line.startswith("# restored")]
            self.assertEqual((len(marks), lines[0]), (2, marks[0]), log)
            tables = run_program("run", self.path(f"config.{number}"), self.path(f"record.{number}"))
            self.assertIn("station 02:aa:00:00:00:03 associated aid 3 listen 5 active kept 0\n", tables)
            self.assertEqual("station 02:aa:00:00:00:04 associated aid 4 listen 5 doze kept 0\n" in tables, number < 5)
