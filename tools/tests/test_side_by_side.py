"""Tests of how the gate runs its parts beside each other: with commands that stand for them, and in a small repository
whose parts say what they are told to say."""
import contextlib
import io
import os
import re
import sys
import time
import unittest
from unittest import mock

from common import ROOT, ToolTest, wait_until
from small import QUIET, SmallRepository

sys.path.append(os.path.join(ROOT, ".ci"))
from side_by_side import Output, Part, Parts, counted  # noqa: E402

WELL = "echo 2 passed, 0 failed"
# Waits until a file is there; ends badly where it doesn't come.
AWAIT = "n=0; until [ -e {} ]; do n=$((n + 1)); [ $n -lt 400 ] || exit 1; sleep 0.05; done; "


class PartsTest(ToolTest):
    """Parts that are commands of a shell."""

    def setUp(self):
        super().setUp()
        self.said = io.StringIO()

    def part(self, name, command, **more):
        """A part; `HERE` in its command is the test's folder."""
        return Part(name, f"what {name} does", ("sh", "-c", command.replace("HERE", self.folder)), **more)

    def run_parts(self, *parts, lanes=2, given=(), after=lambda part: ()):
        """Runs them, and answers what came of each, by name."""
        with contextlib.redirect_stdout(self.said), Output(self.path("log")) as output:
            self.parts = Parts(parts, lanes, output, self.path("written"), given)
            self.parts.run(after)
        return {it.part.name: (it.passed, it.failed) for it in self.parts.ended}


class Counted(unittest.TestCase):
    """What a part's last line counts."""

    def test_what_counts_as_failed(self):
        """Nothing counted, and a bad end with no failure."""
        for text, status, is_counted in ((b"3 passed, 0 failed\n", 0, (3, 0)), (b"3 passed, 2 failed\n", 1, (3, 2)),
                                         (b"1 passed, 0 failed\n4 passed, 1 failed\nmore\n", 1, (4, 1)),
                                         (b"3 passed, 0 failed\n", 1, (3, 1)), (b"nothing\n", 0, (0, 1)),
                                         (b"", -9, (0, 1)), (b" 3 passed, 0 failed\n", 0, (0, 1))):
            self.assertEqual(counted(text, status), is_counted, text)


class BesideEachOther(PartsTest):
    """Which parts run when."""

    def test_as_many_as_there_are_lanes(self):
        """Two that wait for each other both end well; by one lane the longer runs before the other."""
        one = self.part("one", ": >HERE/one; " + AWAIT.format("HERE/two") + WELL, seconds=9)
        two = self.part("two", ": >HERE/two; " + AWAIT.format("HERE/one") + WELL)
        self.assertEqual(self.run_parts(one, two), {"one": (2, 0), "two": (2, 0)})
        self.assertEqual((self.parts.passed(), self.parts.failed()), (4, 0))
        os.remove(self.path("two"))
        one = self.part("one", "[ ! -e HERE/two ] && sleep 0.3 && [ ! -e HERE/two ] && " + WELL, seconds=99)
        self.assertEqual(self.run_parts(one, two, lanes=1), {"one": (2, 0), "two": (2, 0)})

    def test_what_measures_runs_alone_at_the_end(self):
        """It sees no other part."""
        others = [self.part(f"other{n}", f": >HERE/{n}; sleep 0.3; rm HERE/{n}; {WELL}", needs=needs)
                  for n, needs in ((1, ()), (2, ()), (3, ("other1",)))]
        alone = [self.part(f"alone{n}", f"[ ! -e HERE/1 -a ! -e HERE/2 -a ! -e HERE/3 -a ! -e HERE/a ] && : >HERE/a && "
                                        f"sleep 0.2 && rm HERE/a && {WELL}", alone=True, seconds=99) for n in (1, 2)]
        self.run_parts(*alone, *others, lanes=4)
        self.assertEqual((self.parts.passed(), self.parts.failed()), (10, 0))
        self.assertEqual([it.part.name for it in self.parts.ended][-2:], ["alone1", "alone2"])

    def test_beside_one_that_fills_the_machine_one_gives_way(self):
        """The others follow; what it gives by a line, and what it gives at its end, is waited for."""
        fills = self.part("fills", "echo rt: low proved; " + AWAIT.format("HERE/low") + "sleep 0.3; : >HERE/full; " +
                          WELL, fills=True, lanes=2, marks=lambda line: {line} if line.startswith("rt: ") else set())
        low = self.part("low", '[ "$(nice)" -ge 10 ] && [ ! -e HERE/full ] && : >HERE/low && ' + WELL,
                        needs=("rt: low proved",))
        late = self.part("late", "[ -e HERE/full ] && " + WELL, needs=("fills", "program"))
        first = self.part("first", '[ ! -e HERE/low ] && [ "$(nice)" -ge 10 ] && ' + WELL, seconds=99)
        self.run_parts(first, late, low, fills, after=lambda part: {"program"} if part.name == "fills" else ())
        self.assertEqual((self.parts.passed(), self.parts.failed()), (8, 0))
        self.assertRegex(self.said.getvalue(), r"  0:0\d low proved\n")

    def test_what_lacks_something_has_failed(self):
        """It isn't run; what runs alone at the end is."""
        parts = [self.part("lacks", WELL, needs=("program",)), self.part("lacks_too", WELL, needs=("lacks",)),
                 self.part("alone", WELL, alone=True), self.part("one", WELL)]
        self.assertEqual(self.run_parts(*parts), {"one": (2, 0), "alone": (2, 0)})
        self.assertEqual([it.name for it in self.parts.not_run], ["lacks", "lacks_too"])
        self.assertEqual((self.parts.passed(), self.parts.failed()), (4, 2))


class OfEachPart(PartsTest):
    """What a part has of its own."""

    def test_one_that_hangs_is_ended(self):
        """With what it began, and told."""
        hangs = self.part("hangs", "trap '' TERM; sleep 600 & echo $! >HERE/child; wait; sleep 600", minutes=0.1)
        with mock.patch("side_by_side.TO_END", 0.3):
            self.assertEqual(self.run_parts(hangs), {"hangs": (0, 1)})
        self.assertIn("hangs: it took more than 0.1 minutes, and was ended", self.said.getvalue())
        child = int(self.read("child"))
        self.assertTrue(wait_until(lambda: not os.path.exists(f"/proc/{child}") or "\nState:\tZ" in
                                   open(f"/proc/{child}/status", encoding="ascii").read()))

    def test_one_that_leaves_something_behind_ends(self):
        """A child that holds its output keeps nothing waiting."""
        begun = time.monotonic()
        self.assertEqual(self.run_parts(self.part("leaves", "sleep 600 & " + WELL)), {"leaves": (2, 0)})
        self.assertLess(time.monotonic() - begun, 300)

    def test_its_output_stays_in_one_piece(self):
        """On the screen and in the log, where notes on what is well stand too; and in a file of its own."""
        one = self.part("one", "for n in 1 2 3; do echo one $n; sleep 0.2; done; " + WELL)
        two = self.part("two", "for n in 1 2 3; do echo two $n; echo f: proved; sleep 0.2; done; " + WELL)
        self.run_parts(one, two)
        self.assertIn("== one: what one does\none 1\none 2\none 3\n2 passed, 0 failed\n", self.said.getvalue())
        self.assertIn("== two: what two does\ntwo 1\ntwo 2\ntwo 3\n2 passed, 0 failed\n", self.said.getvalue())
        self.assertIn("two 1\nf: proved\ntwo 2\n", self.read("log"))
        self.assertEqual(self.read("written/one.log"), "one 1\none 2\none 3\n2 passed, 0 failed\n")

    def test_folder_and_network_are_its_own(self):
        """Each has an empty folder for all users that is gone at the end; root's parts have a network each."""
        look = '[ "$(stat -c %a "$TMPDIR" "$TMPDIR/.." | tr -d "\\n")" = 1777755 ] || exit; ' \
               'ls -A "$TMPDIR" | grep . || { : >"$TMPDIR/mine"; echo "$TMPDIR" >HERE/NAME; readlink ' \
               "/proc/self/ns/net >>HERE/NAME; " + WELL + "; }"
        # the kernel gives the number of a network that is gone to the next one, so each waits for the other
        self.run_parts(*(self.part(name, ": >HERE/" + name + ".begun; " + AWAIT.format(f"HERE/{other}.begun") +
                                   look.replace("NAME", name)) for name, other in (("one", "two"), ("two", "one"))))
        self.assertEqual((self.parts.passed(), self.parts.failed()), (4, 0))
        (one, first), (two, second) = (self.read(name).splitlines() for name in ("one", "two"))
        self.assertNotEqual(one, two)
        self.assertFalse(os.path.exists(one) or os.path.exists(two))
        if os.geteuid() == 0:
            self.assertEqual(len({first, second, os.readlink("/proc/self/ns/net")}), 3)

    def test_a_writer_whose_reader_leaves_ends(self):
        """By the signal of a broken pipe, which isn't ignored there."""
        self.run_parts(self.part("one", "(yes; echo $? >HERE/status) | head -1 >HERE/line; " + WELL))
        self.assertEqual(self.read("status"), "141\n")

    def test_its_time_is_told(self):
        """On the clock, and of the processors."""
        self.run_parts(self.part("busy", "n=0; while [ $n -lt 100000 ]; do n=$((n + 1)); done; sleep 1; " + WELL))
        ended = self.parts.ended[0]
        self.assertGreater(ended.seconds, ended.processor)
        self.assertGreater(ended.processor, 0)
        self.assertRegex(self.parts.table()[-1], r"^\| `busy` \| \d+\.\d \| \d+\.\d \|$")

    def test_one_without_a_count_is_one_test(self):
        """By its status."""
        parts = [self.part("well", "true", counts=False), self.part("badly", "exit 3", counts=False)]
        self.assertEqual(self.run_parts(*parts), {"well": (1, 0), "badly": (0, 1)})


class Gate(SmallRepository):
    """The gate over parts that say what they are told to say."""

    def setUp(self):
        super().setUp()
        self.write("tests/check", "#!/bin/sh\necho '1 passed, 0 failed'\n", 0o755)

    def counts(self, said):
        """What each part counts, by its name."""
        ended = re.findall(r" ended: (\S+), (\d+) passed, (\d+) failed, ", said)
        return {name: (int(passed), int(failed)) for name, passed, failed in ended}

    def test_where_each_part_is_well_so_is_the_gate(self):
        """It runs each, and tells what each took."""
        status, said = self.run_there(".ci/gate")
        self.assertRegex(said, r"\b[1-9]\d* passed, 0 failed\n\Z")
        self.assertEqual(status, 0)
        minutes = self.read("small/build/minutes").partition("| Part |")[2]
        names = {part.strip(" `") for part in minutes.split("|") if "`" in part}
        self.assertTrue({"ci", "bridge", "air", "devices", "tools:test_tools", "fuzz", "stress"} <= names, names)
        self.assertEqual(names, {*self.counts(said)})

    def test_planted_fault_of_each_part(self):
        """A test that fails, one that isn't counted, and a bad end are each a failure of the gate."""
        for fault in ("echo 4 passed, 1 failed; exit 1", "echo nothing; exit 1", "echo 1 passed, 0 failed; kill -9 $$"):
            for name in ("tests/check", *QUIET):
                self.write(name, f"#!/bin/sh\n{fault}\n", 0o755)
            status, said = self.run_there(".ci/gate")
            self.assertNotRegex(said, r"\b0 failed\n\Z")
            self.assertEqual(status, 1)
            counts = self.counts(said)
            self.assertEqual([name for name, (_, failed) in counts.items() if not failed], ["library", "ci"])
            self.assertGreater(len(counts), 20)

    def test_libraries_of_an_earlier_gate_are_gone(self):
        """`rt ci` would put them back in the end, of whatever sources."""
        self.write("crates/low/out/rlib/low.rlib/format", "of other sources\n")
        self.assertEqual(self.run_there(".ci/gate")[0], 0)
        self.assertFalse(os.path.exists(self.path_of("crates/low/out/rlib")))

    def test_words(self):
        """Parts by their names, others are refused."""
        status, said = self.run_there(".ci/gate", "--parts", "documents,tools")
        self.assertEqual((status, said.count("begun: "), said.splitlines()[-1]), (0, 2, "2 passed, 0 failed"))
        self.assertNotIn("rt: ", said)
        for words in (("--parts",), ("--parts", "nothing"), ("documents",)):
            self.assertEqual(self.run_there(".ci/gate", *words)[0], 2, words)
