"""Tests of wrong/check and wrong/try in a small repository of its own: each way in which a wrong body can't be put in is
found, and each body is tried."""
import os
import shutil
from unittest import mock

from common import ROOT, ToolTest, run_to_end

BODY = "[[{}]]\nfile = 'src/lib.rt'\nold = '{}'\nnew = '{}'\n"
SOURCE = "fn run() {\n    walk(1);\n    walk(2);\n}\n"
# What is written in place of the right body, and what is said of it.
WRONG = [
    (BODY.format("twice", "walk(3)", "walk(4)"), "twice: this stands 0 times in src/lib.rt: walk(3)"),
    (BODY.format("twice", "walk(", "run("), "twice: this stands 2 times in src/lib.rt: walk("),
    (BODY.format("twice", "walk(1)", "walk(1)"), "twice: the new text is the old one: walk(1)"),
    (BODY.format("twice", "walk(1)", "walk(2)") + BODY.format("twice", "walk(1)", "walk(3)"), "this stands 0 times"),
    (BODY.format("known", "walk(1)", "walk(2)"), "known stands in crates/part/must-fail/ too"),
    (BODY.format("twice", "walk(1)", "walk(2)").replace("lib", "main"), "twice: there is no src/main.rt"),
    (BODY.format("twice", "walk(1)", "walk(2)").replace("src", "../part/src"), "is no file of src/, specs/ or proofs/"),
    ("[[twice]]\nfile = 'src/lib.rt'\nold = 'walk(1)'\n", "twice: not a list of edits, each with file, old and new"),
    ("[twice]\nfile = 'src/lib.rt'\nold = 'walk(1)'\nnew = ''\n", "twice: not a list of edits"),
    (BODY.format("Twice", "walk(1)", "walk(2)"), "Twice: no name of a body"),
    (BODY.format("twice", "walk(1)", "walk(2)") + "[twice]\n", "wrong/part.toml: "),
    ("", "there is no wrong body"),
]
# What is written as the list of the gate, and what is said of it.
GATE = [
    ("part: other", "wrong/gate.txt: part has no wrong body other"),
    ("parts: twice", "wrong/gate.txt: parts has no wrong body twice"),
    ("part: once twice", "wrong/gate.txt: part: two bodies of one function"),
    ("part: head", "wrong/gate.txt: part: head turns more than functions"),
    ("part: once", "wrong/gate.txt: part: `rt ci` tries edits of it, in crates/part/must-fail"),
]
# The stand-in for the prover: it refuses each function that walks 4.
PROVER = r"""#!/bin/bash
while [ $# -gt 0 ]; do
    [ "$1" != --incremental ] || mkdir -p "$2"
    shift
done
lines=$(grep -n 'walk(4)' src/lib.rt | cut -d: -f1)
for line in $lines; do
    echo "note: src/lib.rt:$line:5: it is not proved that the way is short (\`short\`)"
done
[ -z "$lines" ] && echo logic=proved && exit
echo logic=not-proved
exit 1
"""


class SmallCrate(ToolTest):
    """A crate with one wrong body."""

    SOURCE = SOURCE

    def said(self, words=("check",)):
        """The status of a script, and its lines."""
        done = run_to_end([self.path(f"wrong/{words[0]}"), *words[1:]])
        self.assertEqual(done.stderr, "")
        return done.returncode, done.stdout.splitlines()

    def setUp(self):
        super().setUp()
        self.write("crates.txt", "# the crates\npart:\nother: part\n")
        self.write("crates/part/src/lib.rt", self.SOURCE)
        self.write("crates/part/must-fail/known.edit", "file: src/lib.rt\nold: walk(1)\nnew: walk(3)\n")
        self.write("wrong/part.toml", BODY.format("twice", "walk(1)", "walk(2)"))
        self.write("wrong/gate.txt", "# none\n")
        os.makedirs(self.path(".ci"))
        for name in ("wrong/bodies.py", "wrong/functions.py", "wrong/check", "wrong/try", ".ci/machines.py",
                     ".ci/proving.py"):
            shutil.copy(os.path.join(ROOT, name), self.path(name))


class CheckedBodies(SmallCrate):
    """What wrong/check says."""

    def test_right_bodies_pass(self):
        """Bodies of several edits too, each after those before it."""
        two = BODY.format("both", "walk(1)", "walk(3)") + BODY.format("both", "walk(3)", "walk(4)")
        self.write("wrong/part.toml", BODY.format("twice", "walk(1)", "walk(2)") + two)
        self.assertEqual(self.said(), (0, ["wrong/check: 2 wrong bodies, 0 faults", "1 passed, 0 failed"]))

    def test_wrong_ones_are_found(self):
        """Each is told with its file and its name."""
        for text, says in WRONG:
            self.write("wrong/part.toml", text)
            status, (first, *_, last) = self.said()
            self.assertEqual((status, last), (1, "0 passed, 1 failed"), says)
            self.assertIn(says, first)

    def test_a_crate_that_is_not_there(self):
        """A file is of a crate of crates.txt."""
        self.write("wrong/third.toml", BODY.format("twice", "walk(1)", "walk(2)"))
        self.assertEqual(self.said()[1][0], "wrong/third.toml is named for no crate of crates.txt")


    def test_the_list_of_the_gate(self):
        """A line's bodies are of its crate, of different functions, and no edits of the crate are tried beside."""
        bodies = [("once", "walk(1)", "walk(3)"), ("twice", "walk(1)", "walk(2)"), ("head", "fn run()", "fn runs()")]
        self.write("wrong/part.toml", "".join(BODY.format(*body) for body in bodies))
        for text, says in GATE:
            self.write("wrong/gate.txt", f"# by crate\n{text}\n")
            status, (first, *_, last) = self.said()
            self.assertEqual((status, first, last), (1, says, "0 passed, 1 failed"))
        shutil.rmtree(self.path("crates/part/must-fail"))
        self.assertEqual(self.said()[0], 0)


class TriedBodies(SmallCrate):
    """What wrong/try says."""

    SOURCE = SOURCE + "fn stay() {\n    walk(0);\n}\n"

    BODIES = [("far", "walk(1)", "walk(4)"), ("gone", "walk(0)", "walk(4)"), ("near", "walk(2)", "walk(3)")]

    def setUp(self):
        super().setUp()
        self.write("HANDLES", "")
        for name in ("bin/rt", "bin/rattle"):
            self.write(name, PROVER, 0o755)
        self.write("wrong/part.toml", "".join(BODY.format(*body) for body in self.BODIES))
        here = {"PATH": f"{self.path('bin')}:{os.environ['PATH']}", "JOBS": "1"}
        patched = mock.patch.dict(os.environ, here)
        patched.start()
        self.addCleanup(patched.stop)

    def test_each_body_is_tried(self):
        """Those of different functions together, and whichever is let through is named."""
        status, lines = self.said(("try",))
        self.assertEqual((status, lines[-2:]), (1, ["wrong/part.toml: near", "2 refused, 1 not"]))
        for body in ("far", "gone"):
            self.assertIn(f"part: {body}: refused in src/lib.rt, goal short", "\n".join(lines))

    def test_a_crate_that_is_not_proved(self):
        """Where the crate isn't proved as it stands, no refusal counts."""
        self.write("crates/part/src/lib.rt", self.SOURCE + "fn last() {\n    walk(4);\n}\n")
        status, lines = self.said(("try",))
        self.assertEqual((status, lines[-1]), (1, "0 refused, 3 not"))
        self.assertIn("part: NOT PROVED as it stands, so 3 refusals don't count", "\n".join(lines))

    def test_those_of_the_gate_are_tried(self):
        """The list alone, over what `rt ci` proved, which is not proved once more; one that proves fails."""
        for names, said in (("far gone", (0, ["2 passed, 0 failed"])),
                            ("far\n  near", (1, ["wrong/part.toml: near", "1 passed, 1 failed"]))):
            self.write("wrong/gate.txt", f"part: {names}\n")
            status, (*_, before, last) = self.said(("try", "--gate"))
            self.assertEqual((status, [before, last][-len(said[1]):]), said)
        self.assertFalse(os.path.exists(self.path("crates/part/out")))

    def test_the_gate_lacks_a_library(self):
        """Where `rt ci` has built no library of a crate below, nothing is tried, and all has failed."""
        shutil.copytree(self.path("crates/part"), self.path("crates/other"))
        self.write("wrong/other.toml", BODY.format("far", "walk(1)", "walk(4)"))
        self.write("wrong/gate.txt", "other: far\n")
        status, lines = self.said(("try", "--gate"))
        self.assertEqual((status, lines[-2:]), (1, ["wrong/other.toml: far", "0 passed, 1 failed"]))
        self.assertIn("nothing is tried: `rt ci` has built no library of part", lines[0])
