"""Tests of `.ci/try`, with a toolchain that compiles nothing: what it says while one waits, and of long reports."""
import os
import shutil
from unittest import mock

from small import SmallRepository

CONFIG = "version = 1\n[[network]]\n[[network]]\n---\n"
# The stand-in for the toolchain: a program that writes how many lines it was given, where they are few.
RT = """#!/bin/bash
sleep 0.5
lines=$(wc -l)
if [ "$lines" -gt 200000 ]; then
    echo 'the program wrote more than 1048576 bytes' >&2
    exit 1
fi
echo "lines $lines"
echo 'run=ended status=0' >&2
"""


class Try(SmallRepository):
    """`make try` in a small repository."""

    def setUp(self):
        super().setUp()
        self.write("bin/rt", RT)
        os.environ["TRY_EACH_SECONDS"] = "0.2"
        self.addCleanup(os.environ.pop, "TRY_EACH_SECONDS")

    def tried(self, text):
        """What it says of this text: the status, and both streams."""
        self.write("my.input", text)
        self.write("go", f'#!/bin/sh\nexec "{self.path_of(".ci/try")}" <"{self.path_of("my.input")}"\n')
        os.chmod(self.path_of("go"), 0o755)
        return self.run_there("go")

    def test_it_says_at_once_what_it_does(self):
        """A line at once, others while it takes long, and the program's answer."""
        status, said = self.tried(CONFIG + "T\n")
        self.assertEqual(status, 0)
        self.assertTrue(said.startswith("lines 5\nCompiling the program without any proof"), said)
        self.assertIn(" s: compiling or running\n", said)
        self.assertTrue(said.endswith('Nothing was proved. "make run" proves the program first.\n'), said)

    def test_without_the_toolchain_it_says_what_to_ask_for(self):
        """By the sum of the logic that `make apctl` wants, and without a word of another target."""
        os.remove(self.path_of("bin/rt"))
        bare = {"PATH": "/usr/bin:/bin"}
        if shutil.which("rt", path=bare["PATH"]):
            self.skipTest("rt is in /usr/bin")
        with mock.patch.dict(os.environ, bare):
            status, said = self.tried(CONFIG + "T\n")
        self.assertEqual(status, 1)
        self.assertRegex(said, r"(?s)^The command rt isn't on the path, .*Ask whoever gave you.*`logic [0-9a-f]{16}`")
        self.assertNotIn("make run", said)

    def test_the_beginning_of_a_long_report_is_shown(self):
        """Where the report is too long, so many lines run that theirs surely isn't."""
        status, said = self.tried(CONFIG + "T\n" * 250_000)
        self.assertEqual(status, 1)
        self.assertRegex(said, r"\Alines 566\n")
        self.assertIn("566 of the 250004 lines of this text", said)
        self.assertIn("This is the report of the beginning alone", said)

    def test_what_is_built_runs_at_once(self):
        """Where build/apctl is the program of these sources nothing is compiled."""
        self.build()
        status, said = self.tried(CONFIG + "T\n")
        self.assertEqual(status, 0)
        self.assertEqual(said, "first\nbuild/apctl ran, which is the program of these sources: it is proved.\n")
        self.write("crates/apctl/src/main.rt", "two\n")
        self.assertIn("Compiling the program", self.tried(CONFIG + "T\n")[1])
