"""Tests of which command tools/explain says that it ran, and of words of which the program's command is missing."""
import os
import subprocess
import unittest

from common import ROOT, ToolTest, needs_program
from explaining import pasted
from explaining.source import Source
from mistakes import CONFIG, PROBE, TRACE

MISSING = "the command `{}` is missing: a file's name, `{}`, is no first word"


class Commands(ToolTest):
    """Files alone, as they are given to the program or to the tool."""

    def setUp(self):
        super().setUp()
        for name, text in (("my.toml", CONFIG), ("my.trace", TRACE), ("my.input", f"{CONFIG}---\n{TRACE}"),
                           ("wrong.trace", "T\nA 4\n")):
            with open(self.path(name), "w", encoding="ascii") as file:
                file.write(text)

    def run_tool(self, *words, given=""):
        """The tool, in the test's folder: its status, and what it says."""
        done = subprocess.run([os.path.join(ROOT, "tools", "explain"), *words], input=given, capture_output=True,
                              text=True, cwd=self.folder, check=False)
        self.assertEqual(done.stderr, "", words)
        return done.returncode, done.stdout

    def test_a_missing_command_is_told_of_what_was_said(self):
        """With --said the words are those of the program, and the status is its own for this fault."""
        for words, command, write in ((["my.toml", "my.trace"], "run", "write `run my.toml my.trace`"),
                                      (["my.trace", "my.toml"], "run", "write `run my.toml my.trace`"),
                                      (["my.toml"], "check", "write `check my.toml`"),
                                      (["my.toml", "my.trace", "wrong.trace"], "play",
                                       "write `play my.toml my.trace wrong.trace`")):
            for given in (words, ["--", *words]):
                status, found = self.run_tool("--said", "fault words", *given)
                self.assertEqual((status, found.split("\n")[0]), (2, "fault words"), given)
                self.assertIn(MISSING.format(command, words[0]), found)
                self.assertIn(write, found)
                self.assertNotIn("takes two words", found)
        self.assertIn("write `build/apctl < my.input`", self.run_tool("--said", "fault words", "my.input")[1])

    def test_the_status_is_that_of_the_fault(self):
        """A line that was said already has the exit status that the program has for it."""
        for said, status in (("fault C3", 1), ("fault L1 line 1", 1), ("fault sources", 1), ("fault words", 2),
                             ("fault memory", 3), ("fault thread", 3), ("fault F3", 3), ("fault output", 4),
                             ("fault file my.toml", 4)):
            self.assertEqual(self.run_tool("--said", said, "run", "my.toml", "my.trace")[0], status, said)

    @needs_program
    def test_the_first_line_has_the_command_that_was_added(self):
        """Where the tool puts the command before files' names it says so; else the program's own line is the first."""
        for words, first in ((["my.toml", "my.trace"], "command: build/apctl run my.toml my.trace (`run` is added)"),
                             (["my.toml", "wrong.trace"],
                              "command: build/apctl run my.toml wrong.trace (`run` is added)"),
                             (["my.toml"], "command: build/apctl check my.toml (`check` is added)"),
                             (["my.input"], "command: build/apctl < my.input (`<` is added)"),
                             (["run", "my.toml", "my.trace"], "the program ended well"),
                             (["run", "my.toml", "wrong.trace"], "fault L2 line 2"),
                             (["--", "my.toml", "my.trace"], "fault words")):
            self.assertEqual(self.run_tool(*words)[1].split("\n")[0], first)
        self.assertEqual(self.run_tool("my.toml", "wrong.trace")[1].split("\n")[1], "fault L2 line 2")
        self.assertNotIn("command:", self.run_tool("--said", "fault C3", "my.toml")[1])

    def test_standard_input_stands_among_files(self):
        """`-` is a configuration, a trace or both; what the program says of it names it so that it can be run again."""
        for words, given, status, says in (
                (["my.toml", "-"], TRACE, 0, "command: build/apctl run my.toml /dev/stdin (`run` is added)"),
                (["-", "my.trace"], CONFIG, 0, "command: build/apctl run /dev/stdin my.trace (`run` is added)"),
                (["-"], CONFIG, 0, "command: build/apctl check /dev/stdin (`check` is added)"),
                (["-"], f"{CONFIG}---\n{TRACE}", 0, "command: build/apctl < /dev/stdin (`<` is added)"),
                (["my.toml", "-"], "T\nA 4\n", 1, "/dev/stdin:2:3: an odd number of digits")):
            done, found = self.run_tool(*words, given=given)
            self.assertEqual(done, status, words)
            self.assertIn(says, found)
            self.assertNotIn("/dev/fd", found)
        self.assertIn("A 4", self.run_tool("my.toml", "-", given="T\nA 4\n")[1])
        shown = self.run_tool("--lines", "my.toml", "-", given=TRACE)[1]
        self.assertEqual(shown.replace("/dev/stdin:", "my.trace:"), self.run_tool("--lines", "my.toml", "my.trace")[1])
        done = subprocess.run([os.path.join(ROOT, "tools", "explain"), "-", "-"], input="", capture_output=True,
                              text=True, check=False)
        self.assertEqual((done.returncode, done.stdout), (2, ""))
        self.assertIn("- stands twice", done.stderr)

    def test_a_word_that_is_nothing_is_a_file_that_is_missing(self):
        """One that is like no word of the program; what stands behind it leaves that open."""
        status, found = self.run_tool("nosuch")
        self.assertEqual(status, 4)
        self.assertIn("fault file nosuch", found)
        self.assertIn("`nosuch` isn't there", found)
        self.assertIn("and no file of this name is there", self.run_tool("nosuch", "my.trace")[1])
        self.assertEqual(self.run_tool("chekc")[1].split("\n")[0], "fault words")

    def test_help_leads_to_the_words_that_were_refused(self):
        """Who has `fault words` finds the form that explains it."""
        self.assertIn("fault words", self.run_tool("--help")[1])


class Fences(unittest.TestCase):
    """Lines around a text, of which there are two."""

    def test_both_are_named(self):
        """The first one says where the other is."""
        trace = f"```\n{PROBE}\nT\n```\n"
        for text, says, advice in ((trace, "so in line 4", "leave these lines out"),
                                   (f"T\n{trace}", "so in line 5", "leave these lines out"),
                                   (f"cat > my.trace <<EOF\n{PROBE}\nEOF\n", "so in line 3", "leave these lines out"),
                                   (f"$ cat my.trace\n{PROBE}\nme@host:~$ ls\n", "so in line 3",
                                    "leave these lines out"),
                                   (f"```\n{PROBE}\n", "in Markdown", "leave the line out")):
            source = Source("my.trace", text.encode())
            number = next(number for number, line in enumerate(source.lines, 1) if line not in ("T", ""))
            found = "\n".join(pasted.foreign(source, number).shown())
            self.assertIn(says, found, text)
            self.assertIn(advice, found, text)


if __name__ == "__main__":
    unittest.main()
