"""Tests of what tools/explain says where a remark swallows a line, or the rest of one, that should have counted."""
import unittest

from common import PROGRAM, ToolTest, needs_program
from explaining import whole
from explaining.answers import run_program
from explaining.source import Source
from explaining.trace_remarks import Remarks
from test_explain_outcomes import (ATTIC, CONFIG, HOST, JOINED, OTHER, SNAP, STATION, THIRD, auth, data, join, managed,
                                   null, poll, probe, wire)

MASKED, BEHIND = "which is a remark, since it begins with `#`", "behind the words of a remark"
UNMASK, ANEW = "take the `#` of that line away", "write that line anew, without the remark's words"
# Of each trace: what is said of it, and what isn't.
TRACES = [
    ([*JOINED, f"#{null()}", wire(), "T", poll()],
     ["my.trace:8:3", f"a frame by which it dozes stands in line 5, {MASKED}", UNMASK], ["`4811` says before"]),
    ([*JOINED, null(), f"# {wire()}", "T", poll()],
     ["my.trace:8:8", f"a unit for it stands in line 6, {MASKED}", UNMASK], []),
    ([*JOINED, null(), f"## {data(station=OTHER, to=STATION)}", "T", poll()], [f"in line 6, {MASKED}"], []),
    ([*JOINED, null(), wire(), "T", f"#{poll()}"],
     [f"nobody asked for them; a PS-Poll of it stands in line 8, {MASKED}", UNMASK], ["`4801`"]),
    ([f"# The station authenticates. {auth()}", join(), "T"],
     ["my.trace:2:26", f"its authentication stands in line 1, {BEHIND}", ANEW], [UNMASK]),
    ([auth(), f"#{join()}", "T", wire()],
     ["my.trace:4:21", f"its association request stands in line 2, {MASKED}", UNMASK], []),
    ([f"#{auth(THIRD)}", f"#{join(THIRD)}", *JOINED, "T", wire(THIRD)],
     [f"its authentication stands in line 1, {MASKED}", UNMASK], ["02:aa:00:00:00:01 is"]),
    ([*JOINED, "#T"], [f"no beacon is sent; `T` stands in line 5, {MASKED}", UNMASK], []),
    ([*JOINED, null(), wire(), "# T", "#T"], ["`T` stands in lines 7, 8, which are remarks, since they begin"], []),
    # what stands in remarks, and isn't what another line lacks
    ([*JOINED, f"# {data(to=HOST)}", "# T", "T"], ["nothing odd was found"], []),
    ([*JOINED, f"#{auth()}", f"# as {join()}", "T"], ["nothing odd was found"], []),
    ([*JOINED, null(), "T", poll(), f"#{wire()}"], ["no unit is kept"], [MASKED]),
]


class InRemarks(ToolTest):
    """Runs whose trace or configuration has a remark too many."""

    def explained(self, lines, config=CONFIG):
        """What is said of a run."""
        for name, text in (("my.toml", config), ("my.trace", "\n".join([*lines, ""]))):
            with open(self.path(name), "w", encoding="utf-8") as file:
                file.write(text)
        words = ["run", self.path("my.toml"), self.path("my.trace")]
        answer, texts = run_program(PROGRAM, words), whole.texts_of(words, None)
        texts.program = PROGRAM
        return "\n".join(whole.explain(texts, answer))

    @needs_program
    def test_lines_of_a_trace(self):
        for lines, says, not_said in TRACES:
            found = self.explained(lines)
            for words in says:
                self.assertIn(words, found, lines)
            for words in not_said:
                self.assertNotIn(words, found, lines)

    @needs_program
    def test_digits_of_a_frame_behind_a_mark(self):
        whole_line = f"A 0801 0000 {ATTIC} {STATION} {HOST} 0000 {SNAP} 0800 45"
        found = self.explained([whole_line.replace(f" {SNAP}", f" # {SNAP}")])
        self.assertIn("my.trace:1:57: `#` stands among the digits of a frame, and what follows are digits of it", found)
        self.assertIn(f"write `{whole_line}`", found)
        self.assertIn("move it to a line before this one", self.explained([f"{whole_line} # a unit"]))

    @needs_program
    def test_networks_of_a_configuration(self):
        """The network to which frames are, or for whose name they ask, stands behind `#`."""
        first, second, third = CONFIG.split("[[network]]\n")
        hidden = f"{first}[[network]]\n{second}#[[network]]\n#" + third.strip().replace("\n", "\n#") + "\n"
        said = "`, which frames of this trace are to, stands behind `#`, as remarks: it isn't there"
        for lines, name, place in ((JOINED, "02:00:00:00:00:02", "my.toml:17:1"),
                                   ([probe("cellar")], "cellar", "my.toml:18:1"),
                                   ([wire(bssid="02:00:00:00:00:02")], "02:00:00:00:00:02", "my.toml:17:1")):
            found = self.explained([*lines, "T"], hidden)
            self.assertIn(f"{place}: the network `{name}{said}", found, lines)
            self.assertIn("take the `#` of its lines away, of its `[[network]]` too", found)
        remark = CONFIG.replace("[[network]]", '# bssid = "02:00:00:00:00:01"\n[[network]]', 1)
        self.assertNotIn("stands behind", self.explained([*JOINED, "T"], remark))

    @needs_program
    def test_a_name_with_a_mark_in_it(self):
        config = CONFIG.replace('"attic"', '"attic" #2')
        found = self.explained([probe("attic #2")], config)
        self.assertIn("my.toml:7:16: the name ends before `#`, and a remark begins there", found)
        self.assertIn('write `ssid = "attic #2"`', found)
        self.assertNotIn("the name ends", self.explained([probe("attic 3")], config))

    def test_lines_that_are_none(self):
        """A remark of words is no line of a trace, whatever it begins with."""
        for text in ("# A laptop asks", "# T is a beacon interval", f"# A {'00' * 8}", f"# A {'0' * 41}", "A 4000"):
            remarks = Remarks(Source("my.trace", f"{text}\n".encode()))
            self.assertEqual((remarks.held, remarks.ticks), ([], []), text)
        held = Remarks(Source("my.trace", f"# it leaves: {managed('c000', '0300')}\n".encode())).held
        self.assertEqual([(one.number, one.has_words) for one in held], [(1, True)])


if __name__ == "__main__":
    unittest.main()
