"""Tests of what tools/explain says of a line that fails since an earlier one did, of where a station is, and of lines
that it names beside the one that it shows."""
import os
import unittest

from common import PROGRAM, ToolTest, needs_program, tool
from test_explain_outcomes import (ATTIC, CELLAR, CELLARS, CONFIG, JOINED, OTHER, RATES, STATION, THIRD, auth, data,
                                   join, managed, null, ssid, wire)

FULL = CONFIG.replace("max_known = 4", "max_known = 2")
ANSWERED = ("an association request of it, in line 5, was answered by a deauthentication, reason 6: "
            "it wasn't authenticated")
FIRST = "comes its authentication: `A b000"


def again(name="cellar", station=STATION, network=CELLAR, address=""):
    """A reassociation request, perhaps with a current AP address."""
    return managed("2000", f"0100 0a00 {address} {ssid(name)} {RATES}".replace("  ", " "), station, network)


# Of each run after JOINED: what is said of it, and what isn't; `T` is its last line.
CASES = [
    # a station that asked to associate, and wasn't authenticated yet
    ([join(THIRD), auth(THIRD), wire(THIRD)], ["my.trace:7:21", ANSWERED], ["it never asked"]),
    ([join(THIRD), data(station=THIRD)], ["my.trace:6:26", ANSWERED], ["it joined before the trace begins"]),
    ([join(THIRD), managed("c000", "0300", THIRD)], ["my.trace:6:26", ANSWERED], ["it joined before"]),
    ([join(THIRD), auth(THIRD), managed("a000", "0300", THIRD)], [ANSWERED], ["it never asked"]),
    ([again("attic", THIRD, ATTIC, CELLAR), auth(THIRD), wire(THIRD)],
     ["a reassociation request of it, in line 5, was answered by a deauthentication, reason 6"], ["it never asked"]),
    ([join(THIRD), auth(THIRD), join(THIRD), managed("a000", "0800", THIRD), wire(THIRD)],
     ["it left in line 8, by a disassociation"], [ANSWERED]),
    ([auth(THIRD), wire(THIRD)], ["it never asked to associate"], ["was answered"]),
    # what was refused first, and isn't any more
    ([auth(THIRD, body="0100 0100 0000"), auth(THIRD), wire(THIRD)], ["my.trace:7:21", "it never asked to associate"],
     ["in line 5, was refused"]),
    # the address of the access point that a station comes from
    ([auth(network=CELLAR), again()],
     ["my.trace:6:", "here the address is missing", f"write `{ATTIC}` there"], [f"write `{CELLAR}` there"]),
    ([auth(network=CELLAR), join(network=CELLAR, name="cellar"), again()], [f"write `{ATTIC}` there"], []),
    ([again("attic", STATION, ATTIC)], [f"write `{ATTIC}` there"], []),
    ([auth(THIRD, CELLAR), again(station=THIRD)],
     ["my.trace:6:", "here the address is missing", "it is associated with none of these networks",
      "an association request, which has no such field, begins with `0000`"], [f"write `{CELLAR}` there"]),
    ([auth(OTHER), managed("2000", f"{ssid('attic')} {RATES}", OTHER)], [f"write `01000a00{CELLAR}` there"], []),
    ([auth(THIRD), managed("2000", f"{ssid('attic')} {RATES}", THIRD)],
     ["write `01000a00` there, and behind it the BSSID", "associated with none of these networks"],
     [f"write `01000a00{ATTIC}`"]),
    # an authentication that stands there, and was refused
    ([auth(THIRD, body="0100 0100 0000"), join(THIRD), data(station=THIRD)],
     ["my.trace:6:26", "my.trace:7:26", "line 5 asks for it, and was refused since its algorithm is 1 (Shared Key)"],
     [FIRST, "it has to authenticate and associate before"]),
    ([auth(THIRD, body="0000 0100"), join(THIRD)],
     ["line 5 asks for it, and can't be read; mend that line, as `A b000"], [FIRST]),
    ([auth(THIRD), join(THIRD, rates="0103020b16"), data(station=THIRD)],
     ["my.trace:7:26", "line 6 asks for it, and was refused since it lacks the basic rate 2 Mb/s"],
     ["it has to associate before"]),
    ([join(THIRD)], [FIRST], ["asks for it"]),
    # units for the group that wait, with their lines and the key that says how long
    (["T", null(station=OTHER, network=CELLAR), wire("ffffffffffff", bssid=CELLARS)],
     ["my.trace:7:21: network 02:00:00:00:00:02 (cellar): units for the group are kept at the end: 1; they follow a "
      "DTIM's beacon, one of 3 (`dtim = 3` in my.toml, line 20)"], ["so in"]),
    (["T", null(station=OTHER, network=CELLAR)] + [wire("ffffffffffff", bssid=CELLARS)] * 2,
     ["my.trace:7:21", "kept at the end: 2, of lines 7, 8; they follow"], []),
    ([null(station=OTHER, network=CELLAR), wire("ffffffffffff", bssid=CELLARS), "T",
      wire("ffffffffffff", bssid=CELLARS)], ["my.trace:8:21", "kept at the end: 1; they"], ["of lines"]),
]


class Consequences(ToolTest):
    """Runs that end well."""

    def explained(self, lines, config=CONFIG, *words):
        """What is said of a run."""
        for name, text in (("my.toml", config), ("my.trace", "\n".join([*lines, "T", ""]))):
            with open(self.path(name), "w", encoding="ascii") as file:
                file.write(text)
        status, stdout, stderr = tool("explain", "--program", PROGRAM, *words, "run", self.path("my.toml"),
                                      self.path("my.trace"))
        self.assertEqual((status, stderr), (0, ""), lines)
        return stdout.replace(self.folder + os.sep, "")

    @needs_program
    def test_each_cause_is_told_and_no_other(self):
        for lines, says, not_said in CASES:
            found = self.explained(JOINED + lines)
            for words in says:
                self.assertIn(words, found, lines)
            for words in not_said:
                self.assertNotIn(words, found, lines)

    @needs_program
    def test_a_full_table_is_the_cause_of_what_follows(self):
        """The authentication that stands there isn't advised a second time."""
        lines = [auth(), join(), managed("a000", "0800"), auth(OTHER), join(OTHER), managed("a000", "0800", OTHER),
                 auth(THIRD), join(THIRD)]
        found = self.explained(lines, FULL)
        self.assertIn("line 7 asks for it, and was refused since `max_known = 2` is reached", found)
        self.assertNotIn(FIRST, found)

    @needs_program
    def test_line_by_line(self):
        """What is said of single lines names what was answered, and what comes later."""
        found = self.explained([*JOINED, join(THIRD), auth(THIRD), wire(THIRD)], CONFIG, "--lines")
        self.assertIn(ANSWERED, found)
        self.assertNotIn("it never asked", found)
        self.assertIn("no line before has it authenticate to attic; it asks to authenticate after that, in line 6",
                      found)


if __name__ == "__main__":
    unittest.main()
