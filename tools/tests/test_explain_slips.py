"""Tests of what tools/explain says of slips in runs that end well: stations that leave the wrong network, what stands
before or behind elements, frames of a wire in the wrong place, and what is no slip."""
import unittest

from common import PROGRAM, ToolTest, needs_program
from explaining import whole
from explaining.answers import run_program
from test_explain_outcomes import (ATTIC, ATTICS, CELLAR, CELLARS, CONFIG, HOST, JOINED, RATES, STATION, THIRD, auth,
                                   data, join, managed, null, probe, wire)

PACKET = "4500001c00000000400100000a0000010a0000020800f7ff00000000"
OVER = [auth(network=CELLAR), join(network=CELLAR, name="cellar")]
# Of each run after JOINED: what is said of it, and what isn't.
CASES = [
    # stations that leave the network that they joined last, or to which they go on sending
    ([*OVER, managed("c000", "0300", STATION, CELLAR), data(network=CELLAR, to=HOST)],
     ["my.trace:7:13", "by this line 02:aa:00:00:00:01 leaves cellar, which it joined in line 6, and a Data frame of "
      "it in line 8 is to cellar still; it is a station of attic too, since line 2",
      f"where it leaves attic write `{ATTIC}` as Address 1 and as Address 3",
      "leave line 7 out, or have it authenticate and associate again behind it"], []),
    ([*OVER, managed("a000", "0800", STATION, CELLAR), wire(bssid=CELLARS)],
     ["a unit for it in line 8 comes to cellar still; it is a station of attic too"], []),
    ([managed("a000", "0800"), null()],
     ["my.trace:5:3", "leaves attic, which it joined in line 2, and a Null frame of it in line 6 is to attic still",
      "leave the line out, or write it behind the last line of that station",
      "leave line 5 out, or have it associate again behind it"], []),
    ([*OVER, managed("c000", "0300"), data(network=CELLAR, to=HOST)], ["nothing odd"], []),
    ([managed("c000", "0300"), auth(), join(), data(to=HOST)], ["nothing odd"], []),
    ([managed("c000", "0300"), wire()], [], ["by this line"]),
    ([managed("c000", "0300"), managed("a000", "0300")], ["it left in line 5", "leave this line out"], ["line 5 out"]),
    # what stands before or behind elements, and names that are addresses
    ([auth(THIRD), join(THIRD) + " 00000000"], ["my.trace:6:95", "4 zeros stand at its end", "leave them out"], []),
    ([probe("attic").replace("0000 0005", "0000 0100 0a00 0005")],
     ["my.trace:5:57", "`01000a00`, Capability Information and Listen Interval", "leave `01000a00` out"], []),
    ([probe(ATTICS)], ["its SSID is the address 02:00:00:00:00:01", "write `00056174746963`"],
     ["no network is called"]),
    ([f"A 4000 0000 ffffffffffff {STATION} ffffffffffff 0000 0006{CELLAR} {RATES}"],
     ["its SSID is the address 02:00:00:00:00:02", "by its name: `cellar`"], []),
    # lines that were cut within their last element, and digits of digits
    ([auth(THIRD), join(THIRD)[:-6]],
     ["my.trace:6:84", "the element Supported Rates says that it has 4 octets, and 1 follows",
      "or the frame was cut, and octets are missing at its end"], ["the element SSID"]),
    ([probe("attic")[:-4]], ["Supported Rates says that it has 4 octets, and 2 follow", "or the frame was cut"],
     ["longer than they say"]),
    (["A " + auth(THIRD)[2:].replace(" ", "").encode().hex()],
     ["they were written as digits twice", f"write `A {auth(THIRD)[2:].replace(' ', '')}`"], ["no network took"]),
    ([f"A 8000 0000 ffffffffffff {ATTIC} {ATTIC} 0000 {'00' * 8} 6400 0100 0005{b'attic'.hex()} {RATES}"],
     ["a beacon, which the network sends itself", "and a beacon of each by `T`"], []),
    # frames of a wire: behind `A`, without their header, or with a type that lacks an octet
    ([f"A 001122334455 00aabbccddee 0800 {PACKET}"],
     ["my.trace:5:3", "1 frame behind `A`", "begins as Ethernet's does"], ["no network took"]),
    (["A 02cc00000001 02bb00000001 0800 45"], ["begins as Ethernet's does"], ["no network took"]),
    ([f"W {ATTICS} {PACKET}"],
     ["my.trace:5:21", "a packet of IPv4 stands alone", "write the two addresses and `0800`"], []),
    ([f"W {ATTICS} {STATION} {HOST} 08 {PACKET}"], ["the type has 1 octet, and it has two", "write `0800`"], []),
    ([f"W {ATTICS} {STATION} {HOST}"], ["here 12", "write the type behind the addresses"], []),
    ([data(control="0803", to=HOST)], ["a frame with four addresses", "write `0801`"], []),
    # a host that gets several units is nobody's slip, and a station that left comes no more
    ([data(to="02bb00000002"), data(to="02bb00000002"), wire()], ["nothing odd"], []),
    ([managed("c000", "0300"), wire("ffffffffffff")], [], ["asks to associate after that"]),
]


class Slips(ToolTest):
    """Runs of one configuration and one trace, whose last line is `T`."""

    def explained(self, lines, config=CONFIG):
        """What is said of a run."""
        for name, text in (("my.toml", config), ("my.trace", "\n".join([*JOINED, *lines, "T", ""]))):
            with open(self.path(name), "w", encoding="utf-8") as file:
                file.write(text)
        words = ["run", self.path("my.toml"), self.path("my.trace")]
        answer, texts = run_program(PROGRAM, words), whole.texts_of(words, None)
        texts.program = PROGRAM
        return "\n".join(whole.explain(texts, answer))

    @needs_program
    def test_each_cause_is_told(self):
        for lines, says, not_said in CASES:
            found = self.explained(lines)
            for words in says:
                self.assertIn(words, found, lines)
            for words in not_said:
                self.assertNotIn(words, found, lines)

    @needs_program
    def test_names_that_look_the_same(self):
        """It is told which character makes another name of one, and where it stands."""
        for asked, name, says in (
                ("\u0430ttic", "attic", "looks the same, and in the frame's U+0430 stands, which looks like `a`"),
                ("attic", "\u0430ttic", "and in the configuration's U+0430 stands, which looks like `a`"),
                ("att\u200bic", "attic", "in the frame's U+200B stands, which isn't seen"),
                ("my\u00a0lab", "my lab", "in the frame's U+00A0 stands, which looks like a space"),
                ("Anna\u2019s", "Anna's", "in the frame's U+2019 stands, which looks like `'`"),
                ("attic\u00a0", "attic", "`attic` is the same but for a no-break space or the like around it"),
                ("my lab", "my%20lab", "the configuration has it as `my%20lab`, as an address of a page (URL) has it"),
                ("my%20lab", "my lab", "is the same but for signs written as in an address of a page (URL)")):
            body = f"00{len(asked.encode()):02x}{asked.encode().hex()} {RATES}"
            frame = f"A 4000 0000 ffffffffffff {STATION} ffffffffffff 0000 {body}"
            self.assertIn(says, self.explained([frame], CONFIG.replace('"attic"', f'"{name}"')), (asked, name))
        self.assertIn('write `ssid = "my lab"`', self.explained([], CONFIG.replace('"attic"', '"my\u00a0lab"')))


if __name__ == "__main__":
    unittest.main()
