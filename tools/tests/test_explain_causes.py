"""Tests of the cause that tools/explain names: of polls, units and rates in runs that end well, with the lines of the
configuration that they come of, and of several faults in one trace."""
import os

from common import PROGRAM, ToolTest, needs_program, tool
from explaining import whole
from explaining.answers import run_program
from test_explain_outcomes import (ATTIC, ATTICS, CELLAR, CELLARS, CONFIG, HOST, JOINED, OTHER, RATES, STATION, THIRD,
                                   auth, data, join, managed, null, poll, probe, ssid, wire)

ALL, SNAP, DOUBT = "ffffffffffff", "aaaa03000000", "it may not say what is meant"
PACKET = "4500001400010000400100000a0001020a000101"
NEW = [auth(THIRD), join(THIRD)]
SECOND = [auth(THIRD, CELLAR), join(THIRD, CELLAR, "cellar")]
COUNTED = data(to=HOST).replace(f"{HOST} 0000", f"{HOST} 1000")


def bare(line, cut):
    """A line without spaces between its fields, and without the octets from one place up to another."""
    begin = line.index(" ", 2) + 1 if line[0] == "W" else 2
    digits = line[begin:].replace(" ", "")
    return line[:begin] + digits[:2 * cut[0]] + digits[2 * cut[1]:]


# Of each run after JOINED: what is said of it, and what isn't.
CASES = [
    # polls
    ([null(), poll(), wire()], ["my.trace:6:8", "no unit is kept for the station; the unit for it comes after this "
                                "poll, in line 7", "write the poll behind line 7"], []),
    ([null(), wire(), poll(), poll(), wire()], ["my.trace:8:8", "the last one was sent in line 7; the next one comes "
                                                "after this poll, in line 9"], []),
    ([null(), wire(), "T", poll("0100")], [f"my.trace:8:8: {DOUBT}", "`0100`, lacks its two high bits",
                                           "write `01c0`"], []),
    ([null(), wire(), "T", poll()], ["nothing odd"], ["high bits"]),
    # lengths of a wire's frames
    ([f"W {ATTICS} {STATION} {HOST} 0015 f0f0030a0b0c0d"],
     ["a length of 21 octets, and 7 follow: it counts the header's 14 too", "write `0007`, or all 21 octets"], []),
    ([f"W {ATTICS} {STATION} {HOST} 0015 f0f003"], ["a length of 21 octets, and 3 follow", "write `0003`"],
     ["header's"]),
    ([*NEW, null(), wire(), poll("02c0")], ["names the identifier 2, that of 02:aa:00:00:00:03, and the station has 1"],
     []),
    ([null(), wire(), poll(station="02aa00000099")], ["the identifier that it names is that of 02:aa:00:00:00:01"], []),
    ([null(), wire(), managed("c000", "0300"), auth(), join(), null(), poll()],
     ["no unit is kept for the station: the last one was dropped in line 7, by a deauthentication of it"], []),
    ([null(), wire(bssid=CELLARS), poll()], ["no unit is kept for the station; the one in line 6 came to "
                                             "02:00:00:00:00:02"], []),
    ([auth(THIRD, CELLAR), join(THIRD, CELLAR, "cellar"), null(station=OTHER, network=CELLAR),
      data(station=THIRD, network=CELLAR, to=OTHER), f"A a400 01c0 {CELLAR} {OTHER}"],
     ["the unit of line 8 went over the wire alone, since cellar doesn't relay"], []),
    ([null("4809"), wire(), poll()], ["; `08` is Retry, and Power Management is `10`",
                                      "the station is awake: in line 5 Retry is 1, and Power Management 0"], []),
    ([auth(THIRD), null(station=THIRD), join(THIRD), poll("02c0", THIRD)],
     ["the station is awake: line 6, by which it dozes, came before it was associated"], []),
    # what is right, and has no remark
    ([null(), wire(), wire(), data(to=HOST), data(to=HOST), wire()], ["nothing odd"], []),
    ([data("0001f3", to=HOST), data("0001bf818102", to=HOST), data("0001f3", to=ATTIC)], ["nothing odd"], []),
    ([*SECOND, data(f"{SNAP} 0806 0001080006040001", station=OTHER, network=CELLAR)], [], ["doesn't relay"]),
    ([*SECOND, wire(OTHER, bssid=CELLARS), data(station=OTHER, network=CELLAR)], [], ["doesn't relay"]),
    ([*SECOND, data(station=OTHER, network=CELLAR)], ["a group, and cellar doesn't relay"], []),
    ([null("4801")], ["a station shows so that it is still there"], []),
    # what an access point answers
    ([f"A b000 0000 {THIRD} {ATTIC} {ATTIC} 0000 0000 0200 0000"],
     ["leave the line out: the program makes its networks' answers itself"], ["has the BSSID as Address 1"]),
    ([null(), wire(), f"A c811 0000 {ATTIC} {STATION} {ATTIC} 0000 0600"],
     ["asks by it for what is kept, and here by a PS-Poll", f"write `A a400 01c0 {ATTIC} {STATION}`"], []),
    ([f"A c811 0000 {ATTIC} {STATION} {ATTIC} 0000 0600"], ["write `4811` for `c811`"], ["PS-Poll: write"]),
    # stations that come later
    ([auth(THIRD), data(station=THIRD), join(THIRD)],
     ["the station isn't associated: it didn't ask to associate before; it associates after that, in line 7"],
     ["never asked"]),
    ([data(station=THIRD), *NEW], ["no line before has it authenticate to attic; it associates after that, in line 7"],
     ["or never"]),
    # units that come twice
    ([COUNTED, COUNTED], ["my.trace:6:52", "a copy of line 5, octet for octet, Sequence Control `1000` too",
                          "the unit is passed on a second time"], []),
    ([data(to=HOST), data(to=HOST)], ["nothing odd"], []),
    # rates
    ([auth(THIRD), join(THIRD, rates="01010c 010402040b16")],
     ["two elements of the ID `01` have rates, and the first one counts", "write one element, as `01050c02040b16`"],
     ["add `"]),
    ([auth(THIRD), join(THIRD, rates="0100")], ["its element Supported Rates is empty"], []),
    ([auth(THIRD), join(THIRD, rates="010831203220352e3531")], ["its rates are written as letters, `1 2 5.51`"], []),
    # frames that begin as others do
    ([data(control="0001", to=HOST)], ["LLC and SNAP, `aaaa03000000`, stand behind the header, as in a Data frame",
                                       "write `0801`"], []),
    ([auth(THIRD), join(THIRD).replace("A 0000", "A 1000")], ["`1000`, and one digit differs from `0000`"], []),
    ([managed("ac00", "0300")], ["`ac00`, and one digit differs from `a000`"], []),
    (["A"], ["my.trace:5:1", "no frame stands behind `A`"], []),
    # types, packets and groups that nobody has
    ([data(f"{SNAP} 08 {PACKET}", to=HOST)], ["`08` alone stands before the packet of IPv4", "write `0800`"], []),
    ([data(f"{SNAP} 080000 {PACKET}", to=HOST)], ["`00` stands between the type and the packet of IPv4"], []),
    ([data(f"{SNAP} 0801 {PACKET}", to=HOST)], ["the type `0801` stands there, and what follows is of IPv4"], []),
    ([wire(rest=f"0801 {PACKET}")], ["a type of another packet than the one behind it stands"], []),
    ([data(f"{SNAP} 1234 01", to=HOST), wire(rest="1234 01")], ["nothing odd"], []),
    ([wire("fffffffffff0")], ["ff:ff:ff:ff:ff:f0 is a group that nobody is in", f"write `{ALL}`"], []),
    ([data(to="fffffffffffe")], ["my.trace:5:39", "is a group that nobody is in"], []),
    ([auth(THIRD), join(THIRD, rates="010502040b1617")], ["no station of 802.11b or g has: `17`, 11.5 Mb/s"], []),
    ([auth(THIRD), join(THIRD, rates="010502040b16ff")], [], ["no station of 802.11b or g has"]),
    # headers that lack octets, without spaces between their fields
    ([bare(data(f"{SNAP} 0800 01", to=HOST), (2, 4))], ["no network takes it", "Duration"], []),
    ([bare(auth(THIRD), (1, 2))], ["my.trace:5:3", "an octet is missing before Address 1, where Frame Control 2"],
     ["Address 1 has"]),
    ([bare(auth(THIRD), (0, 2))], ["two octets are missing before Address 1"], []),
    ([bare(data(f"{SNAP} 0800 01", to=HOST), (20, 21))], ["LLC and SNAP begin behind 23 octets", "an octet is missing"],
     ["have six octets"]),
    ([bare(data(f"{SNAP} 0800 01", to=HOST), (10, 16))], ["six octets, as many as an address has, are missing"], []),
    ([bare(wire(rest=f"0800 {PACKET}"), (3, 4))], ["the type `0800` stands behind 11 octets"], ["is a length"]),
    ([bare(wire(rest=f"0800 {PACKET}"), (6, 12))], ["an address is missing before it"], ["no length"]),
    ([bare(wire(rest=f"0800 {PACKET}"), (13, 14))], ["`08` alone stands where the type does"], []),
    ([auth(THIRD).replace(ATTIC, "000200000001")], ["Address 1 is 00:02:00:00:00:01, and attic has"], []),
    # a wrong length is no frame check sequence
    ([f"A 4000 0000 {ALL} {THIRD} {ALL} 0000 0004{b'attic'.hex()} {RATES}"], ["its length `04` has to be `05`"],
     ["check sequence"]),
    # lines `T` before a unit for the group
    (["T", "T", null(station=OTHER, network=CELLAR), wire(ALL, bssid=CELLARS)], [], ["all 2 networks"]),
    ([null(station=OTHER, network=CELLAR), "T", "T", wire(ALL, bssid=CELLARS), "T"], [], ["all 2 networks"]),
    ([null(), "T", "T", wire(ALL), "T"], [], ["all 2 networks"]),
]
# Of each run with another configuration: what was changed in it, the lines, and what is said.
CHANGED = [
    (("quota = 2", "quota = 0"), [*JOINED, null(), wire()], ["with `quota = 0` no unit is kept",
                                                             "as `quota = 64` in my.toml, line 12"]),
    (("", ""), [*JOINED, null(), *[wire()] * 3], ["a larger `quota` in my.toml, line 12, keeps more"]),
    (("", ""), [*JOINED, *NEW, auth("02aa00000004"), join("02aa00000004")],
     ["`max_stations` in the configuration says how many", "; it stands in my.toml, line 10"]),
    (("", ""), [*JOINED, *[auth(f"02aa0000001{place}") for place in range(4)]],
     ["`max_known` stands in my.toml, line 11"]),
    (("", ""), [*JOINED, auth(THIRD), join(THIRD, rates="010104")], ["off them in `rates` in my.toml, line 8"]),
    (("aging = false", "aging = true"), [*JOINED[2:], auth(), join(listen="0100"), null(), wire(), "T", "T", "T"],
     ["`aging` in my.toml, line 15"]),
    (("aging = false", "aging = true"), [*JOINED[2:], auth(), join(listen="0000"), null(), wire(), "T", "T"],
     ["my.trace:4:62", "Listen Interval `0000` is 0 beacon intervals", "listen interval 0), which line 4 says"]),
    (('"attic"', '"caf\u00c3\u00a9"'),
     [f"A 4000 0000 {ALL} {THIRD} {ALL} 0000 0005636166c3a9 {RATES}"],
     ["encoded twice (UTF-8 of UTF-8)", "encoded a second time", 'write `ssid = "caf\u00e9"`']),
    (("max_events = 1000", "max_events = 3"), [*JOINED, data(to=HOST)], ["`max_events` stands in my.toml, line 13"]),
    (('"attic"', '"loft"'), [auth(), managed("2000", f"0100 0a00 {ssid('loft')} {RATES}")],
     ["my.trace:2:67", "the Current AP Address of a reassociation request is missing",
      f"the six octets `{ssid('loft')}`, of the element SSID (`loft`)"]),
    (('"attic"', '"office"'), [auth(), managed("2000", f"0100 0a00 {ssid('office')} {RATES}")],
     ["and here the address is missing"]),
]
FAULTY = [
    ([auth().replace("A ", "A 0x"), "T", join().replace("A ", "A 0x")], ["digits stand without `0x`; so in line 3"]),
    ([auth().lower(), join().lower(), "T 1"], ["the word is `A`, a capital letter; so in line 2",
                                               "line 3 has another fault"]),
    ([auth()[:-1], join()], ["an odd number of digits"]),
    (["tick", auth(), "tick"], ["`tick` is no word of a trace", "; so in line 3"]),
]


class Causes(ToolTest):
    """The causes of what came of a run."""

    def explained(self, lines, config=CONFIG):
        """What is said of a run."""
        for name, text in (("my.toml", config), ("my.trace", "\n".join([*lines, ""]))):
            with open(self.path(name), "w", encoding="utf-8") as file:
                file.write(text)
        words = ["run", self.path("my.toml"), self.path("my.trace")]
        answer, texts = run_program(PROGRAM, words), whole.texts_of(words, None)
        texts.program = PROGRAM
        return "\n".join(whole.explain(texts, answer)).replace(f"{self.folder}/", "")

    @needs_program
    def test_each_cause_is_told(self):
        for lines, says, not_said in CASES:
            found = self.explained([*JOINED, *lines, "T"])
            for words in says:
                self.assertIn(words, found, lines)
            for words in not_said:
                self.assertNotIn(words, found, lines)

    @needs_program
    def test_the_line_of_the_configuration_is_told(self):
        for (old, new), lines, says in CHANGED:
            found = self.explained([*lines, "T"], CONFIG.replace(old, new, 1))
            for words in says:
                self.assertIn(words, found, lines)

    @needs_program
    def test_other_lines_with_a_fault_are_told(self):
        for lines, says in FAULTY:
            found = self.explained(lines)
            for words in says:
                self.assertIn(words, found, lines)

    @needs_program
    def test_units_that_no_beacon_tells_of(self):
        found = self.explained([*JOINED, null(), wire()])
        self.assertIn("no beacon is sent, so no station is told that units wait for it: 02:aa:00:00:00:01 (1)", found)
        self.assertIn("no beacon is sent, and units for the group that are kept stay so",
                      self.explained([*JOINED, null(), wire(ALL)]))

    @needs_program
    def test_a_right_run_has_no_remark(self):
        """What people write rightly has none: two intervals before a unit for the group, a poll for each unit, another
        identifier, rates in two elements."""
        right = [*JOINED, *NEW, probe("attic"), null(), "T", "T", wire(ALL), "T", wire(), "T", poll(), wire(), wire(),
                 poll(), poll(), null("4801"), data(to=HOST), null(station=OTHER, network=CELLAR),
                 wire(OTHER, bssid=CELLARS), "T", f"A a400 01c0 {CELLAR} {OTHER}", managed("c000", "0300"),
                 managed("c000", "0300", THIRD), managed("c000", "0300", OTHER, CELLAR)]
        self.assertEqual(self.explained([*right, "T"]), "the program ended well\nnothing odd was found in this run")

    @needs_program
    def test_lines_are_shown_with_their_causes(self):
        """`--lines` shows a poll's later unit too."""
        self.explained([*JOINED, null(), poll(), wire()])
        status, found, _ = tool("explain", "--lines", self.path("my.toml"), self.path("my.trace"))
        self.assertEqual(status, 0)
        self.assertIn("the unit for it comes after this poll, in line 7", found)
        self.assertTrue(os.path.exists(self.path("my.trace")))
