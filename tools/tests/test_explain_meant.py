"""Tests of what tools/explain says of frames that do something else than was meant, and of requests whose station isn't
where they go: the one cause, with what would have worked."""
import re
import unittest

from common import PROGRAM, ToolTest, needs_program
from explaining import whole
from explaining.answers import run_program
from explaining.written import Known, misfit
from test_explain_outcomes import (ATTIC, ATTICS, CELLAR, CELLARS, CONFIG, HOST, JOINED, OTHER, STATION, THIRD, auth,
                                   data, join, managed, null, poll, probe, wire)
from texts import trace_line

SNAP = "aaaa03000000"
DOUBT = "it may not say what is meant"
PLACED = re.compile(r"^\S*my\.(?:toml|trace):(\d+):", re.M)

# Of each run after JOINED: what is said of it, and what isn't.
CASES = [
    # who isn't where the request goes
    ([join(THIRD)], ["my.trace:5:26", "no line before has it authenticate to attic",
                     f"comes its authentication: `A b000 0000 {ATTIC} {THIRD} {ATTIC} 0000 0000 0100 0000`"],
     ["before the trace begins"]),
    ([auth(THIRD), join(THIRD, CELLAR, "attic")],
     ["my.trace:6:13", "cellar: a frame is answered by a deauthentication, reason 6",
      "02:aa:00:00:00:03 is authenticated in attic, and this is to cellar",
      f"it names attic: write `{ATTIC}` as Address 1"], ["before the trace begins"]),
    ([auth(THIRD), join(THIRD, CELLAR, "cellar")],
     ["is authenticated in attic, and this is to cellar", f"comes its authentication: `A b000 0000 {CELLAR} {THIRD}"],
     ["it names attic"]),
    ([data(network=CELLAR)], ["my.trace:5:26", "is a station of attic, and this is to cellar",
                              f"to attic Address 1 is `{ATTIC}`"], []),
    ([auth(THIRD), join("02aa00000013")], ["no line before has it authenticate to attic; 02:aa:00:00:00:03 is one of "
                                           "this network, and nearly the same"], []),
    # fields with an octet too few or too many, by the spaces between them
    ([null(), wire(), f"A a400 01c0 {ATTIC} 02aa000001"],
     ["my.trace:7:26", "attic can't read it (U1): Address 2 has 5 octets", f"write `{STATION}`"], ["Address 3"]),
    ([null(), wire(), f"A a400 01c0 0200000001 {STATION}"],
     ["my.trace:7:13", "no network takes it: Address 1 has 5 octets", f"write `{ATTIC}`"], ["Address 3"]),
    ([null(), wire(), f"A a400 01c0 {ATTIC} 02aa0000000001"],
     ["my.trace:7:26", "Address 2 has 7 octets", f"write `{STATION}`"], ["unknown"]),
    ([data(station="02aa000001")], ["my.trace:5:26", "Address 2 has 5 octets", f"write `{STATION}`"], ["unknown"]),
    ([data(to="02bb000001")], ["my.trace:5:39", f"{DOUBT}: Address 3 has 5 octets"], ["my.trace:5:57"]),
    ([f"A 0801 00 {ATTIC} {STATION} {HOST} 0000 {SNAP} 0800 01"], ["my.trace:5:8", "Duration has 1 octet"], []),
    ([f"A 0801 0000 {ATTIC} {STATION} {HOST} 00 {SNAP} 0800 01"], ["my.trace:5:52", "Sequence Control has 1 octet"],
     []),
    ([wire(source="02bb000001")], ["my.trace:5:34", "the source has 5 octets"], []),
    ([f"A b000 0000 {ATTIC} {ATTIC} 0000 0000 0100 0000"],
     ["attic can't read it (U6): Address 2, the station, is missing behind Address 1"], ["sent itself"]),
    # what is read, and may not be meant
    ([data("0800 4500", to=HOST)], ["my.trace:5:57", f"{DOUBT}: the unit begins with the type `0800` (IPv4), and LLC "
                                    "and SNAP are missing", f"write `{SNAP} 0800`"], []),
    ([data("4500 0014 00", to=HOST)],
     ["the unit begins with an IPv4 packet (`4500`), and LLC, SNAP and a type are missing"], []),
    ([data("000000 0800 01", to=HOST)], ["`000000` stands before the type `0800`"], []),
    ([data(f"{STATION} {HOST} 0800 01", to=HOST)], ["a whole frame of Ethernet, with its addresses"], []),
    ([data("0102 0404", to=HOST)], ["the unit begins with `01020404`, and not with LLC and SNAP"], []),
    ([data(SNAP, to=HOST)], ["behind LLC and SNAP nothing stands, and a type has two octets"], []),
    ([data(f"{SNAP} 01", to=HOST)], ["my.trace:5:70", "behind LLC and SNAP `01` alone stands"], []),
    ([data(f"{SNAP} 0008 01", to=HOST)],
     ["my.trace:5:70", "`0008` is the type `0800` (IPv4) with its octets the wrong way round"], []),
    ([data(f"{SNAP} 0608 01", to=HOST)], ["`0608` is the type `0806` (ARP) with its octets the wrong way round"], []),
    ([data(f"{SNAP} 0100 01", to=HOST)], ["`0100` stands where the type does, and a type is at least 0600"], []),
    ([data(f"{SNAP} 4500 0014", to=HOST)],
     ["an IPv4 packet (`4500`) stands where the type does", "the type before it: `0800`"], []),
    ([data(f"{SNAP} 00 0800 01", to=HOST)], ["an octet too many stands before the type `0800`"], []),
    ([data(f"{SNAP} {SNAP} 0800 01", to=HOST)], ["LLC and SNAP stand twice"], []),
    ([data(to=ATTIC)], ["my.trace:5:39", f"{DOUBT}: its destination, Address 3, is 02:00:00:00:00:01, the network "
                        "itself", "Address 3 of data is the destination"], []),
    ([auth(THIRD), join(THIRD, listen="000a")],
     ["my.trace:6:62", f"{DOUBT}: Listen Interval `000a` is 2,560 beacon intervals", "write `0a00` for 10"], []),
    ([managed("c000", "0003")], [f"{DOUBT}: Reason Code `0003` is the reason 768", "write `0300` for 3"], []),
    ([managed("0000", "0001 0a00 00056174746963 010402040b16")], ["Capability Information `0001` says no ESS"], []),
    # destinations that aren't reached, and sources that nobody has
    ([data(to=OTHER)], ["my.trace:5:39", f"{DOUBT}: its destination, Address 3, is 02:aa:00:00:00:11, a station of "
                        "cellar, and networks are kept apart: the unit goes over the wire of attic"], []),
    ([auth(THIRD, CELLAR), join(THIRD, CELLAR, "cellar"), data(station=OTHER, network=CELLAR, to=THIRD)],
     ["a station of cellar, which doesn't relay (`relay = false`): the unit goes over the wire alone"], ["kept apart"]),
    ([data(to="000000000000")], ["is 00:00:00:00:00:00, which nobody has"], []),
    ([data(to=STATION)], ["is 02:aa:00:00:00:01, the sender itself"], []),
    ([wire(source="ffffffffffff")], ["my.trace:5:34", f"{DOUBT}: its source is the group address all"], []),
    ([wire(source="000000000000")], ["its source is all zeros"], []),
    ([f"W {ATTICS} 55555555555555d5 {STATION} {HOST} 0800 01"],
     ["my.trace:5:21", "the preamble of Ethernet stands before the frame", "leave `55555555555555d5` out"],
     ["octets, and"]),
    ([auth(THIRD, "010000000002")],
     ["attic has 02:00:00:00:00:01: its octets stand the wrong way round, and so may those of the other"], []),
    # bodies of one kind in a frame of another, and rates in another unit
    ([managed("0000", f"0100 0a00 {CELLAR} 00056174746963 010402040b16")],
     ["my.trace:5:67", "an address stands before the elements, as in a reassociation request", "write `2000`"],
     ["the element SSID"]),
    ([managed("0000", "00056174746963 010402040b16")],
     ["my.trace:5:57", "the 4 octets before the elements are missing: Capability", "write `01000a00` there"],
     ["says that it has"]),
    ([managed("2000", "00056174746963 010402040b16")],
     ["the 10 octets before the elements are missing", "Current AP Address 6", f"write `01000a00{ATTIC}` there"], []),
    ([auth(THIRD), join(THIRD, rates="010401020511")],
     ["my.trace:6:82", "its rates `01020511` are written in Mb/s, and stand in units of 500 kb/s", "`02040b16`"],
     ["add `"]),
    ([auth(THIRD), join(THIRD, rates="01040102050b")], ["its rates `0102050b` are written in Mb/s"], ["add `"]),
    ([auth(THIRD), join(THIRD, rates="0103020b16")], ["it lacks the basic rate 2 Mb/s", "add `04`"], ["in Mb/s, and"]),
    ([auth(THIRD), join(THIRD, rates="01030c1218")], ["it lacks the basic rates 1, 2, 5.5, 11 Mb/s"], ["in Mb/s, and"]),
    ([auth(THIRD, body="0000 0000 0100 0000")],
     ["my.trace:5:57", "two octets too many stand before it", "leave `0000`"], ["a request has 1"]),
    # since when a poll has nothing to bring
    ([null(), wire(), data(to=HOST), poll()],
     ["my.trace:8:3", "the station is awake, by a Data frame of it in line 7, and a poll brings"], []),
    ([null(), wire(), join(), poll()], ["the station is awake, by an association request of it in line 7"], []),
    ([null(), wire(), poll(), poll()],
     ["my.trace:8:8", "no unit is kept for the station: the last one was sent in line 7"], []),
    ([null(), wire(), join(), null(), poll()], ["no unit is kept for the station: the last one was dropped in line 7"],
     []),
    # units that are kept at the end
    ([null(), wire()], ["attic): units are kept at the end for 02:aa:00:00:00:01 (1), which dozes since line "
                        "5", "`a400`"],
     ["for the group"]),
    (["T", null(station=OTHER, network=CELLAR), wire("ffffffffffff", bssid=CELLARS)],
     ["cellar): units for the group are kept at the end: 1; they follow a DTIM's beacon, one of 3"], ["told of"]),
    # one cause, and no second one
    ([data(control="0108", to=HOST)], ["my.trace:5:3", "the octets of Frame Control stand the wrong way round"],
     ["sent again"]),
]
# Frames in which nothing is doubtful.
PLAIN = [data("424203 0000 000000", to=HOST), data("ffff 0022 0001", to=HOST), data("e0e003 ffff 0022", to=HOST),
         data("aaaa0300000c 2000 01", to=HOST), data(f"{SNAP} 9000 0000", to=HOST), data(to=HOST),
         auth(THIRD), join(THIRD, listen="ff00"), join(THIRD, listen="0101"), managed("c000", "2500", THIRD)]


class Meant(ToolTest):
    """Runs that end well."""

    def explained(self, lines, config=CONFIG):
        """What is said of a run."""
        for name, text in (("my.toml", config), ("my.trace", "\n".join([*lines, "T", ""]))):
            with open(self.path(name), "w", encoding="ascii") as file:
                file.write(text)
        words = ["run", self.path("my.toml"), self.path("my.trace")]
        answer, texts = run_program(PROGRAM, words), whole.texts_of(words, None)
        self.assertEqual((answer.status, answer.errors), (0, ""), lines)
        texts.program = PROGRAM
        return "".join(f"{line}\n" for line in whole.explain(texts, answer))

    @needs_program
    def test_each_cause_is_told_and_no_other(self):
        for lines, says, not_said in CASES:
            found = self.explained(JOINED + lines)
            for words in says:
                self.assertIn(words, found, lines)
            for words in not_said:
                self.assertNotIn(words, found, lines)

    @needs_program
    def test_frames_of_other_protocols_are_not_doubtful(self):
        self.assertEqual(self.explained(JOINED + PLAIN), "the program ended well\nnothing odd was found in this run\n")

    @needs_program
    def test_a_blank_in_a_name_has_one_remedy(self):
        """Where a station asks for the name without it, that line says both ways; else the configuration's does."""
        config = CONFIG.replace('"attic"', '"attic "')
        found = self.explained([probe("attic")], config)
        self.assertEqual(found.count("write `"), 2, found)
        self.assertIn('where the blank isn\'t meant write `ssid = "attic"` in the configuration, else write '
                      "`0006617474696320` here", found)
        self.assertNotIn("my.toml:", found)
        for lines in ([probe("attic ")], [probe("cellar")]):
            found = self.explained(lines, config)
            self.assertIn("my.toml:7:8: the SSID of the network 0 ends with a blank", found)
            self.assertEqual(found.count("write `ssid"), 1)

    @needs_program
    def test_causes_stand_in_the_order_of_lines(self):
        """What is said of the configuration comes first, then line by line, then what is said of the whole."""
        lines = [*JOINED, poll(), probe("Attic"), managed("0000", "0100"), join(THIRD), null("4801"), wire(THIRD)]
        found = self.explained(lines, CONFIG.replace("channel = 6", "channel = 14"))
        told = [int(number) for number in PLACED.findall(found)]
        self.assertEqual(told, [2, 5, 6, 7, 8, 9, 10], found)
        without = self.explained(JOINED[:2] + [probe("Attic")])
        self.assertLess(without.index("my.trace:3:"), without.index("no frame of this trace is to it"))

    @needs_program
    def test_lines_of_several_traces_are_told_apart(self):
        """A frame that is sent again is told, whatever is unread in a line of its number of another trace."""
        again = data(control="0809", to=HOST)
        self.explained([])
        for name, lines in (("one.trace", [*JOINED, data(to=HOST), again]), ("two.trace", ["A d4000000 " + ATTIC] * 7)):
            with open(self.path(name), "w", encoding="ascii") as file:
                file.write("\n".join([*lines, "T", ""]))
        words = ["play", *map(self.path, ("my.toml", "one.trace", "two.trace"))]
        found = "\n".join(whole.explain(whole.texts_of(words, None), run_program(PROGRAM, words)))
        self.assertIn("attic): frames sent again: 1", found)

    def test_spaces_elsewhere_tell_nothing(self):
        """Of digits without spaces, in pairs of octets, or in one group, no field is known."""
        known = Known([bytes.fromhex(ATTIC)], [bytes.fromhex(STATION)])
        digits = auth()[2:].replace(" ", "")
        cut = digits[:20] + digits[22:]
        for written in (auth()[2:], digits, cut, " ".join(cut[at:at + 4] for at in range(0, len(cut), 4)),
                        " ".join(cut[at:at + 2] for at in range(0, len(cut), 2)), "b000", ""):
            line = trace_line(1, f"A {written}".rstrip())
            self.assertIsNone(misfit(f"A {written}", line, known), written)
        self.assertIsNone(misfit("T", trace_line(1, "T"), known))
        self.assertIsNone(misfit(wire(), trace_line(1, wire()), known))


if __name__ == "__main__":
    unittest.main()
