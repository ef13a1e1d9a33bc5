"""Tests of what tools/explain says of mistakes that people make in runs that end well, and of what it says once of many
lines."""
import os
import subprocess
import unittest

from common import PROGRAM, ROOT, ToolTest, needs_program
from explaining import odd_config, whole
from explaining.answers import run_program
from explaining.source import Source
from records import as_record
from test_explain_outcomes import (ATTIC, ATTICS, CELLAR, CELLARS, CONFIG, HOST, JOINED, OTHER, RATES, STATION, THIRD,
                                   auth, data, join, managed, null, poll, probe, ssid, wire)

SNAP = "aaaa03000000"
DOUBT = "it may not say what is meant"
FOURTH = "02aa00000005"
# Of each run after JOINED: what is said of it, and what isn't.
CASES = [
    # requests that come twice, that are dropped, or that were taken out
    ([auth()], ["my.trace:5:3", "02:aa:00:00:00:01 is associated, and authenticates a second "
                                "time", "authenticated only"],
     []),
    ([auth(), join()], [], ["a second time"]),
    ([auth(body="0000 0100 0000").replace("b000", "b008", 1)],
     ["02:aa:00:00:00:01 is associated, and authenticates", "this line repeats line 1: Retry is 1"], ["or have it"]),
    ([auth()], ["this line is a copy of line 1, octet for octet"], ["or have it"]),
    ([auth(THIRD), join()], ["my.trace:6:26", "is associated already, since line 2, of which this line is a copy",
                             "02:aa:00:00:00:03 has authenticated, and never "
                             "asks", f"write `{THIRD}` as Address 2"], []),
    ([null(), wire(), join()], ["my.trace:7:", "units that were kept for 02:aa:00:00:00:01 are dropped: 1"], []),
    ([auth(THIRD), f"#{join(THIRD)}", data(station=THIRD)],
     ["my.trace:7:26", "its association request stands in line 6, which is a "
                       "remark", "take the `#` of that line away"], []),
    ([f"# {auth(THIRD)}", join(THIRD)], ["its authentication stands in line 5, which is a "
                                         "remark"], ["nearly the same"]),
    ([auth(THIRD), join(THIRD), null(station=THIRD), null(station=THIRD)],
     ["my.trace:8:26", "a copy of line 7, octet for octet", "where 02:aa:00:00:00:01 was meant, which is awake"], []),
    ([auth(THIRD), join(THIRD), auth(), join(FOURTH)],
     ["my.trace:7:26", "a copy of line 1, octet for octet", "02:aa:00:00:00:05 sends to this network, and never",
      f"write `{FOURTH}` as Address 2"], ["by which it is authenticated only"]),
    ([auth(), join(), data(station=THIRD)],
     ["my.trace:5:26", "a copy of line 1, octet for octet", f"write `{THIRD}` as Address 2"], []),
    # requests for what isn't here
    ([auth(THIRD), join(THIRD) + " 30020100"], ["an element of encryption (RSN), which is ignored"], []),
    ([auth(THIRD), join(THIRD).replace("0100 0a00", "1100 0a00")], ["says Privacy", "write `0100`"], []),
    ([auth(THIRD), join(THIRD).replace("0100 0a00", "0000 0a00")], ["`0000` says no ESS"], []),
    ([auth(CELLAR)], ["its sender, Address 2, is 02:00:00:00:00:02, the address of the network cellar"], []),
    # polls, and where their units are
    ([null(), wire(), data(to=HOST), poll()],
     ["my.trace:7:5", "the units kept for it are sent at once: 1; its poll in line 8 brings nothing", "write `0811`",
      "where it goes on dozing that frame begins with `0811`"], ["`4811` says before"]),
    ([null(), wire(), data(to=HOST), null()], [], ["the station dozed, and this frame"]),
    ([wire(), null(), poll()], ["the unit of line 5 was sent at once, since the station was awake"], []),
    ([null(), wire(), wire(), wire(), poll(), poll(), poll()], ["my.trace:11:8", "the last one was sent in line "
                                                                                 "10"], []),
    # destinations that are nearly a group's
    ([data(to="00005e0000fb")], ["my.trace:5:39", "00:00:5e:00:00:fb is no group address", "begins with 01:00:5e",
                                 "write `01005e0000fb`"], []),
    ([data(to="323300000001")], ["a group of IPv6 begins with 33:33"], []),
    ([data(to="00005e000101")], [], ["no group address"]),
    ([wire("10005e0000fb")], ["my.trace:5:21", "write `01005e0000fb`"], []),
    ([auth(THIRD), join(THIRD), data(to="02aa00000013")], ["which nobody in this trace has, so that the unit",
                                                          f"where that one is meant write `{THIRD}`"], []),
    ([auth(THIRD), join(THIRD), wire(source="02aa00000013"), data(to="02aa00000013")], [], ["nearly the same"]),
    ([wire(), data(to="02bb00000011")], ["02:bb:00:00:00:01 is one that sends over the wire, and nearly the same"], []),
    ([auth(THIRD, CELLAR), join(THIRD, CELLAR, "cellar"), data(station=OTHER, network=CELLAR)],
     ["a group, and cellar doesn't relay", "over the wire alone, and 02:aa:00:00:00:03 doesn't get it"], []),
    ([data(station=OTHER, network=CELLAR)], [], ["doesn't relay"]),
    ([probe("attic", "fffffffffff0")], ["Address 1 is ff:ff:ff:ff:ff:f0, and all are `ffffffffffff`"], []),
    ([wire(to=STATION, source="02005e2000fe"), data(f"{SNAP} 0608 01", to="02005e2000fe")],
     ["my.trace:6:70", "`0608` is the type `0806` (ARP) with its octets the wrong way round"], ["no group address"]),
    ([wire(source="02005e2000fe"), data(to="02005e2000fe")], [], ["no group address"]),
    ([auth("02005e2000aa"), join("02005e2000aa"), wire("02005e2000aa")], [], ["no group address"]),
    ([auth("02005e2000aa"), wire("02005e2000aa")], ["it never asked to associate"], ["no group address"]),
    # two things of one line
    ([data(f"{SNAP} 0008 01", to="00005e0000fb")],
     ["my.trace:5:39", "no group address", "my.trace:5:70", "`0008` is the type `0800`"], []),
    # types and packets
    ([data(f"{SNAP} 0800 0001080006040001", to=HOST)], ["the type `0800` is IPv4's, and what follows is of ARP",
                                                        "write `0806`"], []),
    ([wire(rest=f"0806 4500 0014 {'00' * 16}")], ["a type of another packet than the one behind it stands"], []),
    ([wire(source=STATION, to="ffffffffffff")], ["its source 02:aa:00:00:00:01 is a station of attic"], []),
    # senders and networks
    ([auth("112233445566")], ["since its first octet, 11, is odd", "as `122233445566`"], ["events unread"]),
    ([auth(ATTIC)], ["Address 2 is the network's own BSSID, as Address 1 is"], ["sent itself"]),
    ([probe("attic", "02dd00000009")], ["no network's, and it names `attic`, which has 02:00:00:00:00:01"], []),
    ([f"A 4000 0000 ffffffffffff {THIRD} {CELLAR} 0000 {ssid('attic')} {RATES}"],
     ["it names `attic`, the network 02:00:00:00:00:01, and is to 02:00:00:00:00:02"], ["U6"]),
    ([f"A 4000 0000 ffffffffffff {THIRD} {ATTIC} 0000 {ssid('attic')} {RATES}"], ["nothing odd"], []),
    (["A b000 0000 02dd00000001 02aa00000003 02dd00000001 0000 0000 0100 0000"] * 3,
     ["frames on the air that no network took: 3 of 7", "; so in lines 6, 7", "02:00:00:00:00:01 (attic)"], []),
    # bodies and headers
    ([f"A c000 0000 {ATTIC} {STATION}"], ["of its header of 24 Address 3 and Sequence Control are missing"], []),
    ([managed("c400", "0300")], ["one digit differs from `c000`, with which a deauthentication begins"], []),
    ([f"A a000 01c0 {ATTIC} {STATION}"], ["one digit differs from `a400`, with which a PS-Poll begins"], []),
    ([managed("d000", "030001021000000000")], ["that kind isn't read"], ["one digit"]),
    ([f"A 0801 0000 {HOST} {STATION} {ATTIC} 0000 {SNAP} 0800 45"], ["the BSSID stands as Address 3"], []),
    ([f"A 0801 0000 {ATTIC} {STATION} {HOST} 1234 {SNAP} 0800 "
      f"45"], ["says fragment 2, its second digit", "`1034`"], []),
    ([managed("0000", f"0100 0a00 05{b'attic'.hex()} {RATES}")], ["the ID of the element SSID is missing"], []),
    ([managed("0000", f"0100 0a00 0500{b'attic'.hex()} {RATES}")], ["stand in each other's place", "write `0005`"], []),
    ([managed("0000", f"0100 0a00 {ssid('attic')} 040102040b16")], ["stand in each other's place", "write `0104`"], []),
    ([managed("0000", f"0100 0a00 {ssid('attic')} 0102040b16")], ["the length is missing", "write `04` there"], []),
    ([managed("0000", f"0100 0a00 {ssid('attic')} "
                      f"02040b16")], ["stand there without an ID and a length"], ["check seq"]),
    ([managed("0000", f"0100 0a00 0007{b'attic'.hex()} {RATES}")], ["its length `07` has to be `05`"], ["check seq"]),
    ([managed("0000", f"0100 0a00 {ssid('attic')}00 {RATES}")], ["an octet too many, `00`, stands between"], []),
    ([managed("0000", f"0100 0a00 0010{b'tenletters'.hex()} {RATES}")],
     ["it has 16 octets, which are hexadecimal digits, and 10 stand", "`10` has to be `0a`"], ["no network is called"]),
    ([f"A 4000 0000 ffffffffffff {THIRD} ffffffffffff 0000 {'00' * 8} 6400 0100 {ssid('attic')} {RATES}"],
     ["two SSID elements stand in it, and the first one counts, an empty one", "the second one has `attic`"], []),
    ([probe("attic\n")], ["`attic` with a line end, `0a`, as `echo` writes"], []),
    ([auth(THIRD), join(THIRD, rates="010402041122")], ["are written as decimal "
                                                        "numbers", "write `02040b16`"], ["add `"]),
    ([data(f"0000 {SNAP} 0800 45", to=HOST)], ["`0000` stands before LLC and SNAP (a QoS Control field"], []),
    ([data(f"{STATION} {SNAP} 0800 45", to=HOST)], ["a fourth address"], ["a whole frame of Ethernet"]),
    ([data("aaab03000000 0800 45", to=HOST)], ["LLC and SNAP are `aaaa03000000`"], []),
    # what comes by a wire
    ([f"W {ATTICS}"], ["my.trace:5:1", "no frame stands behind the BSSID"], []),
    ([f"W {ATTICS} {ATTIC} {STATION} {HOST} 0800 45"], ["the network's BSSID stands a second time"], ["a length"]),
    ([wire(rest="0008 4500001400000000")], ["are read as a length of 8"], ["passed on as a type"]),
    # units that nobody fetches, and since when their station dozes
    ([data(control="0811", to=HOST), wire()],
     ["for 02:aa:00:00:00:01 (1), which dozes since line 5, by a Data frame of it: a beacon told of them"], []),
    ([probe("\0" * 5)], ["its SSID is 5 zeros, as the beacon of a network that hides its name"], []),
    # stations that leave and stay known, and modes that aren't read or aren't meant
    ([managed("a000", "0300")], ["my.trace:5:3", "by a disassociation 02:aa:00:00:00:01 stays known", "write `c000`"],
     []),
    ([managed("a000", "0800"), auth(THIRD)], [], ["stays known"]),
    ([managed("c000", "0300", OTHER, CELLAR), managed("a000", "0300")], [], ["stays known"]),
    ([managed("a000", "0300"), auth()], [], ["stays known"]),
    ([auth(THIRD), join(THIRD).replace("A 0000", "A 0010")],
     ["my.trace:6:5", "Power Management is 1 in it, and is read in Data and Null frames alone", "`4811`"], []),
    ([null(), data(to=HOST), wire()], ["my.trace:6:5", "the unit for it in line 7 isn't kept then", "write `0811`"],
     []),
    ([null(), data(to=HOST), wire(), null()], [], ["isn't kept then"]),
    ([null(), wire("ffffffffffff"), poll()], ["a unit for the group is kept, and no poll brings one"], []),
    # addresses that are a network's, and types of what isn't here
    ([wire(source=ATTIC)], ["my.trace:5:34", "its source is 02:00:00:00:00:01, the network attic itself"], []),
    ([wire(source=CELLAR)], ["the network cellar itself"], []),
    ([wire(source=STATION)], ["its source is 02:aa:00:00:00:01, its destination too"], []),
    ([data(to=CELLAR)], ["my.trace:5:39", "the network cellar itself, which has no use for it"], []),
    ([data(f"{SNAP} 888e 0101", to=HOST)], ["the unit is EAPOL (`888e`)", "these networks don't encrypt"], []),
    ([data(f"{SNAP} 8100 000a 0800 45", to=HOST)], ["a tag of a VLAN (`8100`) stands before the type"], []),
    ([auth(THIRD), join(THIRD, rates="020402040b16")],
     ["my.trace:6:82", "the element `02` has the rates, and the ID of Supported Rates is `01`", "write `01` for `02`"],
     ["at its end"]),
    ([auth(THIRD), join(THIRD, rates="310402040b16")], ["the element `31` has the rates", "write `01` for `31`"], []),
    ([auth(THIRD), join(THIRD, rates="dd0402040b16")], ["it has no element Supported Rates"], ["has the rates"]),
    ([data(to=HOST), data(to=HOST, control="0809")], ["my.trace:6:5", "frames sent again: 1 (with Retry 1"], []),
    ([data(network="02dd00000001", to=HOST)], ["my.trace:5:13", "frames on the air that no network took: 1"], []),
    ([null(), wire(), f"A a400 {ATTIC} {STATION}"],
     ["the two octets of AID are missing", f"write the identifier, as `01c0` for 1, before `{ATTIC}`"], []),
    ([f"A 8400 0000 {ATTIC} {STATION} 0000 0000"], ["and that kind isn't read"], ["Address 3 is missing"]),
    ([managed("c000", "0300", STATION, CELLAR)],
     ["02:aa:00:00:00:01 is a station of attic", f"to attic Address 1 and Address 3 are `{ATTIC}`"], []),
    ([managed("a000")], ["(Reason Code 2), and here 0", "write them, as `0300`"], []),
    ([managed("b000", "0000")], ["and here 2", "write them, as `0000 0100 0000`"], []),
    ([auth(THIRD), join(THIRD), auth(FOURTH), join(FOURTH)],
     ["my.trace:8:26", "`max_stations = 2` is reached", "`max_stations` in the configuration says how many"], []),
    # what to write, and where
    ([data(station="02aa00000010")], ["02:aa:00:00:00:01 is one of this network, and nearly the same",
                                      f"where that one is meant write `{STATION}`"], ["associate before"]),
    ([wire(), null(), poll()], ["write line 6, by which the station dozes, before line 5"], []),
    ([wire(), poll()], [], ["by which the station dozes"]),
    ([auth(THIRD, CELLAR), join(THIRD, CELLAR, "cellar"), data(station=OTHER, network=CELLAR)],
     ["with `relay = true` in ", "my.toml, line 25, stations reach each other"], []),
    ([data(control="8801", body=f"0000 {SNAP} 0800 01")],
     ["my.trace:5:3", "data frames of QoS (WMM), which it can't read (U3): all",
      "write `0801` for `8801`, and leave out the two octets of QoS Control behind the header"], []),
    # fields of an authentication in each other's place, and a status in a request
    ([auth(THIRD, body="0000 0000 0100")],
     ["my.trace:5:62", "its sequence number and its status stand in each other's place", "write `0100 0000`"],
     ["two octets too many"]),
    ([auth(THIRD, body="0000 0000 0001")], ["its sequence number and its status stand", "write `0100 0000`"], []),
    ([auth(THIRD, body="0001 0000 0000")],
     ["my.trace:5:57", "its algorithm and its sequence number stand", "write `0000 0100`"], []),
    ([auth(THIRD, body="0000 0100 0100")],
     ["my.trace:5:67", f"{DOUBT}: its status is 1, and a request has 0", "write `0000`"], []),
    # lines `T` that were meant for one network each
    (["T"], ["my.trace:6:1", "each line `T` begins a beacon interval in all 2 networks, and this one comes behind"],
     []),
    (["T", "T", data(to=HOST), "T"], ["my.trace:6:1", "comes behind another one; so in line 9"], []),
    (["# attic", "T", "# cellar"], ["my.trace:8:1", "a remark names a network for it"], []),
    (["T", "T"], ["nothing odd"], []),
    (["T", data(to=HOST)], ["nothing odd"], []),
    (["T", "T", null(station=OTHER, network=CELLAR), wire("ffffffffffff", bssid=CELLARS), "T"], [], ["all 2 networks"]),
    # units for the group, and how many beacons are due
    (["T", null(station=OTHER, network=CELLAR), wire("ffffffffffff", bssid=CELLARS)], ["2 more lines `T` bring "
                                                                                       "it"], []),
]


class People(ToolTest):
    """Runs that end well."""

    def explained(self, lines, config=CONFIG, is_ticking=True):
        """What is said of a run, whose last line is `T`."""
        for name, text in (("my.toml", config), ("my.trace", "\n".join([*lines, *["T"] * is_ticking, ""]))):
            with open(self.path(name), "w", encoding="utf-8") as file:
                file.write(text)
        words = ["run", self.path("my.toml"), self.path("my.trace")]
        answer, texts = run_program(PROGRAM, words), whole.texts_of(words, None)
        self.assertEqual((answer.status, answer.errors), (0, ""), lines)
        texts.program = PROGRAM
        return "\n".join(whole.explain(texts, answer))

    @needs_program
    def test_each_cause_is_told(self):
        for lines, says, not_said in CASES:
            found = self.explained(JOINED + lines)
            for words in says:
                self.assertIn(words, found, lines)
            for words in not_said:
                self.assertNotIn(words, found, lines)

    @needs_program
    def test_a_name_in_another_coding(self):
        found = self.explained([f"A 4000 0000 ffffffffffff {STATION} ffffffffffff 0000 0004636166e9 {RATES}"],
                               CONFIG.replace('"attic"', '"caf\u00e9"'))
        self.assertIn("this is `caf\u00e9` in ISO 8859-1", found)
        self.assertIn("write `0005636166c3a9`", found)

    @needs_program
    def test_a_name_that_is_composed_otherwise(self):
        decomposed = "cafe\u0301".encode()
        found = self.explained([f"A 4000 0000 ffffffffffff {STATION} ffffffffffff 0000 "
                                f"00{len(decomposed):02x}{decomposed.hex()} "
                                f"{RATES}"], CONFIG.replace('"attic"', '"caf\u00e9"'))
        self.assertIn("has the same letters composed otherwise, `636166c3a9`", found)

    @needs_program
    def test_a_frame_for_the_group_before_anybody_is_there(self):
        found = self.explained([wire("ffffffffffff"), *JOINED])
        self.assertIn("my.trace:1:21", found)
        self.assertIn("so nobody hears it; 02:aa:00:00:00:01 asks to associate after that, in line 3", found)
        self.assertNotIn("nobody hears it", self.explained([*JOINED, wire("ffffffffffff")]))
        self.assertNotIn("nobody hears it", self.explained([wire("ffffffffffff")]))

    @needs_program
    def test_a_name_in_quotes(self):
        """The quotes are the configuration's mistake, and not the frames'."""
        found = self.explained([probe("attic")], CONFIG.replace('"attic"', "'\"attic\"'"))
        self.assertIn('`"attic"` is, whose quotes are a part of the name', found)
        self.assertIn('write `ssid = "attic"` in the configuration', found)

    @needs_program
    def test_a_name_from_the_source_of_a_page(self):
        found = self.explained([probe("at&tic")], CONFIG.replace('"attic"', '"at&amp;tic"'))
        self.assertIn("the configuration has it as `at&amp;tic`, as the source of a page", found)
        self.assertIn('write `ssid = "at&tic"` in the configuration', found)

    @needs_program
    def test_a_configuration_that_is_missing(self):
        """The one beside the trace is named."""
        self.explained(JOINED)
        trace = self.path("my.trace")
        for words, write in ((["play", trace, trace], f"play {self.path('my.toml')} {trace} {trace}"),
                             (["check", trace], f"run {self.path('my.toml')} {trace}"),
                             (["live", trace], f"live {self.path('my.toml')} < {trace}")):
            answer = run_program(PROGRAM, words, b"")
            found = "\n".join(whole.explain(whole.texts_of(words, b""), answer))
            self.assertIn(f"{trace} is a trace", found)
            self.assertIn(f"write `{write}`", found)

    @needs_program
    def test_a_trace_without_intervals(self):
        """It is told of where nothing else is, or where something is kept: a beacon would tell of it."""
        for lines, is_told in (([], True), ([probe("Attic")], False), ([null(), wire()], True)):
            found = self.explained([*JOINED, *lines], is_ticking=False)
            self.assertEqual("no line `T` begins a beacon interval" in found, is_told, lines)

    @needs_program
    def test_a_quota_of_nothing(self):
        found = self.explained([*JOINED, null(), wire()], CONFIG.replace("quota = 2", "quota = 0"))
        self.assertIn("with `quota = 0` no unit is kept", found)
        self.assertIn("0 says that none may wait, and not that any number may", found)
        self.assertIn("write how many units may wait, as `quota = 64`", found)

    @needs_program
    def test_stations_that_disassociated_are_known(self):
        """They fill the table, and the way to be forgotten is told."""
        lines = [line for station in (STATION, OTHER, THIRD, FOURTH) for line in (auth(station), join(station),
                                                                                 managed("a000", "0300", station))]
        found = self.explained([*lines, auth("02aa00000009")])
        self.assertIn("02:aa:00:00:00:01 (line 3), 02:aa:00:00:00:11 (line 6), 02:aa:00:00:00:03 (line 9) left by a "
                      "disassociation", found)
        self.assertIn("a deauthentication begins with `c000`", found)

    @needs_program
    def test_several_traces_with_intervals(self):
        self.explained([])
        for name, lines in (("one.trace", [*JOINED, "T", "T"]), ("two.trace", ["T"]), ("three.trace", JOINED)):
            with open(self.path(name), "w", encoding="ascii") as file:
                file.write("\n".join([*lines, ""]))
        words = ["play", *map(self.path, ("my.toml", "one.trace", "one.trace"))]
        self.assertIn("one.trace are the same", "\n".join(whole.explain(whole.texts_of(words, None),
                                                                         run_program(PROGRAM, words))))
        for names, says in ((("one.trace", "two.trace"), True), (("one.trace", "three.trace"), False)):
            words = ["play", *map(self.path, ("my.toml", *names))]
            found = "\n".join(whole.explain(whole.texts_of(words, None), run_program(PROGRAM, words)))
            self.assertEqual("lines `T` stand in 2 of the traces" in found, says)
            self.assertEqual("3 in all" in found, says)
            self.assertEqual("one.trace has 2 (lines 5, 6), two.trace has 1 (line 1)" in
                             found.replace(self.path(""), ""), says)

    def told_of_live(self, options, given):
        """What is said of lines or records that come one after the other."""
        words = ["live", *options, self.path("my.toml")]
        texts = whole.texts_of(words, given)
        texts.program = PROGRAM
        return "\n".join(whole.explain(texts, run_program(PROGRAM, words, given)))

    @needs_program
    def test_lines_that_live_answers_are_looked_at_too(self):
        """Those that did nothing or were refused have their reason, beside the faults of others."""
        self.explained([])
        lines = ["I", f"#{auth()}", join(), "Q", data(), "I", probe("Attic")]
        found = self.told_of_live([], "\n".join([*lines, ""]).encode())
        self.assertIn("fault L1 line 4", found)
        self.assertIn("standard input:3:26", found)
        self.assertIn("its authentication stands in line 2, which is a remark", found)
        self.assertIn("take the `#` of that line away", found)
        self.assertIn("no network is called `Attic`; `attic` is the same but for capital letters", found)
        self.assertNotIn("standard input:4:1: attic", found)
        found = self.told_of_live([], "\n".join([auth(), join(), "T", ""]).encode())
        self.assertEqual(found, "the program ended well\nno line had a fault")
        given = b"".join(as_record(line) for line in ("I", join(), probe("Attic"), "T"))
        found = self.told_of_live(["--octets"], given)
        self.assertIn("standard input, each record as a line:2:23", found)
        self.assertIn("no network is called `Attic`", found)

    @needs_program
    def test_frames_of_several_traces_that_are_not_read(self):
        """Each cause stands with the first line that it is of."""
        self.explained([])
        group = "112233445566"
        for name, lines in (("door.trace", ["T", *JOINED, auth(group)]), ("yard.trace", [auth(group), probe("attic")])):
            with open(self.path(name), "w", encoding="ascii") as file:
                file.write("\n".join([*lines, ""]))
        words = ["play", *map(self.path, ("my.toml", "door.trace", "yard.trace"))]
        found = "\n".join(whole.explain(whole.texts_of(words, None), run_program(PROGRAM, words)))
        self.assertIn("door.trace:6:26: network 02:00:00:00:00:01 (attic) can't read it (U6): Address 2 is the group "
                      "address 11:22:33:44:55:66, since its first octet, 11, is odd", found)
        self.assertIn("; so in 1 more frame", found)
        self.assertIn("a station's is even, as `122233445566`", found)

    @needs_program
    def test_no_order_holds_between_traces(self):
        """What a frame needs before it stands in another trace."""
        self.explained([])
        for lines, is_told in (([auth(), join()], False), ([join()], True), ([null()], False)):
            for name, text in (("door.trace", [auth()]), ("yard.trace", lines)):
                with open(self.path(name), "w", encoding="ascii") as file:
                    file.write("\n".join([*text, ""]))
            words = ["play", *map(self.path, ("my.toml", "door.trace", "yard.trace"))]
            found = "\n".join(whole.explain(whole.texts_of(words, None), run_program(PROGRAM, words)))
            self.assertEqual("yard.trace:1:1: no order holds between the lines of different traces" in found, is_told)
            self.assertEqual("door.trace, line 1" in found, is_told)

    @needs_program
    def test_a_file_that_the_shell_emptied(self):
        for name, text in (("my.toml", ""), ("good.toml", CONFIG), ("my.trace", f"network {ATTICS} ssid 61\nend\n")):
            with open(self.path(name), "w", encoding="ascii") as file:
                file.write(text)
        for words, says in ((["check", "my.toml"], "my.toml` empties a file before it is read"),
                            (["run", "good.toml", "my.trace"], "take the trace from a copy")):
            words = words[:1] + [self.path(word) for word in words[1:]]
            self.assertIn(says, "\n".join(whole.explain(whole.texts_of(words, None), run_program(PROGRAM, words))))

    @needs_program
    def test_live_tells_a_cause_once(self):
        """The lines of one cause are named behind the first of them."""
        with open(self.path("my.toml"), "w", encoding="ascii") as file:
            file.write(CONFIG)
        given = "".join(f"air {ATTICS} 5000\n" for _ in range(15)) + "T\ntick\nA 4\n"
        done = subprocess.run([os.path.join(ROOT, "tools", "explain"), "live", self.path("my.toml")], input=given,
                              capture_output=True, text=True, check=False)
        self.assertEqual(done.stdout.count("this is an answer of `live`"), 1, done.stdout)
        self.assertIn("  so in lines 2, 3, 4, 5, 6, 7, 8, 9, 10, 11 and 4 more", done.stdout)
        for words in ("fault L1 line 17\n", "fault L2 line 18\n"):
            self.assertIn(words, done.stdout)
        found = self.told_of_live([], b"7:T\n8:T\n9:T\n")
        self.assertEqual(found.count("so in "), 1, found)

    @needs_program
    def test_a_trace_on_standard_input(self):
        """The form of words that needs a file is told with the file that was given."""
        self.explained([])
        with open(self.path("my.trace"), encoding="ascii") as file:
            done = subprocess.run([os.path.join(ROOT, "tools", "explain"), "run", "my.toml"], stdin=file, text=True,
                                  capture_output=True, check=False, cwd=self.folder)
        self.assertIn("the trace is on standard input, which `run` doesn't read\n  write `run my.toml "
                      "my.trace`", done.stdout)
        with open(self.path("my.trace"), encoding="ascii") as file:
            done = subprocess.run([os.path.join(ROOT, "tools", "explain"), "my.toml"], stdin=file, text=True,
                                  capture_output=True, check=False, cwd=self.folder)
        self.assertIn("standard input, my.trace, isn't read then: write `tools/explain my.toml my.trace`", done.stdout)


class OddNames(unittest.TestCase):
    """Configurations that have no fault."""

    def told(self, old, new, more=("", "")):
        """What is told of a configuration with one thing changed, or two."""
        text = CONFIG.replace(old, new, 1).replace(*more, 1)
        found = odd_config.odd(Source("my.toml", text.encode()))
        return "\n".join(f"{finding.text}\n{finding.advice}" for finding in found)

    def test_names_that_may_not_be_meant(self):
        for name, says in (("${SSID}", "nothing puts a value in its place"), ("'attic'", "begins and ends with quotes"),
                           ("6174746963", "the digits of `attic`"), ("at&amp;tic", 'write `ssid = "at&tic"`'),
                           ("\u0430ttic", "(U+0430), which looks like `a`"), ("at\\tic", 'write `ssid = "at\\\\tic"`')):
            self.assertIn(says, self.told('"attic"', f'"{name}"'), name)
        for name in ("attic", "caf\u00e9", "\u0430\u0431\u0432", "Attic 2", "deadbeef", "it's"):
            self.assertEqual(self.told('"attic"', f'"{name}"'), "", name)

    def test_rates_that_no_station_has(self):
        for rates, says in (("54", 'write `rates = "ec"`'), ("0102", 'write `rates = "8284"`'),
                            ("010482848b96", "the ID and the length of the element"), ("83", "1.5 Mb/s")):
            self.assertIn(says, self.told("82848b96", rates), rates)

    def test_intervals_and_periods(self):
        self.assertIn("write `interval = 50`, and in the networks `dtim = 2`",
                      self.told("interval = 100", "interval = 2", ("dtim = 1", "dtim = 50")))
        self.assertIn("units for the group wait up to 10.2 s", self.told("dtim = 1", "dtim = 100"))


if __name__ == "__main__":
    unittest.main()
