"""Tests of what tools/explain says of single lines of a run that ended well: those that did nothing, those that were
refused, and those that lost a unit."""
import random

from common import PROGRAM, ToolTest, mutated, needs_program, tool
from explaining.changes import has_effect
from explaining.configuration import networks_of
from explaining.line_by_line import steps
from explaining.outcomes import MOST_GROUPS, Outcomes
from explaining.source import Source
from texts import trace_line

RUNS, LINES = 40, 60

CONFIG = """version = 2
channel = 6
interval = 100
queue = 64
[[network]]
bssid = "02:00:00:00:00:01"
ssid = "attic"
rates = "82848b96"
dtim = 1
max_stations = 2
max_known = 4
quota = 2
max_events = 1000
relay = true
aging = false
[[network]]
bssid = "02:00:00:00:00:02"
ssid = "cellar"
rates = "82840b16"
dtim = 3
max_stations = 8
max_known = 16
quota = 8
max_events = 1000
relay = false
aging = true
"""
ATTIC, CELLAR = "020000000001", "020000000002"
STATION, OTHER, THIRD, HOST = "02aa00000001", "02aa00000011", "02aa00000003", "02bb00000001"
ATTICS, CELLARS = "02:00:00:00:00:01", "02:00:00:00:00:02"
RATES, SNAP = "010402040b16", "aaaa03000000"


def managed(control, body="", station=STATION, network=ATTIC):
    """A management frame to a network."""
    return f"A {control} 0000 {network} {station} {network} 0000 {body}".rstrip()


def auth(station=STATION, network=ATTIC, body="0000 0100 0000"):
    """An authentication."""
    return managed("b000", body, station, network)


def ssid(name):
    """An SSID element."""
    return f"00{len(name):02x}{name.encode().hex()}"


def join(station=STATION, network=ATTIC, name="attic", rates=RATES, listen="0a00"):
    """An association request."""
    return managed("0000", f"0100 {listen} {ssid(name)} {rates}".rstrip(), station, network)


def probe(name, to="ffffffffffff"):
    """A probe request."""
    return f"A 4000 0000 {to} {STATION} {to} 0000 {ssid(name)} {RATES}"


def data(body="aaaa030000000800 01", station=STATION, network=ATTIC, control="0801", to="ffffffffffff"):
    """A data frame."""
    return f"A {control} 0000 {network} {station} {to} 0000 {body}".rstrip()


def null(control="4811", station=STATION, network=ATTIC):
    """A Null."""
    return f"A {control} 0000 {network} {station} {network} 0000"


def poll(aid="01c0", station=STATION):
    """A PS-Poll."""
    return f"A a400 {aid} {ATTIC} {station}"


def wire(to=STATION, source=HOST, bssid=ATTICS, rest="0800 05"):
    """A frame on a wire."""
    return f"W {bssid} {to} {source} {rest}"


# In each run two stations have joined, one each network, by the lines 1 to 4, and a beacon interval begins at its end.
JOINED = [auth(), join(), auth(OTHER, CELLAR), join(OTHER, CELLAR, "cellar")]
CASES = [
    # lines that did nothing
    ([wire("02aa00000099")], ["my.trace:5:21", "it changes nothing in attic", "02:aa:00:00:00:99",
                              "02:aa:00:00:00:01 is"]),
    ([wire("02aa00000010")], ["no station of attic that is associated; 02:aa:00:00:00:01 is, and", "`02aa00000001`"]),
    ([wire("02aa00000002")], ["nearly the same", "write `02aa00000001`"]),
    ([probe("attic").replace(STATION, THIRD), wire(THIRD)], ["no station of attic that is associated: "
                                                             "02:aa:00:00:00:01 is"]),
    ([wire(OTHER)], ["is a station of cellar", f"`W {CELLARS}`"]),
    ([wire(HOST, STATION)], ["its source 02:aa:00:00:00:01 is one", "begins with its destination",
                             f"`{STATION} {HOST}`"]),
    ([auth(), wire()], ["my.trace:6:21", "it authenticated again in line 5"]),
    ([managed("c000", "0300"), wire()], ["my.trace:6:21", "it left in line 5, by a deauthentication"]),
    ([managed("a000", "0300"), wire()], ["my.trace:6:21", "it left in line 5, by a disassociation"]),
    ([auth(THIRD), wire(THIRD)], ["my.trace:6:21", "it never asked to associate"]),
    ([auth(THIRD), join(THIRD, name="Attic"), wire(THIRD)], ["my.trace:7:21", "in line 6, was refused: status 1"]),
    ([poll("c001")], ["my.trace:5:8", "names the identifier 448, and the station has 1: its octets stand the wrong way",
                      "write `01c0`"]),
    ([poll("02c0")], ["names the identifier 2, and the station has 1", "write `01c0`"]),
    ([poll()], ["the station is awake", "`4811`"]),
    ([null(), poll()], ["my.trace:6:8", "no unit is kept for the station"]),
    ([null(), null()], ["my.trace:6:5", "says that it dozes, and it dozed before", "`4801`"]),
    ([null("4801")], ["my.trace:5:5", "is awake, and it was awake before", "`4811`"]),
    ([probe("Attic")], ["my.trace:5:57", "in any of 2 networks: no network is called `Attic`; `attic` is the same but "
                        "for capital letters", "write `00056174746963`"]),
    ([probe("attic ")], ["no network is called `attic `; `attic` is the same but for blanks"]),
    ([probe("attik")], ["no network is called `attik`; `attic` is"]),
    ([probe("garden")], ["no network is called `garden`; there are `attic`, `cellar`"]),
    ([probe("6174746963")], ["these are the digits of `attic`, written as letters once more", "`00056174746963`"]),
    ([null(), wire(), f"A a400 0000 {ATTIC} {STATION} {ATTIC} 0000"], ["my.trace:7:8",
                                                                       "the identifier 0, and the station has 1: "
                                                                      "it stands where other frames have Duration"]),
    ([probe("x" * 33)], ["its SSID has 33 octets"]),
    ([probe("cellar", ATTIC)], ["it names `cellar`, the network 02:00:00:00:00:02, and is to 02:00:00:00:00:01"]),
    ([f"A 4000 0000 ffffffffffff {STATION} ffffffffffff 0000 {RATES}"], ["it has no SSID element"]),
    ([managed("c000", "0300", THIRD)], ["my.trace:5:26", "02:aa:00:00:00:03 is unknown: 02:aa:00:00:00:01 is one of"]),
    ([auth(THIRD), managed("a000", "0300", THIRD)], ["02:aa:00:00:00:03 isn't associated: it never asked to"]),
    ([managed("a000", "0300")] * 2, ["my.trace:6:26", "02:aa:00:00:00:01 isn't associated: it left in line 5, by"]),
    ([f"W {ATTICS}{data()[1:]}"], ["my.trace:5:21", "a Data frame of the air (802.11) stands behind `W`", "write `A`"]),
    ([null("4801") + f" {SNAP} 0800 01"], ["my.trace:5:3", "a unit stands behind a Null", "begins with `0801`"]),
    ([wire(ATTIC)], ["my.trace:5:21", "02:00:00:00:00:01 is the network's own address", "02:aa:00:00:00:01 is"]),
    ([wire(CELLAR)], ["02:00:00:00:00:02 is the address of cellar, and no station's"]),
    ([wire(THIRD), auth(THIRD), join(THIRD)], ["my.trace:5:21", "02:aa:00:00:00:01 is; it associates after that, in "
                                               "line 7"]),
    ([probe("a\0t\0t\0i\0c\0")], ["this is `attic` in UTF-16", "write `00056174746963`"]),
    ([probe("\0a\0t\0t\0i\0c")], ["this is `attic` in UTF-16"]),
    ([auth(THIRD), join(THIRD).replace("0000", "0010", 1), poll(station=THIRD).replace("01c0", "02c0")],
     ["my.trace:7:3", "the station is awake: Power Management is 1 in an association request of it, in line 6, and"]),
    ([null(), wire(), join(), null(), poll()], ["my.trace:9:8", "the last one was dropped in line 7, by an "
                                                "association"]),
    # lines that no network took or could read
    ([f"A b000 0000 {STATION} {STATION} {ATTIC} 0000 0000 0100 0000"],
     ["my.trace:5:13", "Address 1 is 02:aa:00:00:00:01, which is its sender, Address 2, too", f"write `{ATTIC}`"]),
    ([f"A 4000 0000 ffffffffffff {STATION} ffffffffffff 0000 {ssid('garden')} {ssid('attic')} {RATES}"],
     ["my.trace:5:57", "`attic` stands in a second SSID element, and the first one counts"]),
    ([managed("0000", f"0a00 0100 {ssid('attic')} {RATES}")],
     ["my.trace:5:57", "they may stand in each other's place", "write `0100 0a00`"]),
    ([f"A a400 01c0 {STATION} {ATTIC}"], ["my.trace:5:13", "stand in each other's place: a PS-Poll has its receiver",
                                          f"write `{ATTIC} {STATION}`"]),
    ([probe("attic").replace(STATION, "-").replace("ffffffffffff", STATION, 1).replace("-", "ffffffffffff")],
     ["my.trace:5:13", "stand in each other's place: a probe request has", f"write `ffffffffffff {STATION}`"]),
    ([f"A 4000 0000 ffffffffffff {STATION} ffffffffffff 0000 6174746963 {RATES}"],
     ["my.trace:5:57", "`attic` stands there without its ID and its length", "write `0005` before `6174746963`"]),
    ([data(control="0841")], ["it is encrypted (Protected Frame is 1)", "these networks have no encryption"]),
    ([f"A 0040 0000 ffffffffffff {STATION} ffffffffffff 0000 0000 {RATES}"],
     ["my.trace:5:3", "attic can't read it (U4), nor "
                                                                               "can 1 more", "write `4000`"]),
    ([f"A 00b0 0000 {ATTIC} {STATION} {ATTIC} 0000 0000 0100 0000"], ["my.trace:5:3", "write `b000`"]),
    ([managed("0000", f"0100 0a00 00046174746963 {RATES}")], ["my.trace:5:69", "the element SSID",
                                                              "`04` has to be `05`"]),
    ([data(control="0800")], ["my.trace:5:5", "To DS is 0", "write `0801`"]),
    ([auth(network="020000000010")], ["my.trace:5:13", "no network takes it: Address 1 is 02:00:00:00:00:10, and "
                                      "attic has 02:00:00:00:00:01", f"write `{ATTIC}`"]),
    ([f"A b000 {ATTIC} {STATION} {ATTIC} 0000 0000 0100 0000"], ["no network takes it: the two octets of Duration"]),
    ([f"A b000 0000 {STATION} {ATTIC} {ATTIC} 0000 0000 0200 0000"], ["no network takes it: it is to "
                                                                      "02:aa:00:00:00:01 and from attic"]),
    ([wire(rest="0008 05")], ["my.trace:5:47", "attic can't read it (U7): `0008` is the type", "write `0800`"]),
    ([f"A b000 0000 0200000001 {STATION} {ATTIC} 0000 0000 0100 0000"], ["no network takes it: Address 1 has 5 octets",
                                                                         f"write `{ATTIC}`"]),
    ([f"A b000 0000 {ATTIC} 02aa000001 {ATTIC} 0000 0000 0100 0000"], ["Address 2 has 5 octets, and an address has"]),
    ([managed("0000", f"0a00 00056174746963 {RATES}")], ["two octets are missing before the elements", "`0100 0a00`"]),
    ([managed("2000", f"0100 0a00 00056174746963 {RATES}")], ["Current AP Address 6", "here the address is missing"]),
    ([managed("c000")], ["the body of a deauthentication has at least 2 octets (Reason Code 2), and here 0"]),
    ([managed("1000", f"0100 0a00 00056174746963 {RATES}")], ["an association response, which access points send"]),
    ([f"A 5801 0000 {ATTIC} {STATION} {ATTIC} "
      f"0000"], ["one digit differs from `4801`, with which a Null frame begins"]),
    ([f"A 9000 0000 {ATTIC} {STATION} {ATTIC} 0000"], ["an ATIM, and that kind isn't read", "docs/FIRST_TRACE.md"]),
    ([data(station="ffffffffffff", to=STATION)], ["Address 2 is the group address all",
                                                  f"`{STATION}`, then `ffffffffffff`"]),
    # frames of a wire that are passed on, and say something else than was meant
    ([wire(rest="aaaa030000000800 01")], ["my.trace:5:47", "LLC and SNAP (`aaaa03000000`) stand where the type "
                                          "of a frame"]),
    ([wire(rest="0608 01")], ["my.trace:5:47", "`0608`, the type `0806` with its octets the wrong way "
                                  "round, stands where the type of a frame on a wire does", "write `0806`"]),
    ([wire(rest="4500 0014")], ["my.trace:5:47", "an IPv4 packet (`4500`) stands where the type of a"]),
    # requests that were refused, and notices
    ([auth(THIRD, body="0100 0100 0000")], ["my.trace:5:57", "attic: an authentication is refused with status 13, of "
                                            "02:aa:00:00:00:03: its algorithm is 1 (Shared Key)"]),
    ([auth(THIRD, body="0000 0001 0000")], ["my.trace:5:62", "with status 14", "`0001`, is 256", "write `0100`"]),
    ([auth(THIRD, body="0000 0200 0000")], ["with status 14", "is 2, and has to be 1: an answer has that"]),
    ([auth(f"02cc000000{number:02x}") for number in range(4)], ["my.trace:8:26", "with status 1, of 02:cc:00:00:00:03",
                                                                "`max_known = 4` is reached"]),
    ([join(name="cellar")], ["with status 1, of 02:aa:00:00:00:01: it names `cellar`",
                             "write `00056174746963`, since it authenticated to `attic`"]),
    ([auth(network=CELLAR), join(name="cellar")], ["it names `cellar`", f"write `{CELLAR}` for `{ATTIC}`"]),
    ([join(rates="010302041650010b")], ["my.trace:5:92", "lacks the basic rate 5.5 Mb/s, and the element 80 has "
                                             "them", "write `32` for `50`"]),
    ([join(THIRD), auth(THIRD)], ["my.trace:5:26", "has it authenticate to attic; it authenticates after that, in "
                                  "line 6"]),
    ([data(station=THIRD), auth(THIRD), join(THIRD)], ["my.trace:5:26", "it associates after that, in line 7"]),
    ([join(name="")], ["with status 1", "its SSID is empty", "`00056174746963`"]),
    ([join(rates="0103020416")], ["with status 18, of 02:aa:00:00:00:01: it lacks the basic rate 5.5 Mb/s",
                                  "add `0b`"]),
    ([join(rates="")], ["with status 18", "it has no element Supported Rates", "write `010402040b16` at its end"]),
    ([auth(THIRD), join(THIRD), auth(f"{THIRD[:-1]}7"), join(f"{THIRD[:-1]}7")],
     ["my.trace:8:26", "with status 17, of 02:aa:00:00:00:07: `max_stations = 2`"]),
    ([data(station=OTHER)], ["my.trace:5:26", "attic: a frame is answered by a deauthentication, reason 7, of "
                             "02:aa:00:00:00:11", "is a station of cellar"]),
    ([data(station=HOST, to=STATION)], ["Address 3, 02:aa:00:00:00:01, is one that is associated: the sender",
                                        f"write `{STATION} {HOST}`"]),
    ([join(name="attic\0")], ["with status 1", "the octets 617474696300; `attic` is the same but for blanks or zeros"]),
    ([join("02cc00000001")], ["reason 6, of 02:cc:00:00:00:01: the station is unknown: no line before has it "
                              "authenticate to attic"]),
    ([data(station="02cc00000001")], ["reason 7, of 02:cc:00:00:00:01: the station is unknown: it joined before the "
                                      "trace begins"]),
    ([auth(), data()], ["a disassociation, reason 7, of 02:aa:00:00:00:01: the station isn't associated: it "
                        "authenticated again in line 5"]),
    ([auth(THIRD, body="0000 0001 0000"), join(THIRD)], ["my.trace:6:26", "an authentication of it, in line 5, was "
                                                         "refused: status 14"]),
    ([auth(THIRD), managed("0000", "0100", THIRD), data(station=THIRD)], ["an association request of it, in line 6, "
                                                                          "can't be read (U7)"]),
    # units that were lost
    ([null(), wire(), wire(), wire()], ["my.trace:8:1", "attic loses a unit: the unit for 02:aa:00:00:00:01 is above "
                                        "the quota: `quota = 2`"]),
    ([data("01")], ["my.trace:5:57", "the unit to all has no wired form: 1 octet"]),
    ([data(f"aaaa030000000026 {'00' * 1500}", to=HOST)], ["the unit to 02:bb:00:00:00:01 has no wired form: 1,508 "
                                                          "octets with LLC and SNAP, and no type"]),
    ([join(OTHER, CELLAR, "cellar", listen="0100"), null(station=OTHER, network=CELLAR), wire(OTHER, bssid=CELLARS),
      "T", "T"],
     ["my.trace:10:1", "cellar loses a unit", "are too old (`aging = true`): of 02:aa:00:00:00:11 (1, listen interval "
      "1)"]),
]


def is_silent(step):
    """Whether a network took a line, and none sent or changed anything."""
    taking = [bssid for bssid, after in step.after.items() if after.events != step.before[bssid].events]
    return bool(taking) and not step.sent and not any(has_effect(step.before[bssid],
                                                                 step.after[bssid]) for bssid in taking)


def is_told_in_sum(octets):
    """Whether a frame is of QoS, or one that a network sent."""
    return len(octets) > 1 and octets[0] & 0x8C == 0x88 or octets[10:16].hex() in (ATTIC, CELLAR)


class SingleLines(ToolTest):
    """Single lines of runs."""

    def explained(self, lines, config=CONFIG):
        """What is said of a run."""
        for name, text in (("my.toml", config), ("my.trace", "\n".join([*lines, "T", ""]))):
            with open(self.path(name), "w", encoding="ascii") as file:
                file.write(text)
        status, stdout, stderr = tool("explain", "--program", PROGRAM, self.path("my.toml"), self.path("my.trace"))
        self.assertEqual((status, stderr), (0, ""), lines)
        return stdout

    @needs_program
    def test_each_line_is_told(self):
        """Each case with its line, the station and the one cause."""
        for lines, says in CASES:
            found = self.explained(JOINED + lines)
            for words in says:
                self.assertIn(words, found, lines)

    @needs_program
    def test_nothing_is_said_of_lines_that_do_something(self):
        """A run in which each line does something is told to have nothing odd."""
        lines = [probe("attic"), data(), null(), wire(), "T", poll(), null("4801"), data(station=OTHER, network=CELLAR),
                 managed("c000", "0300"), managed("a000", "0300", OTHER, CELLAR)]
        self.assertEqual(self.explained(JOINED + lines).split("\n", 1)[1],
                         "the program ended well\nnothing odd was found in this run\n")

    @needs_program
    def test_each_silent_line_has_a_reason(self):
        """Of frames that are changed at random each one that brings nothing has a reason, but for those that are told of
        in sum: QoS, and a network's own."""
        draw, pool = random.Random(62), [line for lines, _ in CASES for line in lines] + JOINED * 3
        silent = 0
        for _ in range(RUNS):
            lines = [self.changed(draw, draw.choice(pool)) for _ in range(LINES)]
            parsed = [trace_line(number, line) for number, line in enumerate(lines, 1)]
            outcomes = Outcomes(Source("my.trace", "\n".join(lines).encode()),
                                networks_of(Source("my.toml", CONFIG.encode())))
            for step in steps(PROGRAM, CONFIG.encode(), parsed):
                if is_silent(step) and not is_told_in_sum(step.line.octets):
                    self.assertNotEqual(list(outcomes.of_step(step)), [], lines[step.line.number - 1])
                    silent += 1
                outcomes.take(step)
            for finding in outcomes.findings():
                finding.shown()
        self.assertGreater(silent, RUNS * LINES / 5)

    def changed(self, draw, line):
        """A line of a trace, whose frame is another one in half of all cases."""
        if line == "T" or draw.randrange(2):
            return line
        words = line.split(" ")
        head = words[:1 if words[0] == "A" else 2]
        return " ".join([*head, mutated(draw, bytes.fromhex("".join(words[len(head):])))[:4096].hex()])

    @needs_program
    def test_lines_of_one_cause_are_told_once(self):
        """The first of them is shown, and the numbers of the others."""
        found = self.explained(JOINED + [poll()] * 9)
        self.assertEqual(found.count("the station is awake"), 1)
        self.assertIn("; so in lines 6, 7, 8, 9, 10 and 3 more", found)

    @needs_program
    def test_many_causes_are_cut(self):
        """Of more causes than are shown the lines are named."""
        found = self.explained(JOINED + [probe(f"garden{number}") for number in range(MOST_GROUPS + 2)])
        self.assertEqual(found.count("no network is called"), MOST_GROUPS)
        self.assertIn("it changes nothing, for other reasons: lines 11, 12", found)

    @needs_program
    def test_a_full_history_is_no_silence(self):
        """Lines that a network doesn't take any more aren't told to have done nothing; the history is."""
        found = self.explained(JOINED + ["T", poll(), "T"], CONFIG.replace("max_events = 1000", "max_events = 3"))
        self.assertIn("its history is full", found)
        self.assertNotIn("the station is awake", found)
