"""Tests of tools/frame and of docs/FIRST_TRACE.md: each frame of the examples and of the recorded ones is shown to its
last octet and written again, and what isn't read is told with its reason."""
import glob
import os
import random
import re
import shlex
import subprocess

from common import CASES, ROOT, ToolTest, heard, input_of, mutated, needs_program, report_of, tool, with_report
from fields import fields_on_air, fields_on_wire
from framing.networks import Networks
from framing.reading_out import lines_for
from framing.words import add_kinds, wanted, wired, words_of
from frames import address_text
from reading import wired_unread_kind
from texts import read_text
from writing import frame_of, wanted_of

FIRST, PAGE = CASES["first_trace"], os.path.join(ROOT, "docs", "FIRST_TRACE.md")
MOST_WORDS, MUTATIONS = 1000, 3000
LAB, OURS, STATION = "02:00:00:00:00:01", "020000000001", "02aa00000001"
RECORDED = glob.glob(os.path.join(ROOT, "crates", "recorded_frames", "specs", "*.antt"))
RATES = "010482840b16"
# Frames that no network takes or can read, and what has to be said of each.
UNREAD = [
    ("d4000000 020000000001", ["(U1)", "an acknowledgement of 10 octets", "fewer than 16"]),
    (f"b0000000 {OURS} {STATION}",
     ["(U1)", "of 16 octets: of its header of 24 Address 3 and Sequence Control are missing"]),
    (f"41000000 ffffffffffff {STATION} ffffffffffff 0000 0000 {RATES}", ["(U2)", "is 1", "`40` has version 0"]),
    (f"80000000 ffffffffffff {STATION} {STATION} 0000 {'00' * 12}", ["(U3)",
                                                                     "a beacon, which the network sends itself"]),
    (f"88010000 {OURS} {STATION} {OURS} 0000 0000", ["(U3)", "a QoS Data frame", "no QoS (WMM)", "`0801`"]),
    (f"b4000000 {OURS} {STATION}", ["(U3)", "an RTS, and that kind isn't read"]),
    (f"08410000 {OURS} {STATION} {OURS} 0000 0100", ["(U4)", "it is encrypted (Protected Frame is 1)", "`01`"]),
    (f"b0000000 {OURS} {STATION} {OURS} 0100 0000 0100 0000", ["(U4)", "says fragment 1", "number 1 is `1000`"]),
    (f"08010000 {OURS} {STATION} {OURS} 0520 01", ["(U4)", "says fragment 5"]),
    (f"b0400000 {OURS} {STATION} {OURS} 0000 0000 0100 0000", ["(U4)", "encrypted",
                                                                           "these networks have no encryption"]),
    (f"08000000 {OURS} {STATION} ffffffffffff 0000 01", ["(U5)", "To DS is 0", "write `0801`"]),
    (f"08020000 {OURS} {STATION} ffffffffffff 0000 01", ["(U5)", "an access point sent it", "write `0801`"]),
    (f"b0010000 {OURS} {STATION} {OURS} 0000 0000 0100 0000", ["(U5)", "which has both 0", "write `00`"]),
    (f"c0000000 ffffffffffff {STATION} {OURS} 0000 0300", ["(U6)", "a deauthentication to all", "to the network"]),
    (f"b0000000 {OURS} {STATION} 02000000000f 0000 0000 0100 0000", ["(U6)", "Address 3 is 02:00:00:00:00:0f",
                                                                      "write `020000000001`"]),
    (f"b0000000 {OURS} 03aa00000001 {OURS} 0000 0000 0100 0000", ["(U6)", "Address 2 is the group address"]),
    (f"b0000000 {OURS} {OURS} {OURS} 0000 0000 0100 0000", ["(U6)", "Address 2 is the network's own"]),
    (f"b0000000 {OURS} {STATION} {OURS} 0000 0000 0100", ["(U7)", "at least 6 octets (Algorithm 2", "here 4"]),
    (f"00000000 {OURS} {STATION} {OURS} 0000 0100 0a00 0003 6c616262 {RATES}",
     ["(U7)", "the element SSID", "has 3 octets", "4 stand", "`03` has to be `04`"]),
    (f"40000000 ffffffffffff {STATION} ffffffffffff 0000 0000 010382840b16",
     ["(U7)", "Supported Rates", "3 octets, and 4", "has to be `04`"]),
    (f"40000000 ffffffffffff {STATION} ffffffffffff 0000 0000 {RATES} 00", ["(U7)", "`00` stands alone"]),
    (f"40000000 ffffffffffff {STATION} ffffffffffff 0000 0000 {RATES} a1b2c3d4", ["(U7)", "four octets are too many"]),
    (f"40000000 ffffffffffff {STATION} ffffffffffff 0000 0000 010402040b16 3c04c517", ["(U7)", "check sequence"]),
    (f"08010000 {OURS} {STATION} ffffffffffff 0000 {'00' * 2305}", ["(U8)", "2,305 octets follow the header"]),
    (f"00b00000 {OURS} {STATION} {OURS} 0000 0000 0100 0000", ["(U4)", "stand the wrong way round", "write `b000`"]),
    (f"00400000 ffffffffffff {STATION} ffffffffffff 0000 0000 {RATES}", ["the wrong way round", "write `4000`"]),
    (f"01080000 {OURS} {STATION} ffffffffffff 0000 01", ["(U2)", "the wrong way round", "write `0801`"]),
    (f"b000 {OURS} {STATION} {OURS} 0000 0000 0100 0000", ["no network takes it", "Duration are missing",
                                                           "`b000 0000`"]),
    (f"0801 {OURS} {STATION} ffffffffffff 0000 aaaa030000000800 01", ["no network takes it", "Duration are missing"]),
    (f"00000000 {OURS} {STATION} {OURS} 0100 0a00 00036c6162 {RATES}", ["Sequence Control are missing",
                                                                        "write `0000`"]),
    (f"b0000000 {OURS} {STATION} 0000 0000 0100 0000", ["Address 3 is missing", f"write `{OURS}`"]),
    ("b000", ["no network takes it", "it has 2 octets"]),
    (f"W {LAB} 08010000 {OURS} {STATION} ffffffffffff 0000 01", ["(U7)", "of the air (802.11)", "write `A`"]),
    (f"W {LAB} {STATION} 02bb00000001", ["(U1)", "at least 14 octets", "here 12"]),
    (f"W {LAB} {STATION} 02bb00000001 0008 01", ["(U7)", "the wrong way round", "write `0800`"]),
    (f"W {LAB} {STATION} 02bb00000001 0026 424203", ["(U7)", "a length of 38 octets, and 3 follow"]),
    (f"W {LAB} {STATION} 02bb00000001 0002 4242", ["(U7)", "`0002` is no type"]),
    (f"W {LAB} {STATION} 02bb00000001 0800 {'00' * 2297}", ["(U8)", "2,297 octets follow the type"]),
]
# Frames of the configuration of examples/first_trace, and what is said of them.
OF_CONFIG = [
    (f"b0000000 02000000000f {STATION} 02000000000f 0000 0000 0100 0000", ["Address 1 is 02:00:00:00:00:0f, and lab "
                                                                           f"({LAB}) "
                                                                            "has", f"write `{OURS}`"]),
    (f"b0000000 {STATION} {OURS} {OURS} 0000 0000 0200 0000", [f"from lab ({LAB}): a network sends this"]),
    (f"b0000000 010000000002 {STATION} 010000000002 0000 0000 0100 0000", [f"write `{OURS}`"]),
    (f"b0000000 06bb00000009 {STATION} 06bb00000009 0000 0000 0100 0000", ["neither a network's BSSID nor all"]),
    (f"b0000000 {OURS} {STATION} {OURS} 0000 0000 0100 0000", [f"lab ({LAB}) reads it: an authentication"]),
]
# Words that write a frame, and its line.
WRITTEN = [
    (f"auth 02:aa:00:00:00:01 {LAB}", heard("b000 0000", "0000 0100 0000")),
    ("join 02:aa:00:00:00:01 lab --config my.toml", heard("0000 0000", "0100 0a00 00036c6162 010402040b16")),
    (f"rejoin 02:aa:00:00:00:01 {LAB} --ssid lab --current 02:00:00:00:00:02 --listen 2 --rates 0204",
     heard("2000 0000", "0100 0200 020000000002 00036c6162 01020204")),
    ("probe 02:aa:00:00:00:01", heard("4000 0000", "0000 010402040b16", "ffffffffffff")),
    ("probe 02:aa:00:00:00:01 lab --config my.toml", heard("4000 0000", "00036c6162 010402040b16", "ffffffffffff")),
    (f"probe 02:aa:00:00:00:01 {LAB} --direct", heard("4000 0000", "0000 010402040b16")),
    (f"data 02:aa:00:00:00:01 {LAB} --doze", heard("0811 0000", "aaaa03000000 0800 01", third="ffffffffffff")),
    (f"data 02:aa:00:00:00:01 {LAB} --to 02:bb:00:00:00:01 --payload 080602 --sequence 1",
     heard("0801 0000", "aaaa03000000 0806 02", third="02bb00000001", sequence="1000")),
    (f"null 02:aa:00:00:00:01 {LAB}", heard("4801 0000")),
    (f"null 02:aa:00:00:00:01 {LAB} --doze --retry --more", heard("4839 0000")),
    (f"poll 02:aa:00:00:00:01 {LAB} --aid 5", f"A a400 05c0 {OURS} {STATION}"),
    (f"disassoc 02:aa:00:00:00:01 {LAB}", heard("a000 0000", "0300")),
    (f"deauth 02:aa:00:00:00:01 {LAB} --reason 8", heard("c000 0000", "0800")),
    ("wired 02:aa:00:00:00:01 lab --config my.toml", f"W {LAB} {STATION} 02bb00000001 0800 01"),
    ("--config my.toml wired 02:aa:00:00:00:01 lab", f"W {LAB} {STATION} 02bb00000001 0800 01"),
    (f"wired all {LAB} --from 02:cc:00:00:00:01 --payload 0806", f"W {LAB} ffffffffffff 02cc00000001 0806"),
]
# Words that write nothing, and what is said.
REFUSED = [
    ("auth 02:aa:00:00:00:01 lab", "without --config a BSSID names it"),
    ("auth 02:aa:00:00:00:01 Lab --config my.toml", f"no network is called Lab; there are lab ({LAB})"),
    (f"join 02:aa:00:00:00:01 {LAB}", "the SSID isn't known: say it by --ssid"),
    ("data 02:aa:00:00:00:01 all", "a data is to one network"),
    ("poll 02:aa:00:00:00:01 lab --config my.toml --aid 16384", "--aid is at most 16383"),
    ("4000f", "5 digits: each octet has two"), ("xyz", "`x` is no hexadecimal digit"),
    ("T", "a line `T` has no frame"), ("wired 02:aa:00:00:00:01 all", "comes over the wire of one network"),
    (f"wire 02:aa:00:00:00:01 {LAB}", "KIND is probe, auth, join"), (f"host {LAB}", "and `wired` for a line `W`"),
    ("auth 02:aa:00:00:00:01 lab --config none.toml", "none.toml: No such file"),
    ("auth 02:aa:00:00:00:01 lab --config my.trace", "my.trace: no configuration with networks"),
]


def recorded():
    """The octets of each frame of the crate of recorded frames."""
    for path in RECORDED:
        text = re.sub(r"--.*", "", read_text(path))
        for part in re.findall(r"(?:\b(?:octets|air) =|\bheard \w+)[\s(]*((?:hex \"[^\"]*\"[\s+]*)+)", text):
            octets = bytes.fromhex("".join(re.findall(r'"([^"]*)"', part)))
            if len(octets) > 9:
                yield octets


def on_air():
    """The octets of each frame on the air of the cases, heard or sent, and of the recorded ones."""
    for folder in with_report():
        yield from (line.octets for line in input_of(folder)[1] if line.kind == "A")
        yield from (octets for section in report_of(folder) for octets in section.air)
    yield from recorded()


class Frames(ToolTest):
    """What is said of frames, and what is written."""

    def setUp(self):
        super().setUp()
        self.config = os.path.join(FIRST, "input")
        self.write("my.trace", "T\n")

    def words(self, text):
        """Words of a table, with the files of the test."""
        files = {"my.toml": self.config, "my.trace": self.path("my.trace")}
        return [files.get(word, word) for word in shlex.split(text)]

    def test_fields_are_all_octets(self):
        """The fields of each frame, one behind the other, are its octets."""
        count = 0
        for octets in on_air():
            self.assertEqual(b"".join(field.octets for field in fields_on_air(octets)), octets)
            count += 1
        self.assertGreater(count, 900)
        wired = [line.octets for folder in with_report() for line in input_of(folder)[1] if line.kind == "W"]
        for octets in wired:
            self.assertEqual(b"".join(field.octets for field in fields_on_wire(octets)), octets)
        self.assertGreater(len(wired), 50)

    def test_recorded_frames_are_found(self):
        """The crate has frames of stations, of hosts and of hostapd, and all are tried: 83 that differ."""
        self.assertEqual(len(set(recorded())), 83)

    def test_what_is_read_is_written_again(self):
        """Of each frame that a network reads the words write the same octets."""
        parser = argparse_of_kinds()
        kinds = set()
        for octets in {octets for octets in on_air() if len(octets) >= 16}:
            frame = wanted_of(octets)
            if frame is None:
                continue
            self.assertEqual(frame_of(frame), octets)
            asked = parser.parse_args(shlex.split(words_of(frame)))
            self.assertEqual(frame_of(wanted(asked, Networks([]))), octets, words_of(frame))
            kinds.add(frame.kind)
        self.assertEqual(len(kinds), 9)

    def test_wired_frames_are_written_again(self):
        """Of each frame of a wire that a network reads the words write the same line."""
        parser, count = argparse_of_kinds(), 0
        for octets in {line.octets for folder in with_report() for line in input_of(folder)[1] if line.kind == "W"
                       and line.octets}:
            by = re.search("written by: tools/frame (.*)", "\n".join(lines_for(["W", LAB, octets.hex()], Networks([]))))
            self.assertEqual(by is None, wired_unread_kind(octets) is not None)
            if by:
                line = wired(parser.parse_args(shlex.split(by[1])), Networks([])).line()
                self.assertEqual(line.replace(" ", ""), f"W{LAB}{octets.hex()}")
                count += 1
        self.assertGreater(count, 20)

    def test_what_is_not_read(self):
        """Each frame that isn't taken or read is told with the rule, the reason and what to write."""
        for digits, says in UNREAD:
            found = "\n".join(lines_for(digits.split(), Networks([])))
            for words in says:
                self.assertIn(words, found, digits)
            self.assertNotIn("written by", found, digits)

    def test_networks_of_a_configuration(self):
        """With a configuration its networks read a frame, and one that none takes is told with the nearest."""
        for digits, says in OF_CONFIG:
            status, found, stderr = tool("frame", "--config", self.config, *digits.split())
            self.assertEqual((status, stderr), (0, ""))
            for words in says:
                self.assertIn(words, found, digits)

    def test_lines_of_other_texts(self):
        """A line of a trace, of a report and of `live` is read with its words."""
        for line, says in ((f"A {'00' * 12}", "association request"),
                           (f"air b0000000{STATION}{OURS}{OURS}0000", "which a network"),
                           (f"air {LAB} 80000000", "beacon"),
                           (f"wire {LAB} {STATION}02bb000000010800", "put on its wire"),
                           (f"W {LAB} {STATION} 02bb00000001 0800 01", "reads it: a unit to 02:aa:00:00:00:01")):
            status, found, stderr = tool("frame", *line.split())
            self.assertEqual((status, stderr), (0, ""), line)
            self.assertIn(says, found, line)

    def test_any_octets_are_shown(self):
        """Whatever octets are given, they are shown, and something is said of them."""
        draw, frames = random.Random(61), list(on_air())
        kinds = [Networks([]), Networks.of(self.config)]
        for _ in range(MUTATIONS):
            octets = mutated(draw, draw.choice(frames)) or b"\0"
            word = draw.choice(["A", f"W {LAB}", "air", "wire"])
            self.assertGreater(len(lines_for([*word.split(), octets.hex()], draw.choice(kinds))), 1,
                               (word, octets.hex()))

    def test_words_write_lines(self):
        """Each kind of frame, as its words ask for it."""
        for text, line in WRITTEN:
            status, found, stderr = tool("frame", *self.words(text))
            self.assertEqual((status, stderr), (0, ""), text)
            self.assertEqual(found.replace(" ", ""), line.replace(" ", "") + "\n", text)

    def test_words_that_write_nothing(self):
        """A network that isn't there, a name or a number that is missing or too large: one message, and status 1."""
        for text, says in REFUSED:
            self.refused("frame", *self.words(text), says=says)
        for text in ("", "join", "auth 02:aa:00:00:00 lab", f"data 02:aa:00:00:00:01 {LAB} --payload 8"):
            self.assertEqual(tool("frame", *shlex.split(text))[:2], (2, ""), text)


def argparse_of_kinds():
    """The parser of the words that write a frame."""
    import argparse
    parser = argparse.ArgumentParser()
    add_kinds(parser.add_subparsers(dest="kind"))
    return parser


class Page(ToolTest):
    """docs/FIRST_TRACE.md."""

    def test_trace_is_the_example(self):
        """Each line of examples/first_trace is shown, as `tools/explain --lines` shows it, and those that it names are
        what it says of them."""
        page, lines = read_text(PAGE), read_text(os.path.join(FIRST, "input")).split("\n")
        first = lines.index("---") + 1
        for number, line in enumerate(lines, 1):
            if number > first and line and not line.startswith("#"):
                self.assertRegex(page, rf"(?m)^examples/first_trace/input:{number}: .*\n    {re.escape(line)}$")
        for number, kind in ((21, "A 0801"), (23, "W "), (26, "A c000")):
            self.assertIn(f"line {number}", page)
            self.assertTrue(lines[number - 1].startswith(kind), number)

    def test_it_is_short(self):
        """It has at most 1,000 words."""
        self.assertLessEqual(len(read_text(PAGE).split()), MOST_WORDS)

    def test_octets_are_those_of_the_frames(self):
        """The two octets with which a frame begins are named as the tool names them."""
        rows = dict(re.findall(r"\| `([0-9a-f]{4})` \| ([^|]+?) (?=\|)", read_text(PAGE)))
        self.assertEqual(len(rows), 11)
        names = {"Data": "data", "Null": "no data"}
        for digits, said in rows.items():
            octets = bytes.fromhex(f"{digits}0000 {OURS} {STATION} {OURS} 0000")
            kind, *flags = fields_on_air(octets)[0].meaning.split(", ")
            self.assertTrue(said.startswith(names.get(kind, kind)), said)
            self.assertEqual("dozes" in said, "Power Management" in flags, said)

    @needs_program
    def test_commands_answer_so(self):
        """Each command of the page that has an answer there gives it."""
        shown = re.findall(r"^\$ ((?:.*\\\n)*.*)\n((?:(?!\$ |```).*\n)+)", read_text(PAGE), re.M)
        self.assertEqual(len(shown), 3)
        for command, answer in shown:
            done = subprocess.run(["bash", "-c", command], capture_output=True, text=True, cwd=ROOT, check=True)
            self.assertEqual(done.stdout.rstrip("\n"), answer.rstrip("\n"), command)

    def test_station_of_the_page(self):
        """The addresses that it names are those of the trace."""
        page = read_text(PAGE)
        for digits in (STATION, OURS, "02bb00000001"):
            self.assertIn(address_text(bytes.fromhex(digits)), page)
