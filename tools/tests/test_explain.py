"""Tests of tools/explain: what it says of mistakes, that it says what the program said, and that nothing ends it."""
import os
import pty
import random
import re
import subprocess
import tomllib
import zlib
from collections import Counter
from unittest import mock

import mistakes
import mistakes_by_cause
import mistakes_of_people
from common import CASES, PROGRAM, ROOT, THREE, ToolTest, heard, input_of, needs_program, tool, with_report
from explaining import odd_config, whole
from explaining.answers import Answer, read_fault, run_program
from explaining.files import missing_file
from explaining.source import Source
from explaining.toml_scan import NoToml, scan
from frames import BROADCAST
from live.checks import check_config
from live.faults import Fault as LiveFault
from mistakes import CONFIG, PROBE, TRACE
from reading import hears, request_of, unread_kind, wired_unread_kind
from records import record
from texts import read_text

TEXTS = mistakes.TEXTS + mistakes_of_people.TEXTS + mistakes_by_cause.TEXTS
LEAST_ROWS, LEAST_OF_EACH, MUTATIONS = 100, 4, 10_000
TEXT_CODES = [f"C{number}" for number in range(1, 14)] + [f"L{number}" for number in range(1, 6)]
OTHER_FAULT = re.compile(r"\b(?:C\d+|L\d|F[234])\b")
LAB, GUEST = "02:00:00:00:00:01", "02:00:00:00:00:02"
STATION = "02aa00000001"
OURS = LAB.replace(":", "")
# Words of the program that are wrong, files that can't be read, and what has to be said of them. my.toml, my.trace and
# folder are there.
WORDS = [
    (["--", "--help"], "fault words", ["asks for the program's usage", "check CONFIG"]),
    (["--", "help"], "fault words", ["`help` asks for the program's usage"]),
    (["--", "--version"], "fault words", ["asks for the program's version", "run CONFIG TRACE"]),
    (["--", "help", "check"], "fault words", ["no word `help` beside others", "check CONFIG"]),
    (["--", "-V"], "fault words", ["no word `-V`", "check CONFIG"]),
    (["check"], "fault words", ["CONFIG is missing", "check CONFIG"]),
    (["run", "my.toml"], "fault words", ["TRACE is missing", "run CONFIG TRACE"]),
    (["run", "my.toml", "my.trace", "my.trace"], "fault words", ["two words", "play CONFIG TRACE..."]),
    (["check", "my.toml", "my.trace"], "fault words", ["takes a configuration alone", "write `run my.toml my.trace`"]),
    (["chekc", "my.toml"], "fault words", ["no word `chekc`", "write `check my.toml`"]),
    (["RUN", "my.toml", "my.trace"], "fault words", ["no word `RUN`", "write `run my.toml my.trace`"]),
    (["--", "my.toml", "run", "my.trace"], "fault words", ["the command comes first", "write `run my.toml my.trace`"]),
    (["run", "-c", "my.toml", "-t", "my.trace"], "fault words", ["`-c` begins with `-`",
                                                                 "write `run my.toml my.trace`"]),
    (["live", "my.toml", "my.trace"], "fault words", ["from standard input", "write `live my.toml < my.trace`"]),
    (["live", "my.toml", "--phy", "phy0"], "fault words", ["`--phy` is an option of tools/live"]),
    (["--", "my.toml", "my.trace"], "fault words", ["is no first word", "write `run my.toml my.trace`"]),
    (["--", "my.toml"], "fault words", ["is no first word", "write `check my.toml`"]),
    (["--", "new.toml", "new.trace"], "fault words", ["is no first word", "write `run new.toml new.trace`"]),
    (["--", "--config", "my.toml"], "fault words", ["no word `--config`", "write `check my.toml`"]),
    (["--", "-c", "my.toml", "my.trace"], "fault words", ["no word `-c`", "write `run my.toml my.trace`"]),
    (["run", "--verbose", "my.toml", "my.trace"], "fault words", ["`run` has no options",
                                                                  "write `run my.toml my.trace`"]),
    (["run", "--help"], "fault words", ["no word `--help`", "run CONFIG TRACE"]),
    (["check", "-v"], "fault words", ["begins with `-`", "check -- -v"]),
    (["play", "my.toml"], "fault words", ["TRACE is missing"]),
    (["live", "--octets"], "fault words", ["CONFIG is missing", "live --octets CONFIG"]),
    (["live", "--octet", "my.toml"], "fault words", ["no option but `--octets`", "write `live --octets my.toml`"]),
    (["live", "\u2013octets", "my.toml"], "fault words", ["a dash of print (U+2013)", "write `live --octets my.toml`"]),
    (["live", "--binary", "my.toml"], "fault words", ["write `live --octets my.toml`"]),
    (["live", "--octets", "my.toml", "-v"], "fault words", ["write `live --octets my.toml`"]),
    (["live", "octets", "my.toml"], "fault words", ["the option has two hyphens", "write `live --octets my.toml`"]),
    (["live", "--", "--octets", "my.toml"], "fault words", ["behind `--` stand "
                                                            "names", "write `live --octets my.toml`"]),
    (["live", "kick", LAB, "02:aa:00:00:00:01"], "fault words", ["asked of tools/live", "write `tools/live kick"]),
    (["run", "my.toml", "my.trace", "out.txt"], "fault words", ["writes its report on standard output",
                                                                "write `run my.toml my.trace > out.txt`"]),
    (["validate", "my.toml"], "fault words", ["no word `validate`", "write `check my.toml`"]),
    (["run", "my", "lab.toml", "my.trace"], "fault words", ["`my lab.toml` is a file, and its blanks make 2 words",
                                                            "write `run 'my lab.toml' my.trace`"]),
    (["apctl", "check", "my.toml"], "fault words", ["`apctl` stands among the program's "
                                                    "words", "write `check my.toml`"]),
    (["trace-from-capture", "x.pcap"], "fault words", ["a tool of its own", "write `tools/trace-from-capture x.pcap`"]),
    (["--", "explode"], "fault words", ["no word `explode`"]),
    (["check", b"\xff.toml"], "fault words", ["isn't UTF-8"]),
]
FILES = [
    (["check", "my.tmol"], "fault file my.tmol", ["isn't there", "`my.toml` is there, and may be meant"]),
    (["check", "none/my.toml"], "fault file none/my.toml", ["there is no folder `none`"]),
    (["check", "folder"], "fault file folder", ["is a folder"]),
    (["check", "other.toml"], "fault file other.toml", ["`other.toml` isn't there, and `other.toml.txt` is"]),
    (["check", "\u201cmy.toml\u201d"], "fault file \u201cmy.toml\u201d", ["the quotes are a part of this name"]),
    (["check", "$CONFIG"], "fault file $CONFIG", ["a variable's value"]),
    (["live", "status"], "fault file status", ["asked of tools/live", "write `tools/live status`"]),
    (["check", "-"], "fault file -", ["`-` names a file here", "or /dev/stdin"]),
    (["run", "my.toml", "-", "<", "my.trace"], "fault words", ["write `run my.toml my.trace`"]),
    (["check", ""], "fault file ", ["the name of a file is empty"]),
    (["run", "my.toml", "trace"], "fault file trace", ["isn't there"]),
    (["check", "link"], "fault file link", ["is a link to `gone`"]),
    (["check", "my.toml/x"], "fault file my.toml/x", ["is a file, and no folder"]),
    (["run", "my.toml", "folder"], "fault file folder", ["is a folder"]),
    (["play", "my.toml"] + ["my.trace"] * 65, "fault sources", ["65 traces", "1 to 64"]),
]
# What is told of a fault for which the program isn't run.
TOLD = [("fault memory", "use `live`"), ("fault output", "can't be written"),
        ("fault thread", "a thread for each trace"), ("fault F3", "a mistake of the program"),
        ("fault clock line 7 network 02:00:00:00:00:01", "start the program again"),
        ("fault memory line 7 network 02:00:00:00:00:01", "a smaller `quota`"),
        ("fault memory record 7 network 02:00:00:00:00:01", "a smaller `quota`")]


def octets_of(text):
    """A text as octets."""
    return text if isinstance(text, bytes) or text is None else text.encode()


JOIN = [heard("b0000000", "0000 0100 0000"), heard("00000000", "0100 0a00 00036c6162 010482840b16")]
DATA, QOS = "08010000", "88010000"
POLL = f"A a400 01c0 {OURS} {STATION}"
UNIT = "aaaa030000000800 01"


def with_fcs(line):
    """A line with the frame check sequence at its end."""
    octets = bytes.fromhex("".join(line.split()[1:]))
    return f"{line} {zlib.crc32(octets).to_bytes(4, 'little').hex()}"


def with_four_octets(line):
    """A line with four octets more, as a check sequence that isn't the frame's."""
    return f"{line} a1b2c3d4"


def with_radiotap(line):
    """A line with a radiotap header before the frame."""
    return line.replace("A ", "A 0000 0c00 04800000 02001800 ", 1)


# What is given to `live --octets`, and what has to be said of it.
TICK = record(b"T")
RECORDS = [
    (f"{PROBE}\nT\n".encode(), ["fault L", "standard input is text", "leave `--octets` out"]),
    (b"T\nT\nT\nT\nT\nT\n", ["standard input is text"]),
    (TICK + record(b"Q"), ["fault L1 record 2", "of the kind `Q`, and kinds are `A`, `W`, `T`, `I`"]),
    (record(b"T", bytes(6), b"xy"), ["fault L1 record 1", "of the kind `T`, has octets, and has to have none"]),
    (record(b"A", bytes(5) + b"1", b"xy"), ["fault L1 record 1", "of the kind `A`, has a BSSID"]),
    (TICK + record(b"W", bytes(5) + b"9", b"xy"), ["fault L4 record 2", "has the BSSID 00:00:00:00:00:39", LAB]),
    (record(b"W", bytes.fromhex("010000000002"), b"xy"), ["fault L4 record 1", "its octets stand the wrong way round"]),
    (b"A" + bytes(6) + b"\x29\0" + bytes(32) + b"T" + bytes(6) + b"\x09\0",
     ["each length counts the nine octets before it too", "it counts the octets behind it alone"]),
    (TICK + b"\n" + TICK, ["fault L1 record 2", "a line's end (LF) stands behind each record"]),
    (record(b"A", bytes(6), bytes(4097)), ["fault L5 record 1", "has 4,097 octets, and may have 4,096"]),
    (TICK * 2 + record(b"A", bytes(6), bytes(9))[:-2], ["fault L2 record 3", "says that 9 octets follow, and 7 do"]),
    (TICK + TICK[:5], ["fault L2 record 2", "of which it has 5 octets"]),
    (TICK * 3, ["the program ended well", "no record had a fault"]),
]


# Traces that the program reads, and what has to be said of the run.
RUNS = [
    ([PROBE.replace("ffffffffffff", "029900000001")], ["no frame of this trace is to a network", LAB, GUEST,
                                                       "02:99:00:00:00:01 (1)"]),
    ([heard("80000000", "00" * 12, "ffffffffffff"), JOIN[0].replace(OURS, "029900000001")],
     ["no frame of this trace is to a network", LAB, "02:99:00:00:00:01 (1)"]),
    (JOIN + [PROBE], ["network 02:00:00:00:00:02 (guest): no frame of this trace is to it", "it took 1 frame to all"]),
    ([heard("b0000000", "0000 0100 0000", sender=f"02aa000000{number:02x}") for number in range(16)],
     ["it knows as many stations as it may, `max_known = 16`"]),
    (JOIN + [heard(QOS, f"0000 {UNIT}")] * 3,
     ["data frames of QoS (WMM), which it can't read (U3): all", "my.trace:3:3"]),
    (JOIN + [heard(QOS, f"0000 {UNIT}"), heard(DATA, UNIT)],
     ["data frames of QoS (WMM), which it can't read (U3): 1 of 2"]),
    (["T"] * 101, ["its history is full, `max_events = 100`", "my.trace:101:1", "left out: 1"]),
    ([heard("b0000000", "0000 0100 0000", sender=f"02aa000000{number:02x}") for number in range(17)],
     ["an authentication is refused with status 1, of 02:aa:00:00:00:10: `max_known = 16` is reached"]),
    ([line.replace(STATION, f"02aa000000{number:02x}") for number in range(9) for line in JOIN],
     ["an association is refused with status 17, of 02:aa:00:00:00:08: `max_stations = 8` is reached"]),
    ([JOIN[0], JOIN[1].replace("010482840b16", "010102")], ["status 18", "it lacks the basic rate 2 Mb/s"]),
    ([JOIN[0], JOIN[1].replace("6c6162", "4c6162")], ["status 1", "no network is called `Lab`; `lab` is the same but "
                                                      "for"]),
    ([JOIN[0].replace("0000 0100 0000", "0100 0100 0000")], ["status 13", "Open System"]),
    (list(map(with_fcs, [*JOIN, heard(DATA, UNIT)])), ["the last four octets of 3 of 3 frames", "my.trace:1:",
                                                       "tools/trace-from-capture"]),
    ([*JOIN, with_fcs(heard(DATA, UNIT))], ["the last four octets of 1 of 3 frames on the air", "my.trace:3:"]),
    ([*JOIN, f"W {LAB} {with_fcs(f'A {STATION} 02bb00000001 0800 01')[2:]}"], ["of 1 of 1 frames on a wire",
                                                                          "leave it out"]),
    (list(map(with_four_octets, [PROBE, *JOIN, heard("48010000"), POLL])),
     ["5 of 5 frames on the air are four octets longer than they say", "my.trace:1:74"]),
    (list(map(with_four_octets, [*JOIN, heard(DATA, f"{UNIT[:-3]} 4500 0014 {'00' * 16}")])),
     ["3 of 3 frames on the air are four octets longer"]),
    ([*JOIN, with_four_octets(PROBE)], ["four octets are too many at the end"]),
    ([*JOIN, f"A {STATION} 02bb00000001 0800 01"], ["1 frame behind `A`", "begins as Ethernet's does",
                                                   f"as `W {LAB}`"]),
    ([*JOIN, *["A ffffffffffff 02bb00000001 0806 0001"] * 2], ["my.trace:3:3", "2 frames behind `A`"]),
    ([*JOIN, *[PROBE.replace("ffffffffffff", "029900000001")] * 3],
     ["frames on the air that no network took: 3 of 5", "02:99:00:00:00:01 (3)", "--heard-only", "my.trace:3:1"]),
    (list(map(with_radiotap, JOIN)), ["radiotap", "tools/trace-from-capture takes it off"]),
    ([heard(DATA, UNIT)], ["reason 7", "it joined before the trace begins"]),
    (JOIN + [heard("08410000", "0100002000000000 a1b2")], ["my.trace:3:5", "lab can't read it (U4): it is encrypted"]),
    (JOIN + [heard("08010000", UNIT, sequence="1000"), heard("08090000", UNIT, sequence="1000")],
     ["frames sent again: 1", "my.trace:4:5"]),
    (JOIN + [heard("48110000")] + [f"W {LAB} {STATION} 02bb00000001 0800 01"] * 9,
     ["my.trace:12:1", "lab loses a unit", "above the quota: `quota = 8`"]),
    ([heard("80000000", "00" * 12, "ffffffffffff", OURS)], ["(U3)", "a beacon, which the network sends itself"]),
    ([heard("40000000", "0000", "ffffffffffff", OURS)], ["frames that it sent itself, unread (U6): 1"]),
    (JOIN + [line.replace(OURS, GUEST.replace(":", "")).replace("00036c6162", "00056775657374") for line in JOIN],
     ["is associated in several networks: lab, guest"]),
    (["# nothing"], ["the trace has no line"]),
    (JOIN + [PROBE.replace("ffffffffffff", GUEST.replace(":", "")), "T"], ["nothing odd was found"]),
]


class Mistakes(ToolTest):
    """What is said of texts, words and files that the program refuses."""

    def explained(self, mistake):
        """What is said where the program answers as the table says."""
        config = Source("my.toml", octets_of(mistake.config))
        if mistake.is_joined:
            texts = whole.texts_of([], octets_of(mistake.config))
        elif mistake.trace is None:
            texts = whole.Texts(["check", "my.toml"], config)
        else:
            texts = whole.Texts(["run", "my.toml", "my.trace"], config,
                                [Source("my.trace", octets_of(mistake.trace))])
        return "\n".join(whole.explain(texts, Answer(1, b"", read_fault(mistake.said), mistake.said)))

    def test_each_mistake_is_named(self):
        """Of each mistake the place, the cause and what to write are said, below the program's own line."""
        for mistake in TEXTS:
            found = self.explained(mistake)
            self.assertEqual(found.split("\n")[0], mistake.said)
            for words in mistake.says:
                self.assertIn(words, found)

    def test_table_has_enough(self):
        """At least a hundred inputs, at least four of each fault of a text, of words and of files."""
        counts = Counter(read_fault(mistake.said).code for mistake in TEXTS)
        self.assertGreaterEqual(len(TEXTS), LEAST_ROWS)
        self.assertGreaterEqual(min(counts[code] for code in TEXT_CODES), LEAST_OF_EACH)
        self.assertGreaterEqual(min(len(WORDS), len(FILES)), LEAST_OF_EACH)
        inputs = [(mistake.config, mistake.trace) for mistake in TEXTS]
        self.assertEqual(len(set(inputs)), len(inputs))

    @needs_program
    def test_program_answers_as_the_table_says(self):
        """The program's own line of each mistake is the table's, so that what is said is said of the right fault."""
        for mistake in TEXTS:
            self.write("my.toml", octets_of(mistake.config))
            words, given = ["check", self.path("my.toml")], None
            if mistake.is_joined:
                words, given = [], octets_of(mistake.config)
            elif mistake.trace is not None:
                self.write("my.trace", octets_of(mistake.trace))
                words = ["run", self.path("my.toml"), self.path("my.trace")]
            self.assertEqual(run_program(PROGRAM, words, given).errors, f"{mistake.said}\n", mistake.says)

    @needs_program
    def test_bridge_shows_it(self):
        """Where the program refuses a configuration, tools/live tells the fault and its reason."""
        count = 0
        for mistake in TEXTS:
            if mistake.trace is not None or mistake.is_joined:
                continue
            self.write("my.toml", octets_of(mistake.config))
            config = self.path("my.toml")
            with self.assertRaises(LiveFault) as caught:
                check_config(PROGRAM, config)
            told = str(caught.exception).replace(config, "my.toml")
            self.assertEqual(told.split("\n")[0], f"my.toml: {mistake.said}")
            for words in mistake.says:
                self.assertIn(words, told)
            count += 1
        self.assertGreater(count, 50)

    def test_bridge_shows_what_is_no_fault(self):
        """What a program says that is no line of a fault is shown as it is."""
        self.write("program", b"#!/bin/sh\necho killed by somebody >&2\nexit 9\n")
        os.chmod(self.path("program"), 0o755)
        with self.assertRaises(LiveFault) as caught:
            check_config(self.path("program"), "my.toml")
        self.assertEqual(str(caught.exception), "my.toml: killed by somebody")

    def write(self, name, octets):
        """A file of the test's folder."""
        with open(self.path(name), "wb") as file:
            file.write(octets)

    def folder_with_files(self):
        """The test's folder, with files to be read and some that can't be."""
        self.write("my.toml", CONFIG.encode())
        self.write("my.trace", TRACE.encode())
        self.write("other.toml.txt", CONFIG.encode())
        self.write("my lab.toml", CONFIG.encode())
        os.mkdir(self.path("folder"))
        os.symlink("gone", self.path("link"))

    def run_tool(self, *words, given="", stdin=None):
        """The tool, in the test's folder, with a text or a file on standard input: its status, and what it says."""
        comes = {"stdin": stdin} if stdin else {"input": given}
        done = subprocess.run([os.path.join(ROOT, "tools", "explain"), *words], capture_output=True, text=True,
                              cwd=self.folder, check=False, **comes)
        self.assertEqual(done.stderr, "", words)
        return done.returncode, done.stdout

    @needs_program
    def test_octets(self):
        """A configuration is explained in the face of records as in that of lines; what is answered there isn't."""
        self.folder_with_files()
        self.write("bad.toml", b"channel = 6\n")
        for words in (["live", "--octets", "bad.toml"], ["live", "bad.toml", "--octets"]):
            status, found = self.run_tool(*words)
            self.assertEqual(status, 1)
            self.assertIn("the key `version` is missing", found)
        self.assertEqual(self.run_tool("live", "--octets", "my.toml"),
                         (0, "the program ended well\nno record had a fault\n"))

    @needs_program
    def test_faults_of_records(self):
        """Each fault that the program tells in a record is shown with its reason, text among them."""
        self.folder_with_files()
        for given, says in RECORDS:
            self.write("records", given)
            with open(self.path("records"), encoding="latin-1") as file:
                status, found = self.run_tool("live", "--octets", "my.toml", stdin=file)
            self.assertEqual(status, 0)
            for words in says:
                self.assertIn(words, found)
            self.assertEqual(found.count("no reason was found"), 0, found)

    @needs_program
    def test_folder_shows_its_newest_files(self):
        """Of a folder the newest files are named, and how many more there are."""
        self.folder_with_files()
        for place in range(7):
            self.write(f"folder/{place}.trace", b"T\n")
            os.utime(self.path(f"folder/{place}.trace"), (1000 + place % 5, 1000 + place % 5))
        self.assertIn("the newest of its files are 4.trace, 3.trace, ", self.run_tool("run", "my.toml", "folder")[1])
        self.assertIn(", and there are 3 more", self.run_tool("run", "my.toml", "folder")[1])
        for place in range(3):
            os.remove(self.path(f"folder/{place}.trace"))
        self.assertIn("in it are 4.trace, 3.trace, 6.trace, 5.trace", self.run_tool("check", "folder")[1])

    @needs_program
    def test_words_and_files(self):
        """Wrong words, and files that can't be read: the program's line, its status and the cause."""
        self.folder_with_files()
        for words, said, says in WORDS + FILES + mistakes_by_cause.WORDS + mistakes_by_cause.FILES:
            status, found = self.run_tool(*words)
            self.assertEqual(found.split("\n")[0], said, words)
            self.assertEqual(status, {"words": 2, "file": 4, "sources": 1}[said.split()[1]], words)
            for text in says:
                self.assertIn(text, found)

    def test_what_was_said_already(self):
        """With --said the program isn't run: so one that ran it without proof, or elsewhere, shows the reason."""
        self.folder_with_files()
        self.write("wrong.toml", CONFIG.replace('"lab"', "lab").encode())
        program = ["--program", self.path("none"), "--said"]
        status, found = self.run_tool(*program, "fault C1", "check", "wrong.toml")
        self.assertEqual((status, found.split("\n")[0]), (1, "fault C1"))
        self.assertIn("wrong.toml:8:8", found)
        for said, says in TOLD:
            status, found = self.run_tool(*program, said, "run", "my.toml", "my.trace")
            self.assertEqual(found.split("\n")[0], said)
            self.assertIn(says, found)
            self.assertEqual("use `live`" in found, said == "fault memory")
        self.assertNotIn("use `live`", self.run_tool(*program, "fault memory", "live", "my.toml")[1])
        self.assertEqual(whole.explain_config(self.path("wrong.toml"), "fault C1")[0], "fault C1")

    def test_a_configuration_that_is_too_long_to_be_explained_at_once(self):
        """Where somebody waits for it the fault of a long text, or of one with a long line, stands alone."""
        head, path = "version = 2\nchannel = 6\n", self.path("long.toml")
        for text in (head + "x" * 10_000 + "\n", head + "a." * 5_000 + "b = 1\n", head + "a=" * 5_000,
                     head + "".join(f"key{number} = {number}\n" for number in range(2_000)), head + "#" * 1_001):
            self.write("long.toml", text.encode())
            with self.subTest(text=text[20:60]), mock.patch.object(whole, "explain") as explained:
                self.assertEqual(whole.explain_config(path, "fault C1"),
                                 ["fault C1", f"`tools/explain --said 'fault C1' check {path}` looks for the reason"])
                explained.assert_not_called()
        for text in ("#" * 1_000 + "\n" + "x\n", ("#" * 15 + "\n") * 1_023 + "x" * 16):
            self.write("long.toml", text.encode())
            self.assertIn(":1", whole.explain_config(path, "fault C1")[1])

    def test_a_network_refuses_a_line(self):
        """Memory that ran out for a line or record is told with the network that refused it, and else is no fault."""
        for what in ("memory", "clock"):
            for said in (f"fault {what} line 7", f"fault {what} record 7", f"fault {what} network {LAB}"):
                self.assertIsNone(read_fault(said))
            found = read_fault(f"fault {what} record 7 network {LAB}")
            self.assertEqual((found.code, found.line), (what, 7))

    def test_blanks_that_are_none_in_a_trace(self):
        """A no-break space after `A` is shown and named, and one that isn't seen is named too."""
        self.folder_with_files()
        for text, says in (("T\nA\u00a040000000\n", ("my.trace:2:2: a no-break space (U+00A0)", "A\u237d4")),
                           ("T\nA 4000\u200b0000\n", ("my.trace:2:7: a zero width space (U+200B)", "leave it out"))):
            self.write("my.trace", text.encode())
            found = self.run_tool("--said", "fault L1 line 2", "run", "my.toml", "my.trace")[1]
            for words in says:
                self.assertIn(words, found)

    def test_pipes_are_handed_on_and_read_again(self):
        """A file that the shell makes by `<(..)` is read by the program, and a second time for the reason."""
        self.folder_with_files()
        self.write("wrong.toml", CONFIG.replace('"lab"', "lab").encode())
        self.write("stand_in", b"#!/bin/sh\ngrep -q '^ssid = lab' $2 && echo 'fault C1' >&2\nexit 1\n")
        os.chmod(self.path("stand_in"), 0o755)
        script = 'exec "$0" --program ./stand_in check <(cat wrong.toml)'
        done = subprocess.run(["bash", "-c", script, os.path.join(ROOT, "tools", "explain")], cwd=self.folder,
                              text=True, capture_output=True, check=False)
        self.assertRegex(done.stdout, r"\Afault C1\n/dev/fd/\d+:8:8: ")
        self.assertIn('write `ssid = "lab"`', done.stdout)

    def test_files_far_from_a_name_are_not_suggested(self):
        """Of the files of a folder one is meant that is written nearly as the name."""
        self.folder_with_files()
        for name, other, is_meant in (("radio.tml", "radio.toml", True), ("my.tom", "my.toml", True),
                                      ("lab.toml", "lba.toml", True), ("notes.txt", "tests.toml", False),
                                      ("xyz.toml", "zw.toml", False), ("a.trace", "b.trace", False)):
            self.write(other, b"")
            advice = missing_file(self.path(name), None, FileNotFoundError()).advice
            self.assertEqual(bool(advice and other in advice), is_meant, (name, advice))

    def test_an_address_of_zeros_is_told(self):
        """A network may have it, and it is odd."""
        source = Source("my.toml", CONFIG.replace("02:00:00:00:00:01", "00:00:00:00:00:00").encode())
        self.assertIn("all zeros", odd_config.odd(source)[0].text)

    @needs_program
    def test_files_in_the_wrong_order(self):
        """Where the trace comes first, the order is told."""
        self.folder_with_files()
        status, found = self.run_tool("run", "my.trace", "my.toml")
        self.assertEqual((status, found.split("\n")[0]), (1, "fault C1"))
        self.assertIn("my.trace is a trace, and my.toml a configuration", found)
        self.assertIn("write `run my.toml my.trace`", found)

    @needs_program
    def test_ways_to_give_texts(self):
        """A configuration, with a trace, both in one file, both on standard input, and lines for `live`."""
        self.folder_with_files()
        self.write("my.input", f"{CONFIG}---\nT\nA 4\n".encode())
        for words, says in ((["my.toml"], "ok 2"), (["my.toml", "my.trace"], "the program ended well"),
                            (["check", "my.toml"], "ok 2"), (["my.input"], "my.input:31:3"),
                            (["play", "my.toml", "my.trace", "my.trace"], "the program ended well")):
            self.assertIn(says, self.run_tool(*words)[1], words)
        self.assertIn("can't be read a second time", self.run_tool("my.toml", "/dev/stdin", given=TRACE)[1])
        self.assertIn("standard input:31:3", self.run_tool(given=f"{CONFIG}---\nT\nA 4\n")[1])
        found = self.run_tool("live", "my.toml", given="T\nA 4\ntick\n")[1]
        self.assertIn("fault L2 line 2\nstandard input:2:3", found)
        self.assertIn("fault L1 line 3\nstandard input:3:1", found)
        self.write("wrong.trace", b"T\nA 4\n")
        self.assertIn("fault L2 trace 1 line 2\nwrong.trace:2:3",
                      self.run_tool("play", "my.toml", "/dev/stdin", "wrong.trace", given="T\n")[1])
        self.assertIn("fault L2 trace 1 line 2\nwrong.trace:2:3",
                      self.run_tool("play", "my.toml", "my.trace", "wrong.trace")[1])

    def test_where_there_is_no_program(self):
        """Without a program the tool says so, with status 1."""
        status, _, stderr = tool("explain", "--program", self.path("none"), os.path.join(THREE, "input"))
        self.assertEqual(status, 1)
        self.assertIn("make apctl", stderr)


class GoodRuns(ToolTest):
    """What is odd in runs that end well."""

    @needs_program
    def test_odd_runs(self):
        """Of each run what is odd in it is said."""
        for lines, says in RUNS:
            found = self.explained(CONFIG, "\n".join(lines) + "\n")
            for words in says:
                self.assertIn(words, found, lines)

    def explained(self, config, trace):
        """What is said of a run."""
        for name, text in (("my.toml", config), ("my.trace", trace)):
            with open(self.path(name), "w", encoding="utf-8") as file:
                file.write(text)
        status, stdout, stderr = tool("explain", self.path("my.toml"), self.path("my.trace"))
        self.assertEqual((status, stderr), (0, ""), trace)
        return stdout

    def test_unread_kinds_are_those_of_the_reports(self):
        """In each example's report as many events are unread as the tool finds reasons for."""
        count = Counter()
        for folder in with_report():
            lines = input_of(folder)[1]
            for section in whole.runs.read_report(read_text(os.path.join(folder, "stdout"))):
                hearing = whole.runs.Hearing(section, None)
                for line in lines:
                    hearing.take(line)
                self.assertEqual(sum(map(len, hearing.unread.values())), section.unread, folder)
                count.update({kind: len(found) for kind, found in hearing.unread.items()})
        self.assertEqual(sorted(count), [f"U{number}" for number in range(1, 9)])

    def test_kinds_of_any_octets(self):
        """A string of octets is a request, or has a reason why it is none."""
        draw = random.Random(7)
        bssid = bytes.fromhex(OURS)
        for _ in range(5000):
            octets = bytearray(bytes.fromhex("".join(draw.choice([*JOIN, PROBE, heard(DATA, UNIT)]).split()[1:])))
            for _ in range(draw.randrange(3)):
                octets[draw.randrange(len(octets))] = draw.randrange(256)
            octets = bytes(octets[:draw.randrange(10, len(octets) + 1)])
            if hears(bssid, octets):
                self.assertEqual(request_of(bssid, octets) is None, unread_kind(bssid, octets) is not None)
        self.assertEqual([wired_unread_kind(BROADCAST * 2 + bytes.fromhex(more)) for more in ("0800", "08", "0026")],
                         [None, "U1", "U7"])


class OddConfigs(ToolTest):
    """What is odd in a configuration that has no fault."""

    def explained(self, config):
        """What is said of a configuration alone."""
        texts = whole.Texts(["check", "my.toml"], Source("my.toml", config.encode()))
        return "\n".join(whole.explain(texts, Answer(0, b"ok 2\n", None)))

    def test_networks_of_one_name(self):
        """The second of two networks with one SSID is shown."""
        found = self.explained(CONFIG.replace('"guest"', '"lab"'))
        for words in ("ok 2\n", "my.toml:20:8", "the networks 0, 1 have one SSID, `lab`", "an SSID of its own"):
            self.assertIn(words, found)
        self.assertEqual(self.explained(CONFIG), "ok 2")

    def test_names_that_end_with_a_blank(self):
        """A blank at an end of a name is a part of it, and nobody sees it."""
        for name, says in (("lab ", "ends with a blank"), ("\u00a0lab", "begins with a blank")):
            found = self.explained(CONFIG.replace('"lab"', f'"{name}"'))
            for words in ("my.toml:8:8", f"the SSID of the network 0 {says}", 'write `ssid = "lab"`'):
                self.assertIn(words, found)

    def test_channel_14(self):
        """It is there in Japan alone."""
        found = self.explained(CONFIG.replace("channel = 6", "channel = 14"))
        for words in ("my.toml:2:11", "in Japan alone", "`channel = 6`"):
            self.assertIn(words, found)

    def test_beacon_intervals_that_no_station_expects(self):
        """Beacons that fill the air, or that come too seldom to be found."""
        for interval, says in (("1", "a beacon each 1.024 ms: beacons fill the air"), ("14", "14.34 ms"),
                               ("5000", "a beacon each 5,120 ms: stations that look")):
            found = self.explained(CONFIG.replace("interval = 100", f"interval = {interval}"))
            for words in ("my.toml:3:12", says, "`interval = 100`"):
                self.assertIn(words, found)
        for interval in ("15", "1000"):
            self.assertEqual(self.explained(CONFIG.replace("interval = 100", f"interval = {interval}")), "ok 2")

    def test_networks_without_a_basic_rate(self):
        """Rates of which none is basic are shown, and what to write."""
        for rates, write in (("02040b16", 'write `rates = "82840b16"`'), ("0c12", 'write `rates = "8c12"`'),
                             ("03", 'write `rates = "83"`')):
            found = self.explained(CONFIG.replace("82840b16", rates, 1))
            for words in ("my.toml:9:9", "no rate of the network 0 is basic", write):
                self.assertIn(words, found)
        self.assertEqual(self.explained(CONFIG).count("basic"), 0)

    @needs_program
    def test_runs_show_it_too(self):
        """Of a run with such a configuration it is said as well."""
        for name, text in (("my.toml", CONFIG.replace('"guest"', '"lab"')), ("my.trace", TRACE)):
            with open(self.path(name), "w", encoding="utf-8") as file:
                file.write(text)
        self.assertIn("have one SSID", tool("explain", self.path("my.toml"), self.path("my.trace"))[1])


class Long(ToolTest):
    """A long trace, which takes its time."""

    def shown(self, lines):
        """What is shown on a terminal of how far the tool is, in a trace of so many lines."""
        config = CONFIG.replace("max_events = 100", "max_events = 1000000")
        for name, text in (("my.toml", config), ("my.trace", "T\n" * lines)):
            with open(self.path(name), "w", encoding="ascii") as file:
                file.write(text)
        ours, theirs = pty.openpty()
        done = subprocess.run([os.path.join(ROOT, "tools", "explain"), self.path("my.toml"), self.path("my.trace")],
                              stdout=subprocess.PIPE, stderr=theirs, text=True, check=True)
        os.close(theirs)
        os.set_blocking(ours, False)
        try:
            shown = os.read(ours, 10_000).decode()
        except OSError:
            shown = ""
        os.close(ours)
        return done.stdout, shown

    @needs_program
    def test_progress_on_a_terminal(self):
        """It tells how far it is, and takes that away in the end; of short texts, and where standard error is no
        terminal, it says nothing."""
        stdout, shown = self.shown(70_000)
        self.assertIn("the program ended well", stdout)
        for words in ("\r\x1b[Kreading the report", "\r\x1b[K20,000 of 70,001 lines looked at", "60,000 of 70,001"):
            self.assertIn(words, shown)
        self.assertTrue(shown.endswith("\r\x1b[K"))
        self.assertEqual(tool("explain", self.path("my.toml"), self.path("my.trace"))[2], "")
        self.assertEqual(self.shown(1_000)[1], "")


# What is put into a text that is changed.
PIECES = (b"\n", b'"', b"=", b"[", b"]", b"#", b"\r", b"\t", b" ", b"0", b"\xff", b"T", b"A ", b"W ", b"---\n",
          b"{", b"}", b"'", b",", b".", b":", b"\\", b"-", b"9")


class Mutations(ToolTest):
    """Texts that are changed at random."""

    @staticmethod
    def mutated(draw, text):
        """A text with up to three changes."""
        text = bytearray(text)
        # half of the texts are changed in the trace alone, half of the others mostly in values
        begin = text.find(b"\n---\n") if draw.randrange(2) else 0
        for _ in range(draw.randrange(1, 4)):
            at = draw.randrange(max(0, begin), len(text) + 1)
            if begin == 0 and draw.randrange(2):
                at = max(at, text.find(b"= ", at) + 2)
            end = min(len(text), at + draw.choice((1, 1, 2, 5, 20)))
            kind = draw.randrange(5)
            if kind == 0:
                del text[at:end]
            elif kind == 1:
                text[at:at] = draw.choice(PIECES)
            elif kind == 2:
                text[at:end] = bytes([draw.randrange(256)])
            elif kind == 3:
                text[at:at] = text[draw.randrange(len(text) + 1):][:draw.choice((3, 20, 200))]
            else:
                lines = text.split(b"\n")
                one, other = draw.randrange(len(lines)), draw.randrange(len(lines))
                lines[one], lines[other] = lines[other], lines[one]
                text = bytearray(b"\n".join(lines))
        return bytes(text)

    @staticmethod
    def seeds():
        """The texts that are changed: those of the examples, and the table's."""
        inputs = [os.path.join(folder, "input") for folder in with_report()]
        texts = [open(path, "rb").read() for path in inputs]
        joined = [octets_of(mistake.config) + b"---\n" + (octets_of(mistake.trace) or TRACE.encode())
                  for mistake in TEXTS]
        return [text for text in texts + joined if len(text) < 5000] + [f"{CONFIG}---\n{TRACE}".encode()] * 40

    @needs_program
    def test_mutated_texts(self):
        """Whatever a text is, the tool says the program's own line and names no other fault; most are explained."""
        draw, seeds, found = random.Random(53), self.seeds(), Counter()
        for number in range(MUTATIONS):
            text = self.mutated(draw, draw.choice(seeds))
            answer = run_program(PROGRAM, [], text)
            texts = whole.texts_of([], text)
            lines = whole.explain(texts, answer)
            if answer.fault is None:
                self.assertEqual((answer.status, lines[0]), (0, "the program ended well"), (number, text))
                found["well"] += 1
                continue
            self.assertEqual(lines[0] + "\n", answer.errors, (number, text))
            findings = whole.findings_of(texts, answer.fault)
            found[answer.fault.code] += 1
            found["without a reason"] += not findings
            for finding in findings:
                for words in (finding.text, finding.advice or ""):
                    named = set(OTHER_FAULT.findall(re.sub("`[^`]*`", "", words))) - {answer.fault.code}
                    self.assertEqual(named, set(), (number, text))
        print(dict(found))
        refused = sum(count for code, count in found.items() if code in TEXT_CODES)
        self.assertGreater(refused, MUTATIONS / 2)
        self.assertGreater(len(found), 18)
        self.assertLess(found["without a reason"], refused / 100)

    def test_scanner_agrees_with_the_library(self):
        """What is TOML for the scanner is TOML for Python's own reader, but for what version 1.1 has more."""
        draw, different = random.Random(54), []
        seeds = [text.split(b"\n---\n")[0] + b"\n" for text in self.seeds()]
        for _ in range(MUTATIONS):
            text = self.mutated(draw, draw.choice(seeds)).decode("utf-8", "replace")
            try:
                scan(text)
                mine = True
            except NoToml:
                mine = False
            try:
                tomllib.loads(text)
                theirs = True
            except tomllib.TOMLDecodeError:
                theirs = False
            if mine != theirs:
                different.append(text)
        self.assertLess(len(different), MUTATIONS / 500, different[:5])


class Examples(ToolTest):
    """The examples that end with a fault."""

    def test_faults_of_the_examples(self):
        """Each example's fault of a text is explained."""
        count = 0
        for name, folder in sorted(CASES.items()):
            stderr, given = os.path.join(folder, "stderr"), os.path.join(folder, "input")
            if not name.startswith("fault_") or not os.path.exists(given) or not os.path.exists(stderr):
                continue
            said = read_text(stderr).removesuffix("\n")
            with open(given, "rb") as file:
                texts = whole.texts_of([], file.read())
            found = whole.explain(texts, Answer(1, b"", read_fault(said), said))
            self.assertEqual(found[0], said)
            self.assertNotIn(whole.NOTHING_FOUND, found, name)
            count += 1
        self.assertGreater(count, 20)
