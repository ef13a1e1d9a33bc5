"""Tests of where tools/explain sets its mark: under the word or sign that is wrong, not under the whole line."""
import os
import tempfile
import unittest

from explaining import whole
from explaining.answers import read_fault
from mistakes import CONFIG, PROBE

LAB, STATION, HOST = "02:00:00:00:00:01", "02aa00000001", "02bb00000001"
# A line that stands for `channel = 6` of a configuration, and what of it is marked.
CONFIG_LINES = [
    ("channel 6", " "), ("channel: 6", ":"), ("channel := 6", ":="), ("channel -> 6", "->"), ("channel,6", ","),
    ("export channel=6", "export"), ("set channel 6", "set"), ("int channel = 6;", "int"),
    ("channel: int = 6", ": int"), ("option beacon_int 100", "option"), ("--channel 6", "--"), ("-channel 6", "-"),
    ("max stations = 8", "max stations"), ("// the channel\nchannel = 6", "//"), ("rem a channel\nchannel = 6", "rem"),
    ("<!-- a channel\nchannel = 6", "<!--"), ("include x.toml\nchannel = 6", "include"), ("channel =3D 6", "=3D"),
    ("ch\u0430nnel = 6", "\u0430"), ("\u201cchannel\u201d = 6", "\u201c"), ("channel = 6 // six", "// six"),
    ("channel = 6;", ";"), ("channel = 6 ; six", "; six"), ("channel = 6 !", "!"),
    ("channel = 6<br>", "<br>"), ("channel = \u22126", "\u2212"),
]
# The first line of a trace, the program's line, and what is marked.
TRACE_LINES = [
    (f"A{PROBE[2:]}", "fault L1 line 1", "A"), (f"a{PROBE[2:]}", "fault L1 line 1", "a"),
    (f"W={LAB} {STATION} {HOST} 0800", "fault L1 line 1", "="), (f"A: {PROBE[2:]}", "fault L1 line 1", "A:"),
    (PROBE.replace(" ", "/"), "fault L1 line 1", "/"), (PROBE.replace(" ", "_"), "fault L1 line 1", "_"),
    (PROBE.replace(" ", ","), "fault L1 line 1", ","), (PROBE.replace(" ", "&nbsp;"), "fault L1 line 1", "&nbsp;"),
    (f"{PROBE}<br>", "fault L2 line 1", "<br>"), (f"{PROBE[:40]}=\n{PROBE[40:]}", "fault L2 line 1", "="),
    (PROBE[2:], "fault L1 line 1", "40000000"), ("T 5", "fault L1 line 1", "5"), ("T*5", "fault L1 line 1", "*5"),
    (f"W {LAB}{STATION}{HOST}0800", "fault L3 line 1", "1"), ("include x.trace", "fault L1 line 1", "include"),
    (f"# a probe\n{PROBE[2:]}", "fault L1 line 2", "40000000"),
]


class Marks(unittest.TestCase):
    """The characters that a finding's place has."""

    def marked(self, words, given, said):
        """What is marked of a text on standard input."""
        found = whole.findings_of(whole.texts_of(words, given.encode()), read_fault(said))
        self.assertEqual(len(found), 1, given)
        place = found[0].place
        return place.source.line(place.line)[place.column - 1:place.column - 1 + place.length]

    def test_a_line_of_a_configuration(self):
        for line, mark in CONFIG_LINES:
            text = CONFIG.replace("channel = 6", line, 1)
            self.assertEqual(self.marked([], text, "fault C1"), mark, line)

    def test_a_line_of_a_trace(self):
        for line, said, mark in TRACE_LINES:
            self.assertEqual(self.marked([], f"{CONFIG}---\n{line}\nT\n", said), mark, line)

    def test_a_line_to_write_can_be_copied(self):
        """It stands there in full, however a frame was written."""
        octets = bytes.fromhex(PROBE[2:].replace(" ", "")) + bytes(range(100))
        dump = "".join(f"{at:04x}  {octets[at:at + 16].hex(' ')}\n" for at in range(0, len(octets), 16))
        for text, said in ((f"A {octets!r}\n", "fault L2 line 1"), (dump, "fault L1 line 1"),
                           (f"A{octets.hex()}\n", "fault L1 line 1"), (f"A {octets.hex(':')}\n", "fault L2 line 1"),
                           (f"{octets.hex()}\n", "fault L1 line 1"), (f"A,{octets.hex()},x\n", "fault L1 line 1")):
            found = whole.findings_of(whole.texts_of([], f"{CONFIG}---\n{text}".encode()), read_fault(said))
            self.assertIn(f"A {octets.hex()}`", found[0].advice, text)

    def test_dumps_below_their_words(self):
        """The word alone in the line before is one of the lines that are written anew, and more dumps are counted."""
        octets = bytes.fromhex(PROBE[2:].replace(" ", ""))
        dump = "".join(f"{at:04x}  {octets[at:at + 16].hex(' ')}\n" for at in range(0, len(octets), 16))
        for text, says in ((f"T\nA\n{dump}A\n{dump}", "` for the lines 31 to 33; so in 1 more frame behind it"),
                           (f"T\n{dump}{dump}{dump}", "` for the lines 31 to 32; so in 2 more frames behind it"),
                           (f"T\nT\n{dump}", "` for the lines 32 to 33; tools/trace-from-capture")):
            number = text.split("\n").index(dump.split("\n")[0]) + 1
            found = whole.findings_of(whole.texts_of([], f"{CONFIG}---\n{text}".encode()),
                                      read_fault(f"fault L1 line {number}"))
            self.assertIn(says, found[0].advice, text)

    def test_a_trace_below_a_configuration_names_no_other_command(self):
        """Whoever ran `run` or `play` isn't told of `check`."""
        for rest in (f"{PROBE}\nT\n", "relay = trueA 4000"):
            with tempfile.TemporaryDirectory() as folder:
                for name, text in (("my.toml", CONFIG + rest), ("my.trace", "T\n")):
                    with open(os.path.join(folder, name), "w", encoding="utf-8") as file:
                        file.write(text)
                for command in ("run", "play", "check", "live"):
                    words = [command, os.path.join(folder, "my.toml"), os.path.join(folder, "my.trace")]
                    found = whole.findings_of(whole.texts_of(words, b""), read_fault("fault C1"))
                    self.assertIn("a file of its own", f"{found[0].text} {found[0].advice}")
                    self.assertNotIn("`check`", f"{found[0].text} {found[0].advice}")


if __name__ == "__main__":
    unittest.main()
