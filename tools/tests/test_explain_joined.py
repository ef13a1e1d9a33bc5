"""Tests of what tools/explain says of a run that ended well though a line holds two frames, or a VLAN's tag."""
import unittest

from common import PROGRAM, ToolTest, needs_program, tool
from explaining.lines_in_one import cuts
from mistakes import CONFIG
from texts import Line

PROBE = "4000 0000 ffffffffffff 02aa00000001 ffffffffffff 0000 0000 010402040b16"
AUTHENTICATION = "b000 0000 020000000001 02aa00000001 020000000001 0000 0000 0100 0000"
ASSOCIATION = "0000 0000 020000000001 02aa00000001 020000000001 0000 0100 0a00 00036c6162 010402040b16"
BSSID = bytes.fromhex("020000000001")


def within(octets):
    """Where further frames begin in a line `A` of these octets, in digits."""
    return cuts(Line(1, "A", None, octets), [BSSID])


class Joined(ToolTest):
    """Two frames in one line."""

    @needs_program
    def test_the_second_frame_is_named_with_its_place(self):
        """Before what comes of it."""
        text = f"{CONFIG}---\nA {PROBE}\nA {AUTHENTICATION}{ASSOCIATION}\nT\nA {PROBE}{AUTHENTICATION}\n"
        status, said, _ = tool("explain", "--program", PROGRAM, program_input=text)
        self.assertEqual(status, 0, said)
        self.assertRegex(said, r"(?m)^standard input:\d+:\d+: two frames of one sender stand in this line, and the "
                               r"second is read as a part of the first; so in 1 more lines$")
        self.assertIn("  write `A 00000000020000000001", said)

    def explained(self, *lines):
        """What is said of a trace with these lines."""
        text = "\n".join([f"{CONFIG}---", *lines, ""])
        status, said, _ = tool("explain", "--program", PROGRAM, program_input=text)
        self.assertEqual(status, 0, said)
        return said

    @needs_program
    def test_lines_whose_words_are_read_as_digits_are_told_apart(self):
        """Two words make an octet, so that no fault is told."""
        null = "4811 0000 020000000001 02aa00000001 020000000001 0000"
        stranger = AUTHENTICATION.replace("02aa00000001", "02aa00000002")
        for first in (f"A {AUTHENTICATION} A {ASSOCIATION} A {null}", f"A {AUTHENTICATION}A{ASSOCIATION}A{null}",
                      f"W 02:00:00:00:00:01 02aa00000001 02bb00000001 0800 01 A {ASSOCIATION} A {null}"):
            said = self.explained(first, "T")
            self.assertRegex(said, r"(?m)^standard input:\d+:\d+: three lines stand in this one, and all is read as "
                                   r"one frame")
            self.assertIn(f"  write `A {ASSOCIATION.replace(' ', '')}`, `A {null.replace(' ', '')}` in lines of their "
                          "own", said)
        said = self.explained(f"A {AUTHENTICATION} A {stranger} A {PROBE}", "T")
        self.assertIn(f"write `A {stranger.replace(' ', '')}`, `A {PROBE.replace(' ', '')}` in lines", said)
        said = self.explained(f"A {AUTHENTICATION} A {null} A {null} A {null} A {PROBE}", "T")
        self.assertIn("five lines stand in this one", said)
        self.assertEqual(said.count(f"`A {null.replace(' ', '')}`"), 3)

    @needs_program
    def test_a_tag_on_a_wire_is_named(self):
        text = f"{CONFIG}---\nW 02:00:00:00:00:01 ffffffffffff 02bb00000001 8100 0007 0800 01\nT\n"
        status, said, _ = tool("explain", "--program", PROGRAM, program_input=text)
        self.assertEqual(status, 0, said)
        self.assertIn("the tag of a VLAN (`8100`) stands where the type of a frame on a wire does", said)
        self.assertIn("leave `8100` and the two octets behind it out", said)

    def test_an_option_behind_the_files_is_named(self):
        """It would be a word of the program, which has no such word."""
        for words in (["x.input", "--program", "x"], ["run", "x.toml", "--lines"], ["x.input", "--said=fault C1"]):
            status, _, told = tool("explain", *words)
            self.assertEqual(status, 2)
            self.assertRegex(told, r"--(program|lines|said=fault C1) stands before the files, and before the "
                                   r"program's words")

    def test_only_another_frame_is_one(self):
        """A frame alone has none, nor has one that carries frames of others or its own sender's address."""
        frames = [bytes.fromhex(text.replace(" ", "")) for text in (PROBE, AUTHENTICATION, ASSOCIATION)]
        for one in frames:
            self.assertEqual(within(one), [])
            for other in frames:
                self.assertEqual(within(one + other), [2 * len(one)])
            stranger = frames[1].replace(bytes.fromhex("02aa00000001"), bytes.fromhex("02aa00000002"))
            self.assertEqual(within(one + stranger), [])
            elsewhere = frames[1].replace(BSSID, bytes.fromhex("020000000009"))
            self.assertEqual(within(one + elsewhere), [])

    def test_frames_on_a_wire_that_hold_frames_of_the_air_are_those_of_one_line(self):
        """A tunnel carries frames from octet to octet, and none with a word before it."""
        header = bytes.fromhex("02aa0000000102bb000000010800")
        frame = bytes.fromhex(AUTHENTICATION.replace(" ", ""))
        self.assertEqual(cuts(Line(1, "W", BSSID, header + frame + frame), [BSSID]), [])
        self.assertEqual(cuts(Line(1, "W", BSSID, b""), [BSSID]), [])


if __name__ == "__main__":
    unittest.main()
