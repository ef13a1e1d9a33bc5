"""Tests of how tools read a configuration's TOML: as the program does."""
import os
import tomllib
import unittest

from common import CASES, ToolTest, needs_program, run_program, tool

import toml_text
from texts import read_text

HEAD = "version = 1\nchannel = 6\ninterval = 100\nqueue = 16\n"
VALUES = ('bssid = "02:00:00:00:00:01", ssid = {ssid}, rates = "82840B16", dtim = 1,{end}max_stations = 8, '
          "max_known = 16, quota = 8, max_events = 1000{comma}")
LAB = {"bssid": "02:00:00:00:00:01", "ssid": "lab", "rates": "82840B16", "dtim": 1, "max_stations": 8, "max_known": 16,
       "quota": 8, "max_events": 1000}


def array(ssid='"lab"', end=" ", comma=""):
    """The networks as an array of one inline table."""
    return f"{HEAD}network = [\n  {{ {VALUES.format(ssid=ssid, end=end, comma=comma)} }},\n]\n"


class TomlText(ToolTest):
    """What version 1.1 has besides 1.0."""

    TEXTS = (array(), array(end="\n    "), array(end=" # }, that is\n"), array(comma=","),
             array(comma=", # the last\n"), array(r'"\x6cab"'), array(r'"\x6c\x61\x62"', end="\n"),
             array("'lab'", end="\r\n"), f"\ufeff{array()}")

    def test_each_is_read(self):
        """With the same values."""
        for text in self.TEXTS:
            with self.subTest(text=text):
                self.assertEqual(toml_text.loads(text)["network"], [LAB])

    @needs_program
    def test_program_takes_them_too(self):
        """Each is one that the program reads, and tools/frame reads it."""
        path = os.path.join(self.folder, "radio.toml")
        for text in self.TEXTS:
            with self.subTest(text=text):
                with open(path, "w", encoding="utf-8", newline="") as file:
                    file.write(text)
                self.assertEqual(run_program("check", path), "ok 1\n")
                status, line, said = tool("frame", "--config", path, "auth", "02:aa:00:00:00:01", "lab")
                self.assertEqual((status, line[:6], said), (0, "A b000", ""))

    def test_scanner_and_library_agree(self):
        """Of a text that both read."""
        tables = ("a.b = 1\n'c d' = [1, {e = 2, f.g = true}]\n[h]\ni.j = 0x0f\n"
                  "[[k.l]]\nm = 'x'\n[[k.l]]\nm = 1_0\n[k.n]\n")
        inputs = [os.path.join(folder, "input") for folder in CASES.values()]
        configs = [read_text(file).partition("---\n")[0] for file in inputs if os.path.exists(file)]
        count = 0
        for text in (tables, "", "a = []\n", array(), *configs):
            try:
                wanted = tomllib.loads(text)
            except tomllib.TOMLDecodeError:
                continue
            count += 1
            with self.subTest(text=text):
                self.assertEqual(toml_text.scanned(text), wanted)
        self.assertGreater(count, 50)

    def test_a_value_is_no_table(self):
        """Where a table is put under a value, the library's fault is told."""
        for text in ("a = 1\n[a.b]\n", "a = [1]\n[a.b]\n", "a = 1\na.b = 2\n", "a = [1]\n[[a]]\n"):
            with self.subTest(text=text), self.assertRaises(tomllib.TOMLDecodeError):
                toml_text.loads(text)

    def test_strings_stay_as_they_are(self):
        """Nothing within a string is taken for a bracket, a comment or an escape that it isn't."""
        for ssid, value in ((r'"\\x6c"', r"\x6c"), ('"a # } {"', "a # } {"), ("'''\\x6c, }'''", "\\x6c, }"),
                            ('"""a\n# b"""', "a\n# b"), (r'"\e"', "\x1b"), (r'"\""', '"'), ("'\"'", '"')):
            with self.subTest(ssid=ssid):
                self.assertEqual(toml_text.loads(array(ssid, end="\n"))["network"][0]["ssid"], value)

    def test_what_is_no_toml_is_told_by_its_own_place(self):
        """Also where the text has notations of version 1.1 before."""
        for text in (f"{array()}channel\n", array('"lab', end="\n"), array('"\\q"'), "network = [{\n", "}\n"):
            with self.subTest(text=text), self.assertRaises(tomllib.TOMLDecodeError) as wrong:
                toml_text.loads(text)
            with self.assertRaises(tomllib.TOMLDecodeError) as plain:
                tomllib.loads(text)
            self.assertEqual(str(wrong.exception), str(plain.exception))


if __name__ == "__main__":
    unittest.main()
