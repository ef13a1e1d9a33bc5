"""Tests of docs/CALLS.md: it has each public call of the crates, and no other."""
import re
import unittest

from common import module_of, text_of

calls = module_of("dev", "calls")
ROW = re.compile(r"^- `([\w:]+)\(", re.M)


class Calls(unittest.TestCase):
    """The page."""

    def test_each_call_has_a_line(self):
        """By name, in each crate; `tools/dev/calls` writes the page anew."""
        there = text_of("docs", "CALLS.md")
        self.assertGreater(len(ROW.findall(there)), 300)
        for now, then in zip(calls.page().split("\n## "), there.split("\n## "), strict=True):
            self.assertEqual(ROW.findall(now), ROW.findall(then), "run tools/dev/calls")

    def test_calls_that_programs_make_are_there(self):
        names = ROW.findall(calls.page())
        for name in ("decode", "read", "Elements::first", "run", "read_config", "Replay::take", "LiveIn::feed"):
            self.assertIn(name, names)

    def test_laws_are_left_out(self):
        """They compute nothing; a method isn't one, whatever it takes."""
        names = ROW.findall(calls.page())
        self.assertFalse({"two_worlds", "reachable", "cut_anywhere"} & set(names))
        self.assertIn("MacAddr::octets", names)

    def test_only_the_first_sentence_is_told(self):
        self.assertEqual(calls.sentence("/// What [`decode`] reads (9.2.4.3). It takes\n/// no memory.\n"),
                         "What `decode` reads")

    def test_clauses_of_standards_stand_in_the_source_alone(self):
        for text, said in (("The address (IEEE Std 802.11-2016, 9.2.4.3), and the rest (*profile*)",
                            "The address, and the rest"), ("A call (see `play`)", "A call"),
                           ("Is full (9.4.2.3; which counts is *profile*)", "Is full"),
                           ("Two of them (the second is `None`)", "Two of them (the second is `None`)")):
            self.assertEqual(calls.sentence(f"/// {text}.\n"), said)

    def test_a_long_sentence_ends_where_it_is_whole(self):
        """At a colon or a semicolon outside of brackets, and without a clause at its end; a short one stays whole."""
        many = " ".join(["word"] * calls.MOST_WORDS)
        for text, said in (("A short one: it stays; all of it", "A short one: it stays; all of it"),
                           (f"It ends: {many}", "It ends"), (f"It ends: here; {many}", "It ends: here"),
                           (f"It (so: {many}) ends; here", f"It (so: {many}) ends"),
                           (f"It ends, of which {many}", "It ends"), (many + " more", many + " more")):
            self.assertEqual(calls.sentence(f"/// {text}.\n"), said)

    def test_lines_are_read_at_once(self):
        """No line has more than 40 words, and few have more than a line should have."""
        rows = re.sub(r"\n  ", " ", calls.page()).splitlines()
        said = [row.partition("`: ")[2] for row in rows if row.startswith("- `")]
        self.assertGreater(len(said), 300)
        self.assertEqual([row for row in said if len(row.split()) > 40], [])
        self.assertLess(sum(len(row.split()) > calls.MOST_WORDS for row in said), len(said) / 15)
