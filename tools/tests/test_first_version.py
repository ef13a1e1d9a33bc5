"""Tests of what the gate says of the first version of a network: which changes of its definitions are refused."""
import os
import re
import shutil
import subprocess

from common import ROOT, ToolTest, run_to_end

CHECK = os.path.join(".ci", "first-version")
FIRST = "crates/versions/specs/FirstVersion.antt"
# A format that the first version reaches by way of another, and one that it doesn't reach.
HEADER, HEARING = "crates/mac_frame/specs/Header.antt", "crates/mac_frame/specs/Hearing.antt"


class FirstVersion(ToolTest):
    """Its sum is that of its definitions and of those that they reach, whatever stands around them."""

    def setUp(self):
        super().setUp()
        for crate in os.listdir(os.path.join(ROOT, "crates")):
            for part in ("specs", "src"):
                folder = os.path.join("crates", crate, part)
                if os.path.isdir(os.path.join(ROOT, folder)):
                    shutil.copytree(os.path.join(ROOT, folder), self.path(folder))
        os.mkdir(self.path(".ci"))
        shutil.copy(os.path.join(ROOT, CHECK), self.path(CHECK))

    def check(self, *words):
        """Runs the check in the copy: its status and its lines."""
        done = run_to_end([self.path(CHECK), *words])
        return done.returncode, done.stdout.splitlines()

    def turn(self, name, old, new):
        """Turns a text that stands once in a file of the copy."""
        text = self.read(name)
        self.assertEqual(text.count(old), 1, f"{name}: {old}")
        self.write(name, text.replace(old, new))

    def passes(self):
        """The check passes."""
        self.assertEqual(self.check(), (0, ["1 passed, 0 failed"]))

    def is_refused(self, name):
        """The check fails, and its list differs from that of the repository in this definition alone."""
        status, lines = self.check()
        self.assertEqual((status, lines[-1]), (1, "0 passed, 1 failed"))
        self.assertRegex(lines[0], r"^the \d+ definitions of the first version have the sum [0-9a-f]{64}, and not ")
        was = subprocess.run([os.path.join(ROOT, CHECK), "--list"], capture_output=True, text=True, check=True)
        listed = {line for line in was.stdout.splitlines() if re.fullmatch(r"\S+ [0-9a-f]{64}", line)}
        now = {line for line in self.check("--list")[1] if re.fullmatch(r"\S+ [0-9a-f]{64}", line)}
        self.assertEqual({line.split()[0] for line in listed ^ now}, {name})

    def test_as_it_stands(self):
        """The text of this commit passes."""
        self.passes()

    def test_its_own_definitions(self):
        """A status that is another one is found."""
        self.turn(FIRST, "if not (algorithm == 0) then 13", "if not (algorithm == 0) then 14")
        self.is_refused("authentication_status")

    def test_a_format_below(self):
        """So is a format that it reaches by way of another."""
        self.turn(HEADER, "is_too_long x = nat_lt 2304 ", "is_too_long x = nat_lt 2305 ")
        self.is_refused("is_too_long")

    def test_a_type_of_data(self):
        """So is a type of the code that it speaks of, and a comment in that type isn't."""
        self.turn("crates/station_state/src/class.rt", "pub enum Notice {", "pub enum Notice {\n    /// Said here.")
        self.passes()
        self.turn("crates/station_state/src/class.rt", "/// Said here.", "Silence,")
        self.is_refused("Notice")

    def test_what_does_not_count(self):
        """A comment, the layout, the order, a definition more and one that isn't reached may be others."""
        self.turn(FIRST, "-- ---- small changes", "-- ---- changes that are small")
        self.turn(FIRST, "lose n = record n { lost = n.lost + 1 }", "lose n =\n    record n { lost = n.lost + 1 }")
        self.turn(HEADER, "-- Frame Control\n", "abbrev pub nothing : List ℕ\nnothing = []\n\n-- Frame Control\n")
        self.turn(HEARING, "nat_le 10 ", "nat_le 11 ")
        self.passes()

    def test_other_words(self):
        """It says how it is used, and refuses other words."""
        self.assertEqual(self.check("--help")[0], 0)
        self.assertEqual(self.check("--all"), (2, []))
