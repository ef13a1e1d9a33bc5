"""Tests of .ci/documents: each thing that a document can name wrongly is found, in a small repository of its own."""
import os
import re
import shutil
import tomllib
import xml.etree.ElementTree as tree

from common import ROOT, ToolTest, needs_program, run_program, run_to_end, text_of

FILES = {
    "CHANGELOG.md": "# Changes\n\n## 0.3.1\n",
    "README.md": "Version 0.3.1. See [rules](docs/RULES.md#first-part) and `docs/RULES.md`, \"First part\".\n\n"
                 "## What is proved\n\n- All of it: `part::run`, and the law `holds`\n",
    "docs/RULES.md": "# Rules\n\n## First part (*profile*)\n\nNames `crates/part/src/lib.rt` and `crates/NAME/src`.\n",
    "docs/LIBRARY.md": "# Library\n\n```rust\nfn shown() {}\n```\n",
    "docs/PROMISES.md": "# Promises\n\n| Runs | `run` |\n\n| `alone` | `crates/part/specs/Part.antt` | 2 | it |\n\n"
                        "There are 2 wrong bodies of `wrong/`.\n",
    "crates/part/src/lib.rt": "//! A part: `docs/RULES.md`.\nfn run() {}\npub use law::kept as holds;\n",
    "crates/part/specs/Part.antt": "-- what it is\nabbrev pub alone : Unit\n",
    "wrong/other.toml": "[[run_does_nothing]]\n[[run_does_nothing]]\n",
    "wrong/part.toml": "[[run_twice]]\n",
    "tools/lib/told.py": "TOLD = called.document(\"RULES.md\")\nALSO = document('README.md', 'docs')\n",
    "docs/README.md": "# Pages\n",
    "crates/library_examples/src/shown.rt": "use part::run;\n\nfn shown() {}\n",
}
# A text of a file in place of another, and what is found then.
WRONG = [
    ("README.md", "0.3.1", "0.3.0", "doesn't name version 0.3.1"),
    ("README.md", "RULES.md#first-part", "RULE.md", "no file of the link docs/RULE.md"),
    ("README.md", "#first-part", "#second-part", "no heading of the link docs/RULES.md#second-part"),
    ("README.md", '"First part"', '"Last part"', 'no section "Last part" in docs/RULES.md'),
    ("README.md", "part::run", "part::walk", "no function walk"),
    ("docs/PROMISES.md", "| `run` |", "| `walk` |", "no function walk"),
    ("docs/PROMISES.md", "| 2 |", "| 3 |", "has 2 lines, not 3"),
    ("docs/PROMISES.md", "`alone`", "`together`", "has not all of `together`"),
    ("docs/PROMISES.md", "are 2 wrong", "are 3 wrong", "wrong/ has 2 wrong bodies, told is ['3']"),
    ("docs/PROMISES.md", "2 wrong bodies", "some wrong bodies", "wrong/ has 2 wrong bodies, told is []"),
    ("docs/RULES.md", "part/src/lib.rt", "part/src/main.rt", "no crates/part/src/main.rt"),
    ("docs/RULES.md", "crates/NAME/src", "crates/NAME/tests", "no crates/NAME/tests"),
    ("docs/LIBRARY.md", "fn shown() {}", "fn shown() { }", "not in crates/library_examples/src"),
    ("crates/part/src/lib.rt", "docs/RULES.md", "docs/RULE.md", "no docs/RULE.md"),
    ("tools/lib/told.py", "RULES.md", "RULE.md", "no document docs/RULE.md"),
    ("tools/lib/told.py", "'docs'", "'tools'", "no document tools/README.md"),
]

SVG = "{http://www.w3.org/2000/svg}"


class Documents(ToolTest):
    """A small repository, whose documents are right but for one thing."""

    def found(self, *words):
        """The status of the checker, and what it says."""
        os.makedirs(self.path(".ci"), exist_ok=True)
        shutil.copy(os.path.join(ROOT, ".ci", "documents"), self.path(".ci"))
        done = run_to_end([self.path(os.path.join(".ci", "documents")), *words])
        self.assertEqual(done.stderr, "")
        return done.returncode, done.stdout

    def setUp(self):
        super().setUp()
        for name, text in FILES.items():
            self.write(name, text)

    def test_right_documents_pass(self):
        """Where nothing is wrong nothing is found."""
        self.assertEqual(self.found(), (0, "9 passed, 0 failed\n"))

    def test_wrong_documents_are_found(self):
        """Each wrong name is told with its file."""
        for name, right, wrong, says in WRONG:
            self.write(name, FILES[name].replace(right, wrong))
            status, said = self.found()
            self.assertEqual(status, 1, says)
            self.assertIn(f"failed: {name}: ", said)
            self.assertIn(says, said)
            self.assertIn("1 failed\n", said)
            self.write(name, FILES[name])

    def test_definitions_that_moved_are_found_again(self):
        """With --fix the reading names where a definition stands now."""
        os.remove(self.path("crates/part/specs/Part.antt"))
        self.write("crates/other/specs/Other.antt", "-- it moved\n\nabbrev pub alone : Unit\n")
        self.assertEqual(self.found()[0], 1)
        self.assertEqual(self.found("--fix")[0], 0)
        self.assertIn("| `alone` | `crates/other/specs/Other.antt` | 3 | it |", self.read("docs/PROMISES.md"))
        self.assertEqual(self.found()[0], 0)

    def test_wrong_bodies_are_counted_anew(self):
        """With --fix the number of wrong bodies is that of the files."""
        self.write("wrong/part.toml", "[[run_twice]]\n[[run_never]]\n")
        self.assertEqual(self.found()[0], 1)
        self.assertEqual(self.found("--fix")[0], 0)
        self.assertIn("There are 3 wrong bodies of `wrong/`.", self.read("docs/PROMISES.md"))


class Readme(ToolTest):
    """What README.md shows: a configuration, a trace, and what a network answers."""

    def blocks(self):
        """The blocks of its text."""
        return re.findall(r"^```\n(.*?)^```$", text_of("README.md"), re.DOTALL | re.M)

    def shown(self):
        """The configuration, and the trace."""
        return next(block for block in self.blocks() if block.startswith("version")).split("---\n")

    def test_it_is_the_sample(self):
        """The configuration is that of share/networks, of three networks, and guests are kept apart in it."""
        config = tomllib.loads(self.shown()[0])
        self.assertEqual(config, tomllib.loads(text_of("share/networks/phy0.toml")))
        self.assertEqual([(network["ssid"], network["relay"]) for network in config["network"]],
                         [("guests", False), ("office", True), ("devices", False)])

    @needs_program
    def test_program_answers_so(self):
        """The section that is shown is one of the program's report, and the only one with an answer."""
        report = run_program(program_input="---\n".join(self.shown()))
        section = next(block for block in self.blocks() if block.startswith("network "))
        self.assertIn(section, report)
        self.assertEqual(report.count("\nair "), 1)


class Drawn(ToolTest):
    """docs/bridge_frame_way.svg, which is drawn by hand."""

    def test_no_line_crosses_a_box(self):
        """Each line runs straight, outside all boxes, from the edge of one to that of another."""
        root = tree.fromstring(text_of("docs", "bridge_frame_way.svg"))
        boxes = [tuple(float(box.get(name)) for name in ("x", "y", "width", "height"))
                 for box in root.iter(f"{SVG}rect") if box.get("rx")]
        lines = [corners(path.get("d")) for path in root.iter(f"{SVG}path") if path.get("marker-end")]
        self.assertGreater(len(boxes), 20)
        self.assertGreater(len(lines), 18)
        for line in lines:
            for (x, y), (to_x, to_y) in zip(line, line[1:]):
                self.assertTrue(x == to_x or y == to_y, line)
                for left, top, width, height in boxes:
                    is_apart = max(x, to_x) <= left or min(x, to_x) >= left + width or max(y, to_y) <= top or \
                        min(y, to_y) >= top + height
                    self.assertTrue(is_apart, (line, left, top))
            for x, y in (line[0], line[-1]):
                self.assertTrue(any(left - 3 <= x <= left + width + 3 and top - 3 <= y <= top + height + 3
                                    for left, top, width, height in boxes), line)


def corners(path):
    """The corners of a path of straight lines."""
    found = []
    for kind, numbers in re.findall(r"([MHV])([^MHV]*)", path):
        x, y = found[-1] if found else (0.0, 0.0)
        first, *rest = map(float, numbers.split())
        found.append({"M": (first, *rest), "H": (first, y), "V": (x, first)}[kind])
    return found
