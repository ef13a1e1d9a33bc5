"""Tests of tools that show a run: they run the program where its report isn't given, and `-` is standard input."""
import os
import subprocess

from common import ROOT, THREE, TOOLS, ToolTest, input_of, needs_program, run_to_end, text_of, tool

INPUT, REPORT = os.path.join(THREE, "input"), os.path.join(THREE, "stdout")
# Stands for the program: it keeps its words and standard input, and answers a report.
PROGRAM = """#!/bin/sh
printf '%s\\n' "$@" >{folder}/words
if [ $# = 0 ]; then cat >{folder}/given; else cat "$2" "$3" >{folder}/given; fi
cat {report}
"""


class GivenRun(ToolTest):
    """The texts of the example of three networks, in one file and in two."""

    def setUp(self):
        super().setUp()
        self.config, self.trace = input_of(THREE)[0].split("---\n")
        self.write("my.toml", self.config)
        self.write("my.trace", self.trace)
        self.program = self.write("program", PROGRAM.format(folder=self.folder, report=REPORT), mode=0o755)
        self.wanted = tool("picture", INPUT, REPORT)[1]

    def drawn(self, *words, given=""):
        """What is drawn of these words, in the test's folder, with this on standard input."""
        done = run_to_end([os.path.join(TOOLS, "picture"), *words, "--program", self.program], input=given,
                          cwd=self.folder)
        self.assertEqual((done.returncode, done.stderr), (0, ""), words)
        return done.stdout

    def test_the_program_runs_without_a_report(self):
        """It is given the two files by `run`, and a file that is both on its standard input."""
        self.assertEqual(self.drawn("my.toml", "my.trace"), self.wanted)
        self.assertEqual(self.read("words"), "run\nmy.toml\nmy.trace\n")
        self.assertEqual(self.drawn(INPUT), self.wanted)
        self.assertEqual((self.read("words"), self.read("given")), ("\n", text_of(INPUT)))
        os.remove(self.path("words"))
        self.assertEqual(self.drawn("my.toml", "my.trace", REPORT), self.wanted)
        self.assertFalse(os.path.exists(self.path("words")), "a report is there")

    def test_standard_input_is_any_text(self):
        """`-` in each place, also of a text that the program reads."""
        report = text_of(REPORT)
        for words, given in ((["my.toml", "-"], self.trace), (["-", "my.trace"], self.config),
                             (["-"], text_of(INPUT)), (["-", REPORT], text_of(INPUT)), ([INPUT, "-"], report),
                             (["my.toml", "my.trace", "-"], report), (["my.toml", "-", REPORT], self.trace)):
            self.assertEqual(self.drawn(*words, given=given), self.wanted, words)
        self.drawn("my.toml", "-", given=self.trace)
        self.assertEqual(self.read("given"), self.config + self.trace)
        self.refused("picture", "-", "-", says="- stands twice")
        self.refused("picture", self.path("my.toml"), "-", "-", says="- stands twice")

    def test_a_refused_run_leads_to_explain(self):
        """The fault of the program stands there, and who explains it; a program that can't be run is named."""
        program = self.write("refuses", "#!/bin/sh\necho fault L2 line 3 >&2\nexit 1\n", mode=0o755)
        files = [self.path("my.toml"), self.path("my.trace")]
        for name, more in (("picture", ()), ("capture-from-run", ("--out", self.path("made")))):
            self.refused(name, *files, "--program", program, *more,
                         says=f"fault L2 line 3 (`tools/explain {' '.join(files)}` says why)")
            self.refused(name, *files, "--program", self.path("none"), *more, says="none can't be run")
        self.assertFalse(os.path.exists(self.path("made")))

    def test_captures_are_those_of_the_report(self):
        """tools/capture-from-run makes the same of the two texts as of one with its report."""
        for folder, *words in (("one", INPUT, REPORT), ("two", self.path("my.toml"), self.path("my.trace"))):
            status, _, stderr = tool("capture-from-run", *words, "--program", self.program, "--out", self.path(folder))
            self.assertEqual((status, stderr), (0, ""))
        for name in os.listdir(self.path("one")):
            self.assertEqual(self.octets("two", name), self.octets("one", name))

    def octets(self, *names):
        """The octets of a file of the test's folder."""
        with open(self.path(*names), "rb") as file:
            return file.read()

    def test_captures_come_on_standard_input(self):
        """tools/trace-from-capture reads a capture of `-`, and says what is wrong with one."""
        air = os.path.join(THREE, "air.pcapng")
        wanted = tool("trace-from-capture", air)
        with open(air, "rb") as file:
            done = subprocess.run([os.path.join(TOOLS, "trace-from-capture"), "-"], stdin=file, capture_output=True,
                                  text=True, check=True)
        self.assertEqual(done.stdout, wanted[1])
        self.assertEqual(done.stderr, wanted[2].replace("air.pcapng:", "standard input:"))
        self.assertEqual(tool("trace-from-capture", "-", program_input="none")[2],
                         "trace-from-capture: standard input: it is no pcap or pcapng file\n")
        self.assertEqual(tool("trace-from-capture", "-", "--networks-of", "-")[0], 2)
        self.assertEqual(tool("trace-from-capture", air, "--networks-of", "-", program_input=self.config),
                         tool("trace-from-capture", air, "--networks-of", self.path("my.toml")))

    def test_a_configuration_of_an_access_point_is_a_file(self):
        """tools/live reads it again, and says so of `-`."""
        for words in (["-", "--phy", "phy0"], ["check-networks", "-"]):
            status, stdout, stderr = tool("live", *words)
            self.assertEqual((status, stdout), (2, ""))
            self.assertIn("name a file, and not - for standard input", stderr)

    @needs_program
    def test_the_built_program_runs(self):
        """The same with the program itself."""
        for words, given in (([INPUT], ""), (["my.toml", "my.trace"], ""), (["my.toml", "-"], self.trace)):
            done = run_to_end([os.path.join(ROOT, "tools", "picture"), *words], input=given, cwd=self.folder)
            self.assertEqual((done.returncode, done.stdout, done.stderr), (0, self.wanted, ""), words)
