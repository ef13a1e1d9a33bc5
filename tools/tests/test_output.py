"""Tests of tools whose standard output is full, is closed, or isn't read to its end: each says so in one line, or ends
without a word where its reader has ended."""
import os

from common import THREE, TOOLS, ToolTest, run_to_end

INPUT, REPORT, AIR = (os.path.join(THREE, name) for name in ("input", "stdout", "air.pcapng"))
CALLS = {"report-to-json": [REPORT], "picture": [INPUT, REPORT], "trace-from-capture": [AIR],
         "explain": ["--program", "/bin/true", INPUT], "frame": ["c0000000", "020000000001"],
         "capture-from-report": [REPORT, "--out", "made"],
         "capture-from-run": [INPUT, REPORT, "--out", "made"]}
FULL, CLOSED = 'exec "$@" >/dev/full', 'exec "$@" >&-'
# The reader has ended before the tool begins.
UNREAD = 'exec 4> >(:); wait $!; exec "$@" >&4'


class Output(ToolTest):
    """Every tool that writes on standard output."""

    def run_to(self, where, name):
        """The status of a tool whose standard output the shell gives away, and the last line of what it says."""
        done = run_to_end(["bash", "-c", where, "bash", os.path.join(TOOLS, name), *CALLS[name]], cwd=self.folder)
        self.assertNotIn("Traceback", done.stderr)
        return done.returncode, (done.stderr.splitlines() or [""])[-1]

    def test_output_that_takes_nothing(self):
        """The last line names the tool, standard output and the reason, and the status is 1."""
        for name in CALLS:
            self.assertEqual(self.run_to(FULL, name), (1, f"{name}: standard output: No space left on device"))
            self.assertEqual(self.run_to(CLOSED, name), (1, f"{name}: standard output: it is closed"))

    def test_reader_that_has_ended(self):
        """Nothing is said of it, and the status is 1."""
        for name in CALLS:
            status, last = self.run_to(UNREAD, name)
            self.assertEqual(status, 1, name)
            self.assertNotIn("output", last)
            self.assertNotIn("pipe", last)
