"""Tests of the Makefile: a word that is no target is refused before anything is begun."""
import os
import shutil

from common import ROOT, ToolTest, run_to_end

TRY = "#!/bin/sh\necho tried; cat\n"


class Words(ToolTest):
    """The Makefile in a folder of its own, where `.ci/try` says that it was begun."""

    def setUp(self):
        super().setUp()
        shutil.copy(os.path.join(ROOT, "Makefile"), self.folder)
        for name, text in ((".ci/try", TRY), ("my.toml", "version = 2\n"), ("my.input", "my lines\n")):
            self.write(name, text, 0o755)

    def made(self, *words):
        """The status of make, and what it says, as by hand: a make that runs this test hands on how it was called."""
        by_hand = {name: value for name, value in os.environ.items() if name not in ("MAKELEVEL", "MAKEFLAGS", "MFLAGS")}
        done = run_to_end(["make", *words], cwd=self.folder, env=by_hand)
        return done.returncode, done.stdout, done.stderr

    def test_files_are_no_targets(self):
        """A file's name, of one that is there or isn't, ends make at once, and its message has the right words."""
        for words in (["try", "my.toml"], ["my.toml"], ["my.toml", "try"], ["try", "none.toml"], ["trial"]):
            status, stdout, stderr = self.made(*words)
            self.assertEqual((status, stdout), (2, ""), words)
            self.assertIn(f"there is no target {next(word for word in words if word != 'try')}, and nothing was begun",
                          stderr)
            self.assertIn("`make try INPUT=my.input` and `make try-check CONFIG=my.toml`", stderr)

    def test_targets_are_made(self):
        """What is a target is made, with a file that is named as a variable."""
        self.assertEqual(self.made("try", "INPUT=my.input")[:2], (0, "tried\nmy lines\n"))
        status, stdout, _ = self.made("help")
        self.assertEqual(status, 0)
        self.assertEqual(self.made()[1], stdout)
        for target in ("run", "try", "try-check", "test-tools", "install"):
            self.assertIn(f"  {target} ", stdout)
