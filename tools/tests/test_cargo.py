"""Tests of tools/lib/cargo.sh, by which the bridge and the air of the guest are built of Debian's crates."""
import glob
import os
import shutil
import unittest

from common import TOOLS, ToolTest, run_to_end
from texts import read_text

# How cargo finds Debian's crates, a crate that needs one of them, and a version of that which Debian has no more.
CONFIG = os.path.join(TOOLS, "bridge", ".cargo")
MANIFEST = """[package]
name = "any"
version = "0.1.0"
edition = "2021"

[dependencies]
libc = "0.2"
"""
CHOSEN = """version = 3

[[package]]
name = "any"
version = "0.1.0"
dependencies = ["libc"]

[[package]]
name = "libc"
version = "0.2.1"
source = "registry+https://github.com/rust-lang/crates.io-index"
"""
needs_crate = unittest.skipUnless(os.path.exists("/usr/bin/cargo") and glob.glob("/usr/share/cargo/registry/libc-*"),
                                  "cargo or librust-libc-dev isn't there (.ci/packages installs them)")


class Cargo(ToolTest):
    """Which versions cargo takes."""

    @needs_crate
    def test_crates_of_another_debian(self):
        """Versions that cargo chose once and that are gone, as after an upgrade of Debian, are chosen anew. Those that
        are there stay chosen."""
        crate = self.path("any")
        shutil.copytree(CONFIG, os.path.join(crate, ".cargo"))
        lock = os.path.join(crate, "Cargo.lock")
        for path, text in ((os.path.join(crate, "Cargo.toml"), MANIFEST), (lock, CHOSEN),
                           (os.path.join(crate, "src", "main.rs"), "fn main() {}\n")):
            self.write(path, text)
        self.begin(crate)
        self.assertNotIn('"0.2.1"', read_text(lock))
        before = os.stat(lock)
        self.begin(crate)
        self.assertEqual((os.stat(lock).st_ino, os.stat(lock).st_mtime_ns), (before.st_ino, before.st_mtime_ns))

    def begin(self, crate):
        """Lets cargo choose, as a build does first."""
        script = f'. {TOOLS}/lib/cargo.sh; use_debians_cargo "$1" "$2"; cargo metadata --format-version 1 --offline'
        done = run_to_end(["bash", "-c", script, "bash", crate, self.path("target")])
        self.assertEqual(done.returncode, 0, done.stderr)
