"""Tests of what is built for another machine: .ci/build, .ci/library and .ci/origin with ARCH, in a small repository
whose toolchain is scripts that prove nothing; and of the header in C of a proved library."""
import hashlib
import importlib.machinery
import importlib.util
import os
import shutil
import subprocess
import sys
import unittest
from unittest import mock

from common import ROOT, ToolTest, run_to_end
from small import SmallRepository
from texts import read_text

sys.path.insert(0, os.path.join(ROOT, ".ci"))
import machines  # noqa: E402

HAS_CROSS = os.uname().machine == "x86_64" and len(machines.cross_folders()) == len(machines.CROSS)
CALLS = '#!/bin/sh\nmkdir -p "build/$ARCH"\necho calls >"build/$ARCH/libc_calls.a"\n'
LIBRARY = '''//! Numbers.

/// A pair of numbers.
#[repr(C)]
#[derive(Clone, Copy)]
pub struct Pair {
    /// The first.
    pub first: u8,
    pub second: usize,
}

/// Adds to [`Pair::second`].
#[unsafe(no_mangle)]
pub extern "C" fn pair_add(
    alloc: Global,
    pair: &mut Pair,
    more: &[usize],
) -> bool
    requires small { pair.old.second < 9 }
{
    true
}
'''
HEADER = """/* A pair of numbers. */
struct Pair {
    /* The first. */
    uint8_t first;
    size_t second;
};

/* Adds to `Pair::second`.
 * requires pair.old.second < 9 */
bool pair_add(struct Pair *pair, const size_t *more, size_t more_len);
"""


class OtherMachine(SmallRepository):
    """What .ci/build builds for another machine."""

    def setUp(self):
        super().setUp()
        for name in ("clang", "ld.lld", "llvm-ar"):
            self.write(f"toolchain/bin/{name}", "#!/bin/sh\n", 0o755)
        self.write("tools/c_calls/build", CALLS, 0o755)
        self.arch = "arm64"

    def environment(self):
        """With the machine for which is built."""
        return {**super().environment(), "ARCH": self.arch}

    def test_a_machine_that_is_not_there_is_refused(self):
        """Nothing is begun, and the message has what there is."""
        for self.arch in ("i386", "aarch64", "x86_64-unknown-linux-gnu"):
            for script in (".ci/build", ".ci/library", ".ci/origin"):
                words = ["check"] if script == ".ci/origin" else []
                status, said = self.run_there(script, *words)
                self.assertEqual(status, 2, said)
                self.assertIn(f"there is no ARCH {self.arch}; there are amd64, arm64, and nothing was begun", said)
        self.assertFalse(os.path.exists(self.path_of("build")))

    @unittest.skipUnless(HAS_CROSS, "Debian's packages for arm64 aren't installed")
    def test_each_machine_has_a_program_of_its_own(self):
        """The libraries are proved once, the program for each; neither build touches what the other left."""
        self.build()
        self.assertEqual(self.proved(), ["low", "apctl"])
        self.assertIn(" --target aarch64-unknown-linux-gnu ", read_text(os.path.join(self.states, "words")))
        self.assertEqual(read_text(self.path_of("build/arm64/apctl")), "#!/bin/bash\necho first\n")
        self.assertIsNone(self.built())
        self.assertEqual(self.run_there(".ci/origin", "check"), (0, ""))
        self.arch = ""
        self.assertEqual(self.run_there(".ci/origin", "check")[0], 1)
        self.write("crates/apctl/src/main.rt", "#!/bin/bash\necho second\n")
        self.build()
        self.assertEqual((self.proved(), self.built()), (["apctl"], "second"))
        self.assertNotIn("--target", read_text(os.path.join(self.states, "words")))
        self.arch = "arm64"
        status, said = self.run_there(".ci/origin", "check")
        self.assertEqual(status, 1)
        self.assertIn("build/arm64/apctl is an earlier program", said)
        self.build()
        self.build()
        self.assertEqual(self.proved(), ["apctl"])

    @unittest.skipUnless(HAS_CROSS, "Debian's packages for arm64 aren't installed")
    def test_the_verdict_is_told(self):
        """That of the program for that machine."""
        status, said = self.run_there(".ci/build")
        self.assertEqual(status, 0)
        self.assertIn("apctl: proved and built for arm64, by a verdict of its own: logic=proved functions=1\n", said)

    @unittest.skipUnless(HAS_CROSS, "Debian's packages for arm64 aren't installed")
    def test_other_calls_build_the_program_anew(self):
        """The calls of C belong to what the program is built of."""
        self.build()
        self.proved()
        self.write("tools/c_calls/build", CALLS.replace("echo calls", "echo other calls"), 0o755)
        self.build()
        self.assertEqual(self.proved(), ["apctl"])


class Libraries(SmallRepository):
    """Static libraries that a package has, for those without the toolchain."""

    def setUp(self):
        super().setUp()
        self.write("crates.txt", "low:\napctl: low\nother staticlib: low\n")
        self.write("c/liblibc_c.a", "memory\n")
        self.library = self.path_of("crates/other/out/libother.a")

    def taken(self, installed):
        """Whether a library of these sources is taken from a folder, and what is said."""
        loader = importlib.machinery.SourceFileLoader("library", os.path.join(ROOT, ".ci", "library"))
        spec = importlib.util.spec_from_loader("library", loader)
        library = importlib.util.module_from_spec(spec)
        spec.loader.exec_module(library)
        with mock.patch.object(library.machines, "installed_libraries", lambda machine: installed), \
                mock.patch.object(library.proving, "ROOT", self.top), \
                mock.patch.object(library.proving, "say", print):
            return library.take("other", machines.AMD64)

    def packed(self):
        """A folder as the package has it, of what the toolchain builds of these sources."""
        status, said = self.run_there(".ci/library", "other")
        self.assertEqual(status, 0, said)
        installed = self.path("installed")
        shutil.move(os.path.dirname(self.library), installed)
        return installed

    def test_one_of_these_sources_is_taken(self):
        """With what is told of it, and the way to the memory beside it."""
        self.assertTrue(self.taken(self.packed()))
        folder = os.path.dirname(self.library)
        self.assertEqual(sorted(os.listdir(folder)), ["liblibc_c.a", "libother.a", "libother.origin"])
        self.assertIn("verdict logic=proved functions=1\n", read_text(os.path.join(folder, "libother.origin")))

    def test_another_one_is_left(self):
        """One of other sources, one that was changed since it was told of, and none."""
        installed = self.packed()
        self.write("crates/low/src/lib.rt", "two\n")
        self.assertFalse(self.taken(installed))
        self.write("crates/low/src/lib.rt", "one\n")
        self.write(os.path.join(installed, "libother.a"), "changed\n")
        self.assertFalse(self.taken(installed))
        self.assertFalse(self.taken(self.path("none")))
        self.assertFalse(os.path.exists(self.library))

    def test_what_was_built_is_told(self):
        """The sum of the library is that of the file."""
        installed = self.packed()
        with open(os.path.join(installed, "libother.a"), "rb") as file:
            told = f"library {hashlib.sha256(file.read()).hexdigest()}\n"
        self.assertIn(told, read_text(os.path.join(installed, "libother.origin")))


class Header(ToolTest):
    """The header in C of a proved library."""

    def header(self, text):
        """The status of share/header over a crate of this text, and what it says."""
        self.write("crates/pairs/src/lib.rt", text)
        os.makedirs(self.path("share"), exist_ok=True)
        shutil.copy(os.path.join(ROOT, "share", "header"), self.path("share"))
        done = run_to_end([self.path("share/header"), "pairs"])
        return done.returncode, done.stdout, done.stderr

    def test_records_and_functions_are_declared(self):
        """With their comments and what they require; without what C knows nothing of."""
        status, text, _ = self.header(LIBRARY)
        self.assertEqual(status, 0)
        for part in HEADER.split("\n\n"):
            self.assertIn(part, text)

    def test_what_c_has_not_is_refused(self):
        """A type, and a function of a form that isn't known: none is left out without a word."""
        for wrong, says in (("pair: &mut Other", "C has no Other, the type of pair"),
                            ("pair: Fn(u8) -> bool", "not all functions of pairs are read")):
            status, text, said = self.header(LIBRARY.replace("pair: &mut Pair", wrong))
            self.assertEqual((status, text), (1, ""))
            self.assertIn(says, said)

    def test_a_c_compiler_takes_it(self):
        """The header of each library of this repository."""
        compiler = shutil.which("cc")
        if not compiler:
            self.skipTest("there is no C compiler")
        with open(os.path.join(ROOT, "crates.txt"), encoding="utf-8") as file:
            names = [line.split()[0] for line in file if " staticlib:" in line]
        for name in names:
            done = run_to_end([os.path.join(ROOT, "share", "header"), name])
            self.assertEqual(done.returncode, 0, done.stderr)
            self.write(f"{name}.h", done.stdout)
            words = [compiler, "-Wall", "-Wextra", "-Werror", "-fsyntax-only", "-x", "c", self.path(f"{name}.h")]
            subprocess.run(words, check=True)


if __name__ == "__main__":
    unittest.main()
