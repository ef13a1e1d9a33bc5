"""Tests of what is told of the program that stands built: .ci/build and .ci/gate in a small repository, whose toolchain
is scripts that prove nothing; what .ci/origin, `--version` of the tools and share/install say of what they left."""
import fcntl
import glob
import os
import shutil
import signal
import subprocess
import sys
import time
import unittest

from common import PROGRAM, ROOT, run_to_end
from small import SECONDS, TOOLCHAIN, SmallRepository
from version import VERSION


class Origin(SmallRepository):
    """Of what build/apctl was built."""

    def test_commit_and_toolchain_are_told(self):
        """Where the sources are those of the program, nothing else is said than which they are."""
        commit = self.git("rev-parse", "HEAD")
        self.build()
        self.assertEqual(self.built(), "first")
        self.assertEqual(self.run_there(".ci/origin", "check"), (0, ""))
        status, said = self.run_there("tools/live", "--version")
        self.assertEqual(status, 0)
        self.assertRegex(said, rf"\Awaltigon {VERSION}\napctl of commit {commit}, proved and built "
                               rf"20\d\d-\d\d-\d\dT[\d:]*Z by .ci/build\nwith {TOOLCHAIN}\n\Z")

    def test_changed_sources_are_told(self):
        """A change of what the program stands on, and of nothing else; with the commit, once it is built anew."""
        self.build()
        self.write("crates/other/src/lib.rt", "two\n")
        self.write("docs/SECURITY.md", "two\n")
        self.assertEqual(self.run_there(".ci/origin", "check"), (0, ""))
        first = self.git("rev-parse", "HEAD")
        self.write("crates/low/proofs/new.antt", "two\n")
        status, said = self.run_there(".ci/origin", "check")
        self.assertEqual((status, said), (1, f"build/apctl is an earlier program, of commit {first}: its sources have "
                                             "changed since\n"))
        self.assertIn("its sources have changed since", self.run_there("tools/live", "--version")[1])
        self.build()
        self.assertIn(f"apctl of commit {first}, with changes, proved", self.run_there("tools/live", "--version")[1])
        second = self.commit()
        self.build()
        self.assertIn(f"apctl of commit {second}, proved", self.run_there("tools/live", "--version")[1])

    def test_another_program_in_its_place(self):
        """What is told is told of one program alone."""
        self.build()
        self.write("build/apctl", "#!/bin/bash\necho other\n")
        self.assertIn("it is not the program", self.run_there(".ci/origin", "check")[1])
        self.assertIn("of which commit it is isn't known", self.run_there("tools/explain", "--version")[1])
        os.remove(self.path_of("build/apctl.origin"))
        self.assertIn("there is no build/apctl.origin", self.run_there(".ci/origin", "check")[1])
        os.remove(self.path_of("build/apctl"))
        self.assertIn("build/apctl is not there", self.run_there(".ci/origin", "check")[1])
        self.assertIn("apctl isn't built", self.run_there("tools/explain", "--version")[1])

    def test_words(self):
        """Other words are refused."""
        for words in ((), ("write",), ("commit",), ("check", "build/apctl")):
            self.assertEqual(self.run_there(".ci/origin", *words)[0], 2, words)


class ProvedAnew(SmallRepository):
    """What .ci/build proves of what was proved before."""

    def builds(self, *proved, by=None):
        """Builds it, for which these crates alone are proved."""
        self.build()
        self.assertEqual(self.proved(), list(proved), by)

    def test_what_has_not_changed_is_not_proved_again(self):
        """A crate is proved where its files have changed, or those of one that it stands on, and else not."""
        self.builds("low", "apctl")
        self.builds()
        self.write("crates/other/src/lib.rt", "two\n")
        self.builds()
        self.write("crates/apctl/src/main.rt", "#!/bin/bash\necho second\n")
        self.builds("apctl")
        self.assertEqual(self.built(), "second")
        self.write("crates/low/proofs/new.antt", "two\n")
        self.builds("low", "apctl")

    def test_what_was_broken_off_is_proved_again(self):
        """What a failed run left is not taken for proved, nor what another toolchain proved."""
        self.state("fails", True)
        self.fails_to_build()
        self.state("fails", False)
        self.proved()
        self.builds("low", "apctl")
        self.write("KIT-ID", "another\n")
        self.builds("low", "apctl")

    def test_wrong_body_below_a_newer_library(self):
        """A body that has turned wrong below is found, though its library is newer than the text: what is kept is told
        by what it was made of, and by no time."""
        self.build()
        self.proved()
        source = self.path_of("crates/low/src/lib.rt")
        self.write("crates/low/src/lib.rt", "wrong\n")
        os.utime(source, (0, 0))
        self.state("fails", True)
        said = self.fails_to_build()
        self.assertIn("low: not proved", said)
        self.assertEqual(self.proved(), ["low"])
        self.assertIn("is an earlier program", self.run_there(".ci/origin", "check")[1])

    def test_library_that_is_not_as_it_was_made(self):
        """A kept library is told by the sum of all its files: where one is another, or one more is there, the crate is
        proved again, and where the sum comes out the same, those above aren't."""
        for name in ("format", "more"):
            self.build()
            self.proved()
            self.write(f"crates/low/out/rlib/stated/low.rlib/{name}", "another\n")
            self.builds("low", by=name)

    def test_sum_of_the_logic_is_told(self):
        """One line says whether it is the one by which all was proved, whatever the toolchain is called."""
        for kit, said in (("rattle-kit-13b logic dac8208d650f15bf", "is dac8208d650f15bf: it matches\n"),
                          ("rattle-kit-13f logic 0123", "is 0123: it does not match dac8208d650f15bf, by which"),
                          ("another", "is unknown: it does not match dac8208d650f15bf, by which")):
            self.write("KIT-ID", f"{kit}\n")
            status, lines = self.run_there(".ci/build")
            self.assertEqual((status, lines.count("the sum of the toolchain's logic")), (0, 1))
            self.assertIn(f"the sum of the toolchain's logic {said}", lines)

    def test_of_two_runs_the_second_waits(self):
        """It says so, and proves nothing that the first has proved."""
        self.build()
        self.proved()
        with open(self.path_of("build/apctl.lock"), "w", encoding="ascii") as lock:
            fcntl.flock(lock, fcntl.LOCK_EX)
            with subprocess.Popen([self.path_of(".ci/build")], cwd=self.top, env=self.environment(), text=True,
                                  stderr=subprocess.PIPE) as second:
                self.assertIn("another run proves in this checkout", second.stderr.readline())
                self.assertIsNone(second.poll())
                fcntl.flock(lock, fcntl.LOCK_UN)
                second.stderr.read()
        self.assertEqual(second.returncode, 0)
        self.assertEqual(self.proved(), [])

    def test_without_a_verdict(self):
        """A prover that ends well and gives no verdict has proved nothing."""
        self.state("says_nothing", True)
        said = self.fails_to_build()
        self.assertIn("low: not proved", said)
        self.assertIsNone(self.built())

    def test_without_a_toolchain(self):
        """Where there is none, that is said, and nothing is begun."""
        os.symlink(sys.executable, self.path("python3"))
        ran = run_to_end([self.path_of(".ci/build")], cwd=self.top, env={**self.environment(), "PATH": self.folder})
        self.assertEqual(ran.returncode, 1)
        self.assertIn("the toolchain's command rt is not on the path", ran.stderr)
        self.assertEqual(self.proved(), [])


class StaticLibrary(SmallRepository):
    """What .ci/library builds of a crate that is one."""

    def setUp(self):
        super().setUp()
        self.write("crates.txt", "low:\nlow_c staticlib: low\napctl: low\n")
        self.write("crates/low_c/src/lib.rt", "of C\n")
        self.write("c/liblibc_c.a", "memory\n")
        self.library = self.path_of("crates/low_c/out/liblow_c.a")

    def builds(self, *proved, words=()):
        """It ends well, for which these crates alone are proved: what it says."""
        status, said = self.run_there(".ci/library", *words)
        self.assertEqual((status, self.proved()), (0, [*proved]), said)
        self.assertEqual(self.read("small/crates/low_c/out/liblow_c.a"), self.read("small/crates/low_c/src/lib.rt"))
        return said

    def changed(self, name, text):
        """A source is newer than the library."""
        self.write(name, text)
        later = os.stat(self.library).st_mtime + 5
        os.utime(self.path_of(name), (later, later))

    def test_one_that_is_missing_or_older_is_built(self):
        """What is below it is proved where that has changed, as .ci/build does; what is newer is left."""
        self.builds("low", "low_c")
        self.assertEqual(self.read("small/crates/low_c/out/liblibc_c.a"), "memory\n")
        self.builds()
        self.changed("crates/low_c/src/lib.rt", "of C, two\n")
        self.builds("low_c", words=("low_c",))
        os.remove(self.path_of("crates/low_c/src/lib.rt"))
        self.write("crates/low_c/src/lib.rt", "of C, three\n")
        self.changed("crates/low/proofs/new.antt", "two\n")
        self.builds("low", "low_c")

    def test_after_ci_it_is_built_over_what_ci_proved(self):
        """Anew, and nothing below it is proved; the last line counts."""
        self.builds("low", "low_c")
        said = self.builds("low_c", words=("--after-ci",))
        self.assertIn("1 passed, 0 failed\n", said)
        rlib = self.path_of("crates/low/out/rlib")
        self.assertIn(f" --extern low={rlib}/low.rlib ", self.read("states/words"))
        self.assertIn(f" -L dependency={rlib} ", self.read("states/words"))

    def test_what_is_not_proved_leaves_no_library(self):
        """Nor an earlier one."""
        self.builds("low", "low_c")
        self.state("fails", True)
        status, said = self.run_there(".ci/library", "--after-ci")
        self.assertEqual(status, 1)
        self.assertIn("0 passed, 1 failed\n", said)
        self.assertIn("not proved: a goal", said)
        self.assertFalse(os.path.exists(self.library))

    def test_without_a_toolchain(self):
        """One that stands built does; else that is said."""
        self.builds("low", "low_c")
        os.symlink(sys.executable, self.path("python3"))
        alone = {**self.environment(), "PATH": self.folder}
        self.assertEqual(run_to_end([self.path_of(".ci/library")], env=alone).returncode, 0)
        os.remove(self.library)
        ran = run_to_end([self.path_of(".ci/library")], env=alone)
        self.assertEqual(ran.returncode, 1)
        self.assertIn("isn't there, or older than its sources, and there is no command rt to build it", ran.stderr)

    def test_words(self):
        """A crate that is no static library, and other words."""
        for words in (("low",), ("--no-such-word",)):
            self.assertEqual(self.run_there(".ci/library", *words)[0], 2, words)


class EarlierProgram(SmallRepository):
    """What becomes of a program that stands built while another is built."""

    def test_failed_proof(self):
        """The earlier one stays where a proof fails, and is told to be earlier, though its sources are the same."""
        self.build()
        commit = self.git("rev-parse", "HEAD")
        self.write("KIT-ID", "another\n")
        self.state("fails", True)
        earlier = f"build/apctl is an earlier program, of commit {commit}: the last build did not end well"
        said = self.fails_to_build()
        self.assertIn("low: not proved\nnot proved: a goal", said)
        self.assertIn(earlier, said)
        self.assertEqual(self.built(), "first")
        self.assertEqual(self.run_there(".ci/origin", "check"), (1, f"{earlier}\n"))
        self.assertIn(earlier, self.run_there("tools/live", "--version")[1])
        self.assertIn(earlier, self.run_there("tests/check", "build/apctl")[1])
        self.state("fails", False)
        self.build()
        self.assertEqual(self.run_there(".ci/origin", "check"), (0, ""))

    def test_broken_off(self):
        """The earlier one stays where the build is killed, and until another has ended."""
        self.build()
        self.write("crates/apctl/src/main.rt", "#!/bin/bash\necho second\n")
        self.state("waits", True)
        with subprocess.Popen([self.path_of(".ci/build")], cwd=self.top, env=self.environment(),
                              stderr=subprocess.DEVNULL, start_new_session=True) as process:
            due = time.monotonic() + SECONDS
            while not os.path.exists(os.path.join(self.states, "waiting")):
                self.assertLess(time.monotonic(), due)
                time.sleep(0.05)
            self.assertEqual(self.built(), "first")
            os.killpg(process.pid, signal.SIGKILL)
        self.assertEqual(self.built(), "first")
        status, said = self.run_there(".ci/origin", "check")
        self.assertEqual(status, 1)
        self.assertIn("the last build did not end well", said)
        self.state("waits", False)
        self.build()
        self.assertEqual(self.built(), "second")
        self.assertEqual(self.run_there(".ci/origin", "check"), (0, ""))

    def test_running_program_is_replaced(self):
        """A program that runs, whose file can't be written, keeps no other from taking its place."""
        shutil.copy(shutil.which("sleep"), self.path_of("crates/apctl/src/main.rt"))
        self.build()
        with subprocess.Popen([self.path_of("build/apctl"), str(SECONDS)]) as running:
            self.write("crates/apctl/src/main.rt", "#!/bin/bash\necho second\n")
            self.build()
            running.kill()
        self.assertEqual(self.built(), "second")

    def test_gate_runs_no_earlier_program(self):
        """The gate removes the earlier one before it proves, and fails where none was built."""
        self.build()
        self.state("fails", True)
        status, said = self.run_there(".ci/gate")
        self.assertEqual(status, 1)
        self.assertIn("no program was built, so no example was run", said)
        self.assertNotRegex(said, r"\b0 failed\n\Z")
        self.assertIsNone(self.built())
        self.assertIn("build/apctl is not there", self.run_there(".ci/origin", "check")[1])

    def test_gate_tells_of_what_it_built(self):
        """The commit and the toolchain stand beside the program of the gate too."""
        commit = self.git("rev-parse", "HEAD")
        self.run_there(".ci/gate")
        self.assertEqual(self.run_there(".ci/origin", "check"), (0, ""))
        self.assertRegex(self.run_there("tools/live", "--version")[1],
                         rf"apctl of commit {commit}, proved and built .* by .ci/gate\nwith {TOOLCHAIN}")


class Installed(SmallRepository):
    """What an installation tells."""

    def test_installed_tools_tell(self):
        """Each tool tells the commits of the program and of the tools, and the page of the program tells them too."""
        self.build()
        first = self.git("rev-parse", "HEAD")
        self.write("docs/SECURITY.md", "two\n")
        second = self.commit()
        self.assertNotIn("warning", self.install())
        names = [os.path.relpath(path, self.path("usr")) for path in glob.glob(self.path("usr/*bin/waltigon-*"))]
        self.assertEqual(len(names), 11)
        for name in names:
            self.assertRegex(self.installed(name, "--version"),
                             rf"\Awaltigon {VERSION}\napctl of commit {first}, proved .*\nwith {TOOLCHAIN}\n"
                             rf"tools of commit {second}\n\Z", name)
        self.assertIn(f"\napctl of commit {first}, proved", self.read("usr/share/man/man1/apctl.1"))

    def test_installing_warns(self):
        """Where the program is an earlier one, installing says so, and the tools tell which it is."""
        self.build()
        commit = self.git("rev-parse", "HEAD")
        self.write("crates/apctl/src/main.rt", "two\n")
        self.assertIn("share/install: warning: build/apctl is an earlier program, of commit "
                      f"{commit}: its sources have changed since\n", self.install())
        self.assertIn(f"apctl of commit {commit}, proved", self.installed("sbin/waltigon-live", "--version"))
        os.remove(self.path_of("build/apctl.origin"))
        self.assertIn("warning: build/apctl is of unknown sources", self.install())
        self.assertIn("of which commit it is isn't known", self.installed("sbin/waltigon-live", "--version"))


class Packed(SmallRepository):
    """What share/deb packs of; what it packs is tried in the guest of `make test-live`."""

    def refused(self, says):
        """It says this, and nothing is packed."""
        status, said = self.run_there("share/deb")
        self.assertEqual((status, "share/deb: " in said, says in said), (1, True, True), said)
        self.assertEqual(glob.glob(self.path_of("build/*.deb")), [])

    def test_what_was_not_built_is_not_packed(self):
        """A program, and one of which is told of what it was built."""
        self.refused("build/apctl is not there")
        self.build()
        self.write("build/apctl", "#!/bin/bash\necho other\n")
        self.refused("does not tell of what build/apctl was built")
        os.remove(self.path_of("build/apctl.origin"))
        self.refused("does not tell of what build/apctl was built")


class EveryTool(unittest.TestCase):
    """The tools of this repository."""

    def test_every_tool_tells_its_version(self):
        """`--version` of each, whatever is built."""
        paths = [path for folder in ("tools", "tools/dev") for path in glob.glob(os.path.join(ROOT, folder, "*"))]
        tools = [path for path in paths if os.path.isfile(path) and os.access(path, os.X_OK)]
        self.assertGreater(len(tools), 13)
        for path in tools:
            done = run_to_end([path, "--version"])
            self.assertEqual((done.returncode, done.stderr), (0, ""), path)
            self.assertTrue(done.stdout.startswith(f"waltigon {VERSION}\napctl"), f"{path}: {done.stdout}")
            self.assertEqual("apctl isn't built" in done.stdout, not os.path.exists(PROGRAM), path)
