"""Tests of what the gate does beside the proofs: what it installs, and how it counts a crate's tests."""
import os

from common import ToolTest, run_to_end, text_of

# Installs packages up to a number at a time, and none that is named in $GONE.
APT = """#!/bin/sh
echo "$@" >>"$LOG"
case "$*" in *update*) exit "$UPDATED" ;; esac
while [ "$1" != --no-install-recommends ]; do shift; done
shift
[ $# -le "$MOST" ] || exit 100
for package; do
    case " $GONE " in *" $package "*) exit 100 ;; esac
    echo "$package" >>"$THERE"
done
"""
QUERY = '#!/bin/sh\nfor word; do last=$word; done\ngrep -qx -- "$last" "$THERE" && printf installed\n'
SUDO = '#!/bin/sh\nshift\nexec "$@"\n'
TOLD = """running 3 tests
.not run: sockets::many: no packet socket here, which takes root
..
test result: ok. 3 passed; 0 failed; 0 ignored; 0 measured; 0 filtered out; finished in 0.01s
test result: {}. 4 passed; {} failed; 0 ignored; 0 measured; 0 filtered out; finished in 0.01s"""


class Packages(ToolTest):
    """What is missing is installed, and what can't be is named and counted."""

    def installed(self, most=99, gone="", updated=0):
        """Runs `.ci/packages` in a folder of its own, where nothing is installed: its status, its lines, and what was
        asked of apt-get."""
        self.write(".ci/packages", text_of(".ci", "packages"), 0o755)
        self.write("tools/lib/words.sh", text_of("tools", "lib", "words.sh"))
        for name, text in (("bin/apt-get", APT), ("bin/dpkg-query", QUERY), ("bin/sudo", SUDO),
                           ("bin/sleep", "#!/bin/sh\n"), ("log", ""), ("there", "")):
            self.write(name, text, 0o755)
        more = {"PATH": f"{self.path('bin')}:{os.environ['PATH']}", "LOG": self.path("log"), "MOST": str(most),
                "THERE": self.path("there"), "GONE": gone, "UPDATED": str(updated)}
        done = run_to_end([self.path(".ci/packages")], env={**os.environ, **more})
        return done.returncode, done.stdout.splitlines(), self.read("log").splitlines()

    def test_all_at_once(self):
        """One update and one call install all."""
        status, lines, asked = self.installed()
        self.assertEqual((status, len(asked)), (0, 2))
        self.assertRegex(lines[-1], r"^[1-9]\d* passed, 0 failed$")

    def test_a_mirror_that_fails_is_told_and_counted(self):
        """Each step is tried three times, then each package alone; all that is missing is named."""
        status, lines, asked = self.installed(most=0, updated=1)
        self.assertEqual(status, 1)
        self.assertIn("apt-get update failed three times: the mirror may be out of reach", lines)
        named = [line for line in lines if line.startswith("not installed: ")]
        self.assertEqual(lines[-1], f"0 passed, {len(named)} failed")
        self.assertEqual(len([line for line in asked if line.endswith("update")]), 3)

    def test_one_that_is_gone_keeps_no_other_out(self):
        """Where all at once fail, each is tried by itself."""
        status, lines, _ = self.installed(gone="mypy")
        self.assertEqual(status, 1)
        self.assertRegex(lines[-2], "^not installed: mypy; build/packages.log has what apt-get said")
        self.assertRegex(lines[-1], r"^[1-9]\d* passed, 1 failed$")


class Arm64(ToolTest):
    """What is built and tested for arm64, where Debian's packages for that are there, and where they aren't."""

    FILES = (".ci/arm64", ".ci/machines.py", "tools/lib/words.sh", "tools/lib/packages.sh", "tools/lib/machine.sh")

    def said(self, part, there=(), gone=""):
        """Runs `.ci/arm64` in a folder of its own: its status, its lines, and what was asked of apt-get."""
        for name in self.FILES:
            self.write(name, text_of(*name.split("/")), 0o755)
        for name, text in (("bin/apt-get", APT), ("bin/dpkg-query", QUERY), ("bin/sudo", SUDO), ("log", ""),
                           ("bin/dpkg", '#!/bin/sh\necho "dpkg $*" >>"$LOG"\n'), ("there", "\n".join([*there, ""])),
                           ("tests/check", '#!/bin/sh\necho "$LIMITS $1"; echo "7 passed, 1 failed"; exit 1\n')):
            self.write(name, text, 0o755)
        more = {"PATH": f"{self.path('bin')}:{os.environ['PATH']}", "LOG": self.path("log"), "MOST": "99",
                "THERE": self.path("there"), "GONE": gone, "UPDATED": "0"}
        done = run_to_end([self.path(".ci/arm64"), part], env={**os.environ, **more})
        return done.returncode, done.stdout.splitlines(), self.read("log").splitlines()

    def packages(self):
        """The packages that it takes."""
        script = text_of("tools", "lib", "packages.sh")
        words = ["bash", "-euc", f'{script}\necho "${{cross_packages[@]}}" "${{emulating_packages[@]}}"']
        return run_to_end(words).stdout.split()

    def test_what_is_missing_is_installed(self):
        """After the machine was named to dpkg."""
        status, lines, asked = self.said("packages")
        self.assertEqual((status, lines), (0, ["1 passed, 0 failed"]))
        self.assertEqual(asked[0], "dpkg --add-architecture arm64")
        self.assertEqual(sorted(self.read("there").split()), sorted(self.packages()))

    def test_what_can_not_be_had_is_told_and_fails_nothing(self):
        """One line says so, of the packages and of each part."""
        for part in ("packages", "check", "fuzz"):
            status, lines, _ = self.said(part, gone="libstd-rust-dev:arm64")
            self.assertEqual((status, len(lines), lines[-1]), (0, 2, "0 passed, 0 failed"), lines)
            self.assertRegex(lines[0], "^not tested: ")

    def test_where_they_are_there_a_part_counts(self):
        """What a part says is said, and its status."""
        status, lines, asked = self.said("check", self.packages())
        program = self.path("build/arm64/by-qemu/apctl")
        self.assertEqual((status, lines, asked), (1, [f"no {program}", "7 passed, 1 failed"], []))
        self.assertIn(f"exec qemu-aarch64 {self.path('build/arm64/apctl')} ", self.read("build/arm64/by-qemu/apctl"))


class Counted(ToolTest):
    """The last line of a crate's tests."""

    def counted(self, text, status):
        """What `test_by_cargo` makes of what cargo says."""
        script = text_of("tools", "lib", "cargo.sh").replace("/usr/bin/cargo", self.path("cargo"))
        self.write("cargo", f"#!/bin/sh\ncat <<'END'\n{text}\nEND\nexit {status}\n", 0o755)
        done = run_to_end(["bash", "-euc", f"{script}\ntest_by_cargo"])
        return done.returncode, done.stdout.splitlines()[-1]

    def test_what_was_not_run_is_not_counted(self):
        """What couldn't run is no test that passed."""
        self.assertEqual(self.counted(TOLD.format("ok", 0), 0), (0, "6 passed, 0 failed"))
        self.assertEqual(self.counted(TOLD.format("FAILED", 2), 101), (1, "6 passed, 2 failed"))

    def test_what_was_not_built_has_failed(self):
        """Where nothing could be built, that is one failure."""
        self.assertEqual(self.counted("error: no such thing", 101), (1, "0 passed, 1 failed"))
