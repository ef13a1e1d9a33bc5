"""A small repository with the scripts of this one, whose toolchain is scripts that prove nothing: what they build stands
in place of the program, so that what is built, told and installed is tried within seconds."""
import glob
import os
import shutil
import subprocess

from common import ROOT, ToolTest, run_to_end
from texts import read_text

SECONDS = 60
TOOLCHAIN = "rattle-kit-test logic 0"
COPIED = (".ci", "share", "tools/lib", "tools/guest/stations.py", "tools/guest/README.md", "tools/systemd", "docs",
          "examples", "tests/check", "tests/cases", "tests/several_networks", "tests/play", "README.md", "CHANGELOG.md",
          "HANDLES")
# Parts of the gate that look at the machine, at this repository and its tools, or run long: there they say that all is
# well.
QUIET = (".ci/packages", ".ci/arm64", ".ci/documents", ".ci/first-version", ".ci/lint", ".ci/refused", "wrong/check",
         "wrong/try", "tools/guest/air/build", "tools/bridge/build", "tools/dev/test", "tests/help", "tests/words",
         "tests/refuse", "tests/devices", "tests/live", "tests/octets", "bench/fuzz", "bench/stress")
# The toolchain stands in the small repository's own folder. Each of its commands fails where a file `fails` is there, and
# waits where a file `waits` is; the program that they build has the text of the crate's source. The prover writes down
# which crates it was called for, and says what a proved crate's verdict is, but where a file `says_nothing` is there.
RT = f"""#!/bin/bash
case $1 in
version) echo '{TOOLCHAIN}' ;;
check) [ ! -e "$STATES/fails" ] || {{ echo 'not proved: a goal'; exit 1; }} ;;
ci)
    [ -e "$STATES/fails" ] || {{ cd crates/apctl && mkdir -p out && cp src/main.rt out/apctl; }}
    echo '1 passed, 0 failed'
    ;;
esac
"""
RATTLE = f"""#!/bin/bash
[[ $* =~ ^build\\ --crate-name\\ ([a-z_]+)\\ (.*)\\ -o\\ ([^ ]+)$ ]] || exit 2
echo "${{BASH_REMATCH[1]}}" >>"$STATES/proved"
echo "$*" >"$STATES/words"
[ ! -e "$STATES/fails" ] || {{ echo 'not proved: a goal'; exit 1; }}
[ ! -e "$STATES/waits" ] || {{ : >"$STATES/waiting"; sleep {SECONDS}; }}
case "${{BASH_REMATCH[3]}}" in
*.rlib) mkdir "${{BASH_REMATCH[3]}}" && cksum src/* >"${{BASH_REMATCH[3]}}/format" ;;
*.a.part) cp src/lib.rt "${{BASH_REMATCH[3]}}" ;;
*) cp src/main.rt "${{BASH_REMATCH[3]}}" ;;
esac
[ -e "$STATES/says_nothing" ] || echo 'logic=proved functions=1'
"""
LINK = """#!/bin/bash
[[ $* =~ \\ -o\\ ([^ ]+)\\ ([^ ]+) ]] && cp "${BASH_REMATCH[2]}" "${BASH_REMATCH[1]}" && chmod +x "${BASH_REMATCH[1]}"
"""


class SmallRepository(ToolTest):
    """A repository of two crates, with the scripts of this one."""

    def setUp(self):
        super().setUp()
        self.top = self.path("small")
        self.states = self.path("states")
        os.makedirs(self.states)
        for name in COPIED:
            source, target = os.path.join(ROOT, name), os.path.join(self.top, name)
            os.makedirs(os.path.dirname(target), exist_ok=True)
            if os.path.isdir(source):
                shutil.copytree(source, target, ignore=shutil.ignore_patterns("__pycache__"))
            else:
                shutil.copy(source, target)
        for path in glob.glob(os.path.join(ROOT, "tools", "*")):
            if os.path.isfile(path):
                shutil.copy(path, os.path.join(self.top, "tools"))
        self.write("crates.txt", "low:\napctl: low\nother:\n")
        self.write(".gitignore", "out/\nbuild/\n")
        for name in ("low/src/lib.rt", "other/src/lib.rt"):
            self.write(f"crates/{name}", "one\n")
        self.write("crates/apctl/src/main.rt", "#!/bin/bash\necho first\n")
        self.write("crates/apctl/stdin", "")
        for name, text in (("rt", RT), ("rattle", RATTLE), ("rattle-link", LINK)):
            self.write(f"bin/{name}", text, 0o755)
        for name in QUIET:
            self.write(name, "#!/bin/sh\necho '1 passed, 0 failed'\n", 0o755)
        self.write("tools/tests/test_tools.py")
        self.git("init", "-q")
        self.commit()

    def path_of(self, name):
        """A file of the small repository."""
        return os.path.join(self.top, name)

    def write(self, name, text="", mode=None):
        """Writes one."""
        return super().write(self.path_of(name), text, mode)

    def state(self, name, holds):
        """Has the toolchain do something else from now on, or no more."""
        path = os.path.join(self.states, name)
        if holds:
            self.write(path)
        elif os.path.exists(path):
            os.remove(path)

    def git(self, *words):
        """What git says."""
        words = ["git", "-c", "user.name=test", "-c", "user.email=", *words]
        return subprocess.run(words, cwd=self.top, capture_output=True, text=True, check=True).stdout.strip()

    def commit(self):
        """Makes a commit of all, and answers its name."""
        self.git("add", "-A")
        self.git("commit", "-q", "-m", "one")
        return self.git("rev-parse", "HEAD")

    def environment(self):
        """With the scripts for the toolchain."""
        return {**os.environ, "PATH": f"{self.path_of('bin')}:{os.environ['PATH']}", "STATES": self.states,
                "TMPDIR": self.folder, "MAKE_USERS": "no"}

    def run_there(self, *words):
        """A script's status, and what it says."""
        done = run_to_end([self.path_of(words[0]), *words[1:]], cwd=self.top, env=self.environment())
        return done.returncode, done.stdout + done.stderr

    def built(self):
        """What the program that stands built says, or None where none does."""
        if not os.path.exists(self.path_of("build/apctl")):
            return None
        return subprocess.run([self.path_of("build/apctl")], capture_output=True, text=True, check=True).stdout.strip()

    def proved(self):
        """For which crates the prover was called since this was last asked, in this order."""
        path = os.path.join(self.states, "proved")
        if not os.path.exists(path):
            return []
        found = read_text(path).split()
        os.remove(path)
        return found

    def build(self):
        """Builds it, which has to go well."""
        status, said = self.run_there(".ci/build")
        self.assertEqual(status, 0, said)

    def fails_to_build(self):
        """Builds it, which has to fail: what is said."""
        status, said = self.run_there(".ci/build")
        self.assertEqual(status, 1)
        return said

    def install(self):
        """Installs below a prefix of its own: what is said."""
        status, said = self.run_there("share/install", self.path("usr"))
        self.assertEqual(status, 0, said)
        return said

    def installed(self, name, *words):
        """What an installed command says."""
        return subprocess.run([self.path(f"usr/{name}"), *words], capture_output=True, text=True, check=True).stdout
