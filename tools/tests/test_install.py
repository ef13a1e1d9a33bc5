"""Tests of share/install, the pages of man, completion and the sample configuration: what is installed works and is
taken away again, and no file of others is touched."""
import filecmp
import glob
import os
import pty
import re
import select
import shutil
import signal
import subprocess
import time
import unittest

from common import CASES, PROGRAM, ROOT, TOOLS, ToolTest, needs_program, run_to_end, text_of
from small import SmallRepository
from texts import read_text

SECONDS = 60
BELL = "\a"
COMMANDS = {f"waltigon-{name}": name for name in ("capture-from-report", "capture-from-run",
                                                  "config-from-hostapd", "explain", "frame", "live", "live-demo",
                                                  "picture", "report-to-json", "status", "trace-from-capture")}
# Words of each that lead to a fault: none of these files is there.
FAULTS = {"capture-from-report": ["none"], "capture-from-run": ["none", "none", "--out", "made"],
          "config-from-hostapd": ["none"], "explain": ["--program", "none", "check", "none"],
          "frame": ["none"],
          "live": ["none", "--phy", "phy0"], "live-demo": ["--program", "none"], "picture": ["none", "none"],
          "report-to-json": ["none"], "status": ["9617", "none", "--names", "none"], "trace-from-capture": ["none"]}
OPTION = re.compile(r"(?<![\w-])--[a-z][a-z-]*")


class Install(ToolTest):
    """An installation below a folder of its own."""

    def setUp(self):
        super().setUp()
        self.prefix = self.path("usr local")

    def run_install(self, *words, **environment):
        """The status of share/install, and what it says."""
        done = run_to_end([os.path.join(ROOT, "share", "install"), *words],
                          env={**os.environ, "MAKE_USERS": "no", **environment})
        return done.returncode, done.stdout + done.stderr

    def installed(self, top):
        """All files and links below a folder."""
        return sorted(os.path.relpath(os.path.join(folder, name), top)
                      for folder, _, names in os.walk(top) for name in names)

    @needs_program
    def test_installed_tools_run(self):
        """The program, and the tools by way of their links, run where they were installed, as does each page of man."""
        status, said = self.run_install(self.prefix)
        self.assertEqual(status, 0, said)
        sample = os.path.join(self.prefix, "share", "doc", "waltigon", "apctl.toml")
        check = [os.path.join(self.prefix, "bin", "apctl"), "check", sample]
        self.assertEqual(subprocess.run(check, capture_output=True, text=True, check=True).stdout, "ok 2\n")
        report = os.path.join(CASES["probe_is_answered"], "stdout")
        json = [os.path.join(self.prefix, "bin", "waltigon-report-to-json"), report]
        self.assertIn('"ssid": "lab"', subprocess.run(json, capture_output=True, text=True, check=True).stdout)
        for name in glob.glob(os.path.join(self.prefix, "*bin", "waltigon-*")):
            done = run_to_end([name, "--help"])
            self.assertEqual((done.returncode, done.stderr), (0, ""), name)

    @needs_program
    def test_nothing_is_left(self):
        """What was installed is taken away, a file that somebody put beside it is not; a second time changes nothing."""
        self.write(os.path.join(self.prefix, "bin", "other"))
        for _ in range(2):
            self.assertEqual(self.run_install(self.prefix)[0], 0)
        self.assertEqual(self.run_install("--uninstall", self.prefix), (0, ""))
        self.assertEqual(self.installed(self.prefix), [os.path.join("bin", "other")])
        self.assertEqual(os.listdir(self.prefix), ["bin"])
        status, said = self.run_install("--uninstall", self.prefix)
        self.assertEqual(status, 1)
        self.assertIn("nothing is installed", said)

    @needs_program
    def test_others_files_stay(self):
        """Where a file of that name is there, nothing is installed."""
        self.write(os.path.join(self.prefix, "bin", "apctl"), "other")
        status, said = self.run_install(self.prefix)
        self.assertEqual(status, 1)
        self.assertIn("was not installed by this", said)
        self.assertEqual(self.installed(self.prefix), [os.path.join("bin", "apctl")])

    @needs_program
    def test_destdir(self):
        """DESTDIR stands before the prefix."""
        self.assertEqual(self.run_install("/usr", DESTDIR=self.folder)[0], 0)
        self.assertTrue(os.path.samefile(os.path.join(self.folder, "usr", "lib", "waltigon", "build", "apctl"),
                                         os.path.join(self.folder, "usr", "bin", "apctl")))
        self.assertEqual(self.run_install("--uninstall", "/usr", DESTDIR=self.folder)[0], 0)
        self.assertEqual(self.installed(self.folder), [])

    def test_words(self):
        """Without a prefix it says how it is used."""
        for words in ((), ("--uninstall",), ("",), ("a", "b")):
            self.assertEqual(self.run_install(*words)[0], 2, words)


class WhatIsInstalled(SmallRepository):
    """What stands below the prefix, of a program that does nothing."""

    def setUp(self):
        super().setUp()
        self.build()

    def read(self, name):
        """An installed text."""
        return super().read(f"usr/{name}")

    def test_missing_bridge_is_told(self):
        """Installing says so where none is built, and the command says where to build it; once built, it is there."""
        self.assertIn("no bridge is installed, without which waltigon-live serves no radio", self.install())
        self.assertFalse(os.path.exists(self.path("usr/lib/waltigon/build/bridge/release/bridge")))
        self.write("build/bridge/release/bridge", "#!/bin/bash\n", 0o755)
        self.assertNotIn("no bridge", self.install())
        self.assertTrue(os.access(self.path("usr/lib/waltigon/build/bridge/release/bridge"), os.X_OK))

    def test_each_command_has_page_and_completion(self):
        """Each command that is installed has a page of man, which apctl(1) or another names, and completion."""
        self.install()
        commands = [os.path.basename(path) for path in glob.glob(self.path("usr/*bin/waltigon-*"))]
        self.assertEqual(sorted(commands), sorted(COMMANDS))
        apctl = self.read("share/man/man1/apctl.1").replace("\\-", "-")
        self.assertIn("waltigon-explain", apctl.partition(".SH EXIT STATUS")[2].partition(".SH EXAMPLES")[0])
        for command in commands:
            section = 8 if command.startswith("waltigon-live") else 1
            self.assertTrue(os.path.exists(self.path(f"usr/share/man/man{section}/{command}.{section}")), command)
            self.assertIn(f"{command} ({section})", apctl.partition(".SH SEE ALSO")[2], command)
            self.assertIn("_waltigon", self.read(f"share/bash-completion/completions/{command}"), command)
        self.assertIn("#compdef", self.read("share/zsh/site-functions/_waltigon"))

    def test_each_command_speaks_by_its_name(self):
        """Help, a wrong word and a fault begin with the name by which a command was called, and name nothing of a
        checkout."""
        self.install()
        for path in glob.glob(self.path("usr/*bin/waltigon-*")):
            command = os.path.basename(path)
            for words in (["--help"], ["--no-such-word"], FAULTS[COMMANDS[command]]):
                done = run_to_end([path, *words], cwd=self.folder)
                begins = f"usage: {command} " if words[0].startswith("--") and len(words) == 1 else f"{command}: "
                said = done.stdout + done.stderr
                for installed in ("apctl", "bridge/release/bridge"):
                    said = said.replace(self.path(f"usr/lib/waltigon/build/{installed}"), "")
                self.assertTrue(said.startswith(begins), f"{words}: {said}")
                for checkouts in ("build/apctl", "build/bridge", "make apctl", "tools/"):
                    self.assertNotIn(checkouts, said, f"{command} {words}")
                for document in re.findall(r"[^\s(]*docs/\w+\.md", said):
                    self.assertTrue(os.path.exists(document), f"{command} {words}: {document}")

    def test_runs_that_documents_name_are_there(self):
        """Each folder of examples/ and tests/ that examples/README.md names is installed, file by file, and what who
        changes the sources reads alone isn't."""
        self.install()
        documents = "share/doc/waltigon"
        examples = self.read(f"{documents}/examples/README.md")
        shown = {f"examples/{name}" for name in re.findall(r"^\| `([a-z_]+)` \|", examples, re.M) if
                 os.path.isdir(os.path.join(ROOT, "examples", name))}
        named = shown | set(re.findall(r"`(tests/[a-z_]+/[a-z_]+)[`/ ]", examples))
        self.assertGreater(len(shown), 10)
        self.assertGreater(len(named), len(shown))
        for name in named:
            for file in os.listdir(os.path.join(ROOT, name)):
                ours, theirs = os.path.join(ROOT, name, file), self.path(f"usr/{documents}/{name}/{file}")
                self.assertTrue(filecmp.cmp(ours, theirs, shallow=False), f"{name}/{file}")
        for name in ("bench", "wrong", "crates"):
            self.assertFalse(os.path.exists(self.path(f"usr/{documents}/{name}")), name)

    def test_documents_have_their_pictures(self):
        """Each picture that an installed document shows is installed."""
        self.install()
        shown = 0
        for path in glob.glob(self.path("usr/share/doc/waltigon/**/*.md"), recursive=True):
            for name in re.findall(r"!\[[^\]]*\]\(([^)]*)\)", read_text(path)):
                self.assertTrue(os.path.exists(os.path.join(os.path.dirname(path), name)), f"{path}: {name}")
                shown += 1
        self.assertGreater(shown, 3)

    def test_examples_are_installed(self):
        """Each file of share/networks, share/prometheus and share/ansible is installed as it stands, with its folders,
        where docs/NETWORKS.md, docs/OPERATING.md and docs/SITES.md copy it from."""
        self.install()
        for name, least in (("networks", 4), ("prometheus", 4), ("ansible", 7)):
            folder = os.path.join(ROOT, "share", name)
            paths = [path for path in glob.glob(os.path.join(folder, "**"), recursive=True) if os.path.isfile(path)]
            self.assertGreaterEqual(len(paths), least)
            for path in paths:
                installed = f"share/doc/waltigon/examples/{name}/{os.path.relpath(path, folder)}"
                self.assertEqual(self.read(installed), read_text(path))

    def test_package_is_refused_at_once(self):
        """Where no program is built, or nothing tells of what, packing says so before it builds anything."""
        self.write("tools/bridge/build", "#!/bin/sh\n: >begun\n", 0o755)
        os.remove(self.path_of("build/apctl.origin"))
        self.assertIn("does not tell of what", self.refused_package())
        os.remove(self.path_of("build/apctl"))
        self.assertIn("'make apctl' proves and builds it", self.refused_package())

    def test_packages_are_named_before_they_are_installed(self):
        """All that packing takes and isn't there, in one line, before apt-get begins."""
        for name, script in (("dpkg-query", "exit 1"), ("apt-get", 'echo "apt-get $*"; exit 1'), ("id", "echo 0")):
            self.write(f"bin/{name}", f"#!/bin/sh\n{script}\n", 0o755)
        said = self.refused_package()
        before = said.partition("apt-get update")[0]
        self.assertIn("these packages of Debian are missing, and are installed now: debhelper lintian cargo rustc", before)
        self.assertIn("librust-serde-json-dev", before)

    def refused_package(self):
        """Why no package is packed."""
        status, said = self.run_there("share/deb")
        self.assertEqual(status, 1, said)
        self.assertFalse(os.path.exists(self.path_of("begun")), said)
        return said

    def test_unit_follows_the_prefix(self):
        """The unit begins the command of the same prefix, and nothing else of it changes."""
        self.install()
        unit = self.read("lib/systemd/system/waltigon@.service")
        self.assertIn(f'\nExecStart="{self.path("usr")}/sbin/waltigon-live" /etc/waltigon/%i.toml', unit)
        before = re.search(r'\nExecStartPre=-\+"(.*)" %n \$WORDS\n', unit)[1]
        self.assertEqual(before, self.path("usr/lib/waltigon/tools/open-status"))
        self.assertTrue(os.access(before, os.X_OK))
        self.assertEqual(unit.replace(f"{self.path('usr')}/", "/usr/local/"),
                         text_of("tools", "systemd", "waltigon@.service"))


class WithoutPackages(ToolTest):
    """The tools on a machine that has none of the packages that they need, which is made by modules that fail."""

    def setUp(self):
        super().setUp()
        for name in ("scapy", "PIL"):
            self.write(f"{name}.py", "raise ImportError\n")

    def run_without(self, name, *words, **environment):
        """What a tool answers there."""
        done = run_to_end([os.path.join(TOOLS, name), *words],
                          env={**os.environ, "PYTHONPATH": self.folder, **environment})
        return done.returncode, done.stdout, done.stderr

    def test_words_are_answered(self):
        """`--help` and `--version` always answer, and wrong words are refused as ever."""
        for name in COMMANDS.values():
            for word, status in (("--help", 0), ("--version", 0), ("--no-such-word", 2)):
                answered, stdout, stderr = self.run_without(name, word)
                self.assertEqual((answered, stdout != "", stderr != ""), (status, status == 0, status == 2),
                                 f"{name} {word}: {stderr}")

    def test_package_is_named(self):
        """Without any of these, a tool ends with the name of Debian's package, and of no file of a checkout."""
        folder = CASES["probe_is_answered"]
        run = [os.path.join(folder, "input"), os.path.join(folder, "stdout")]
        for name, words, package in (("capture-from-report", run[1:], "python3-scapy"),
                                     ("capture-from-run", [*run, "--out", self.folder], "python3-scapy"),
                                     ("trace-from-capture", [run[0]], "python3-scapy"),
                                     ("picture", run, "python3-pil")):
            self.assertEqual(self.run_without(name, *words),
                             (1, "", f"{package} is missing: `sudo apt install {package}` installs it\n"), name)

    def test_converter_is_named(self):
        """The same of a command, where none of it is on the path."""
        folder = CASES["probe_is_answered"]
        status, _, stderr = self.run_without("picture", os.path.join(folder, "input"), os.path.join(folder, "stdout"),
                                             "--out", self.path("a.png"), PYTHONPATH="", PATH=self.folder)
        self.assertEqual((status, stderr), (1, "picture: rsvg-convert is missing: `sudo apt install librsvg2-bin` "
                                               "installs it\n"))


@unittest.skipUnless(shutil.which("man"), "man isn't there")
class Pages(ToolTest):
    """The pages of man."""

    def page(self, path):
        """A page as text, and what `man` warns of."""
        return run_to_end(["man", "--warnings", "-l", path],
                          env={**os.environ, "LC_ALL": "C.UTF-8", "MANPAGER": "cat", "MANWIDTH": "200"})

    def test_each_option_is_named(self):
        """Each option of a tool stands in its page, and in no page one that it doesn't have; completion has the same."""
        completions = {name: text_of("share", "completions", name) for name in ("waltigon.bash", "_waltigon")}
        for command, name in COMMANDS.items():
            helped = subprocess.run([os.path.join(TOOLS, name), "--help"], capture_output=True, text=True, check=True)
            options = set(OPTION.findall(helped.stdout))
            page = os.path.join(ROOT, "share", "man", f"man{8 if name.startswith('live') else 1}", f"{command}.*")
            named = self.page(glob.glob(page)[0]).stdout.partition("\nOPTIONS\n")[2].partition("\nEXIT STATUS\n")[0]
            self.assertEqual(set(OPTION.findall(named.partition("\nSIGNALS\n")[0])), options, command)
            for shell, text in completions.items():
                part = re.search(rf"^ *{command}\)(.*?);;$", text, re.S | re.M)[1]
                self.assertEqual(set(OPTION.findall(part)) | {"--help", "--version"}, options, f"{shell}: {command}")

    def test_pages_have_no_warning(self):
        """`man` renders each page without a warning, with all sections that a page of its kind has."""
        pages = glob.glob(os.path.join(ROOT, "share", "man", "man*", "*"))
        self.assertEqual(len(pages), 13)
        for page in pages:
            done = self.page(page)
            self.assertEqual((done.returncode, done.stderr), (0, ""), page)
            for section in ("NAME", "DESCRIPTION", "EXAMPLES", "SEE ALSO"):
                self.assertIn(f"\n{section}\n", done.stdout, page)


class Terminal:
    """A program in a terminal, as a person has it."""

    def __init__(self, words, folder):
        self.process, self.end = pty.fork()
        if self.process == 0:
            os.chdir(folder)
            os.execvpe(words[0], words, {**os.environ, "TERM": "dumb"})
        self.said = ""

    def type(self, text, until):
        """Types something, and answers what is said from then until all of these were said."""
        begins = len(self.said)
        os.write(self.end, text.encode())
        due = time.monotonic() + SECONDS
        while not all(words in self.said[begins:] for words in until):
            if not select.select([self.end], [], [], max(0, due - time.monotonic()))[0]:
                raise AssertionError(f"{text!r}: not said: {until} in {self.said[begins:]!r}")
            self.said += os.read(self.end, 1 << 16).decode("utf-8", "replace")
        return self.said[begins:]

    def close(self):
        """Ends it."""
        os.kill(self.process, signal.SIGKILL)
        os.waitpid(self.process, 0)
        os.close(self.end)


class CompletionOfTools(ToolTest):
    """Completion of the tools' words in bash, as the function answers it that bash calls."""

    def setUp(self):
        super().setUp()
        for name in ("my.toml", "a.trace"):
            self.write(name)

    def completed(self, *words):
        """What is offered for the last word."""
        script = 'cd "$1" && . "$2" && shift 2 && COMP_WORDS=("$@") && COMP_CWORD=$(($# - 1)) && _waltigon "$1" && ' \
                 'printf "%s\\n" "${COMPREPLY[@]}"'
        done = subprocess.run(["bash", "-c", script, "bash", self.folder,
                               os.path.join(ROOT, "share", "completions", "waltigon.bash"), *words],
                              capture_output=True, text=True, check=True)
        return done.stdout.split()

    def test_options_and_files_are_offered(self):
        """Options where a word begins so, else files, and first the commands of tools that have some."""
        self.assertEqual(self.completed("waltigon-report-to-json", "--w"), ["--without-frames"])
        self.assertEqual(self.completed("waltigon-explain", "--"), ["--program", "--said", "--lines", "--help",
                                                                    "--version"])
        self.assertEqual(sorted(self.completed("waltigon-picture", "")), ["a.trace", "my.toml"])
        self.assertEqual(sorted(self.completed("waltigon-live", "")),
                         ["a.trace", "check-networks", "check-radio", "events", "kick", "my.toml", "reload", "status"])
        self.assertEqual(self.completed("waltigon-live", "ki"), ["kick"])
        self.assertEqual(sorted(self.completed("waltigon-explain", "my.toml", "")), ["a.trace", "my.toml"])
        self.assertEqual(self.completed("waltigon-trace-from-capture", "--fcs", "a"), ["auto"])
        self.assertEqual(self.completed("waltigon-frame", "jo"), ["join"])
        self.assertEqual(sorted(self.completed("waltigon-frame", "--config", "")), ["a.trace", "my.toml"])
        self.assertEqual(self.completed("waltigon-frame", "join", ""), [])
        self.assertEqual(self.completed("waltigon-picture", "--from", ""), [])
        self.assertEqual(self.completed("waltigon-live", "my.toml", "--by", "a"), ["active-monitors", "access-points"])

    def test_words_without_files_are_offered_none(self):
        """Behind `kick`, `reload`, `status` and `events` no file is offered, and the options are theirs."""
        radios = sorted(os.listdir("/sys/class/ieee80211")) if os.path.isdir("/sys/class/ieee80211") else []
        self.assertEqual(sorted(self.completed("waltigon-live", "check-radio", "")), radios)
        self.assertEqual(self.completed("waltigon-live", "check-radio", "--"), ["--by", "--help", "--version"])
        for words in (["kick"], ["kick", "02:00:00:00:01:01"], ["reload"], ["status"], ["events"]):
            self.assertEqual(self.completed("waltigon-live", *words, ""), [], words)
        self.assertEqual(self.completed("waltigon-live", "kick", "--"), ["--phy", "--help", "--version"])
        self.assertEqual(self.completed("waltigon-live", "status", "--"),
                         ["--phy", "--json", "--watch", "--help", "--version"])
        self.assertEqual(sorted(self.completed("waltigon-live", "check-networks", "")), ["a.trace", "my.toml"])
        self.assertEqual(sorted(self.completed("waltigon-live", "./kick", "")), ["a.trace", "my.toml"])
        self.assertEqual(self.completed("waltigon-live-demo", ""), [])


@unittest.skipUnless(shutil.which("zsh"), "zsh isn't there: apt-get install zsh")
class Completion(ToolTest):
    """Completion in a real zsh."""

    def completed(self, typed, *until):
        """What zsh shows where this is typed, and then the key for completion."""
        terminal = Terminal(["zsh", "-f", "-i"], self.folder)
        self.addCleanup(terminal.close)
        folder = os.path.join(ROOT, "share", "completions")
        terminal.type(f"fpath=({folder} $fpath); autoload -Uz compinit; compinit -u -D; PROMPT='re''ady> '\n",
                      ["ready> "])
        return terminal.type(f"{typed}\t", until)

    def test_words_and_files_are_offered(self):
        """Its commands; a configuration for each, traces where there may be some, and nothing behind them."""
        for name in ("my.toml", "other.toml", "a.trace", "b.trace"):
            self.write(name)
        self.completed("apctl ", "check", "run", "play", "live", "answer lines as they come")
        self.completed("apctl pl", "apctl play ")
        for word in ("check", "run", "play", "live"):
            self.assertNotIn("trace", self.completed(f"apctl {word} ", "my.toml", "other.toml"), word)
        for typed in ("run my.toml ", "play my.toml ", "play my.toml a.trace "):
            self.completed(f"apctl {typed}", "a.trace", "b.trace")
        self.completed("apctl live --o", "apctl live --octets ")
        self.completed("apctl --h", "apctl --help ")
        self.assertNotIn("my.toml", self.completed("apctl --help ", BELL))
        self.assertNotIn("trace", self.completed("apctl live --octets ", "my.toml", "other.toml"))
        for typed in ("check my.toml ", "live my.toml ", "run my.toml a.trace "):
            self.assertNotIn("b.trace", self.completed(f"apctl {typed}", BELL), typed)

    def test_words_of_tools_are_offered(self):
        """Options of each tool, and files and commands where there may be some."""
        for name in ("my.toml", "a.trace"):
            self.write(name)
        self.completed("waltigon-report-to-json --w", "waltigon-report-to-json --without-frames")
        self.completed("waltigon-live ", "kick", "reload", "status", "events", "check-networks", "check-radio",
                       "my.toml")
        for typed in ("kick ", "kick 02:00:00:00:01:01 ", "reload ", "status "):
            self.assertNotIn("my.toml", self.completed(f"waltigon-live {typed}", BELL), typed)
        self.completed("waltigon-live check-networks ", "my.toml")
        self.completed("waltigon-live status --j", "waltigon-live status --json")
        self.completed("waltigon-explain ", "check", "run", "play", "live", "my.toml", "a.trace")
        self.completed("waltigon-trace-from-capture --fcs ", "auto", "yes", "no")
        self.completed("waltigon-picture --", "--station", "--stations", "at most so many of a network")


class Sample(ToolTest):
    """The sample configuration."""

    @needs_program
    def test_sample_has_no_fault(self):
        """The program reads it."""
        done = run_to_end([PROGRAM, "check", os.path.join(ROOT, "share", "apctl.toml")])
        self.assertEqual((done.stdout, done.stderr), ("ok 2\n", ""))
