"""What the tests share: the repository's cases, and the tools, run as a user runs them."""
import glob
import importlib.machinery
import importlib.util
import os
import subprocess
import sys
import tempfile
import time
import unittest
from unittest import mock

from texts import SEPARATOR, read_report, read_text, read_trace

TOOLS = os.path.dirname(os.path.dirname(os.path.realpath(__file__)))
ROOT = os.path.dirname(TOOLS)
GUEST_TOOLS = os.path.join(TOOLS, "guest")
# the folders of examples/, and of those of tests/; no two have the same name
CASES = {os.path.basename(folder): folder for pattern in ("examples/*", "tests/*/*")
         for folder in glob.glob(os.path.join(ROOT, pattern)) if os.path.isdir(folder)}
PROGRAM = os.path.join(ROOT, "build", "apctl")
THREE = CASES["three_networks_over_some_intervals"]
GUEST, OFFICE, DEVICES = (bytes([2, 0, 0, 0, 1, number]) for number in (1, 2, 3))


def run_to_end(words, **more):
    """A command that has ended, with what it wrote as text, whatever its status is."""
    return subprocess.run(words, capture_output=True, text=True, check=False, **more)


def tool(name, *words, program_input=None):
    """Runs a tool: its status, standard output and standard error."""
    done = run_to_end([os.path.join(TOOLS, name), *words], input=program_input)
    return done.returncode, done.stdout, done.stderr


def module_of(*names):
    """A script of the tools as a module, which it isn't named as."""
    path = os.path.join(TOOLS, *names)
    loader = importlib.machinery.SourceFileLoader("_".join(names).replace("-", "_"), path)
    module = importlib.util.module_from_spec(importlib.util.spec_from_loader(loader.name, loader))
    sys.modules[loader.name] = module
    loader.exec_module(module)
    return module


def text_of(*names):
    """A text of the repository."""
    return read_text(os.path.join(ROOT, *names))


def wait_until(holds, seconds=20):
    """Waits until something holds, or after so many seconds no more: what it is then."""
    until = time.monotonic() + seconds
    while not (found := holds()) and time.monotonic() < until:
        time.sleep(0.05)
    return found


def run_program(*words, program_input=None):
    """What the built program answers."""
    return subprocess.run([PROGRAM, *words], input=program_input, capture_output=True, text=True, check=True).stdout


def with_report():
    """The cases that end with a report, as folders."""
    for _, folder in sorted(CASES.items()):
        has = {file for file in ("input", "stdout", "status", "words") if os.path.exists(os.path.join(folder, file))}
        if has == {"input", "stdout"}:
            yield folder


def input_of(folder):
    """The input of an example: its text, and the lines of its trace (none where it is a configuration alone)."""
    text = read_text(os.path.join(folder, "input"))
    return text, read_trace(text) if SEPARATOR in text.split("\n") else []


def report_of(folder):
    """The sections of an example's report."""
    return read_report(read_text(os.path.join(folder, "stdout")))


class ToolTest(unittest.TestCase):
    """A test with a folder of its own, which is gone afterwards."""

    longMessage = True
    maxDiff = None

    def setUp(self):
        self.folder = self.enterContext(tempfile.TemporaryDirectory())

    def path(self, *names):
        """A file of the test's folder."""
        return os.path.join(self.folder, *names)

    def write(self, name, text="", mode=None):
        """Writes a file of the test's folder, of a text or octets, and answers its path."""
        path = self.path(name)
        os.makedirs(os.path.dirname(path), exist_ok=True)
        with open(path, "wb") as file:
            file.write(text.encode() if isinstance(text, str) else text)
        if mode is not None:
            os.chmod(path, mode)
        return path

    def read(self, name):
        """The text of a file of the test's folder."""
        return read_text(self.path(name))

    def files_of_run(self, text):
        """The files of what the program is given, and of its report."""
        return self.write("input", text), self.write("report", run_program(program_input=text))

    def patch(self, *patches):
        """Puts values in place of names until the test ends; a patch is a module or class, a name and a value."""
        for where, name, value in patches:
            self.enterContext(mock.patch.object(where, name, value))

    def refused(self, name, *words, says):
        """A tool has to end with status 1 and one message that says this."""
        status, stdout, stderr = tool(name, *words)
        self.assertEqual((status, stdout), (1, ""), stderr)
        self.assertIn(says, stderr)
        self.assertNotIn("Traceback", stderr)


def mutated(draw, octets):
    """A frame with up to three changes: an octet that is another, octets that are missing, or too many."""
    changed = bytearray(octets)
    for _ in range(draw.randrange(1, 4)):
        at = draw.randrange(len(changed) + 1)
        kind = draw.randrange(3)
        if kind == 0 and at < len(changed):
            changed[at] = draw.choice((0, 1, 0xFF, draw.randrange(256)))
        elif kind == 1:
            del changed[at:at + draw.choice((1, 2, 6))]
        else:
            changed[at:at] = bytes(draw.randrange(256) for _ in range(draw.choice((1, 2))))
    return bytes(changed)


def heard(control, body="", receiver="020000000001", sender="02aa00000001", third=None, sequence="0000"):
    """A line of a trace: a frame of a station to a network."""
    return " ".join(filter(None, ["A", control, receiver, sender, third or receiver, sequence, body]))


needs_program = unittest.skipUnless(os.path.exists(PROGRAM), "build/apctl isn't there (make apctl builds it)")
