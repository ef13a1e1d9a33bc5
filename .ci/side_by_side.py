"""Runs parts of a whole beside each other, as the gate does: each is a command that says last 'N passed, M failed'. As
many run as there are processors, each once what it needs is there, and those that measure alone at the end. What a part
writes is kept in a file of its own, and printed in one piece when it has ended.
"""
import dataclasses
import os
import queue
import re
import shutil
import signal
import subprocess
import sys
import tempfile
import threading
import time

ROOT = os.path.dirname(os.path.dirname(os.path.abspath(__file__)))
APART = os.path.join(ROOT, ".ci", "apart")
COUNTS = re.compile(rb"^(\d+) passed, (\d+) failed$", re.M)
# Lines by which `rt` tells of a single function or module that it is well.
OF_NO_NOTE = re.compile(r".*: proved(, .*)?$| modules loaded=")
# What a part that was asked to end has for that, in seconds.
TO_END = 20
# By how much a part gives way that runs beside the prover.
NICE = "10"


@dataclasses.dataclass(frozen=True)
class Part:
    """A part: its name and what it does, the command, and which names it needs, of parts and of what these give.

    It takes so many processors, and so many seconds by a guess, by which the longest come first; after so many minutes
    it has failed. One that fills the machine leaves room for one other, which gives way. One that is alone runs when
    all others have ended. One that doesn't count is one test, by its status. `apart` is by .ci/apart. Where there are
    `marks`, the lines are shown as they come, and it says which names a line gives."""
    name: str
    says: str
    words: tuple
    needs: tuple = ()
    lanes: int = 1
    seconds: int = 10
    minutes: int = 40
    fills: bool = False
    alone: bool = False
    counts: bool = True
    apart: bool = True
    marks: object = None


@dataclasses.dataclass
class Ended:
    """How a part ended: its status, what it counted, and its seconds on the clock and of the processors."""
    part: Part
    status: int
    passed: int
    failed: int
    seconds: float
    processor: float
    text: bytes


def counted(text, status):
    """What the last line of a part counts. One that counts nothing, or ends badly with no failure, has failed."""
    found = COUNTS.findall(text)
    passed, failed = map(int, found[-1]) if found else (0, 0)
    return passed, failed + (not found or status != 0 and failed == 0)


def is_shown(line):
    """Whether a line is printed, and not only kept."""
    return not OF_NO_NOTE.match(line)


class Output:
    """What is printed, and kept in a file too, with the time so far."""

    def __init__(self, path):
        self.file, self.begun, self.lock = open(path, "wb"), time.monotonic(), threading.Lock()

    def __enter__(self):
        return self

    def __exit__(self, *_):
        self.file.close()

    def time(self):
        seconds = int(time.monotonic() - self.begun)
        return f"{seconds // 60:3}:{seconds % 60:02}"

    def show(self, *lines):
        """Prints lines in one piece."""
        with self.lock:
            sys.stdout.write("".join(f"{line}\n" for line in lines if is_shown(line)))
            sys.stdout.flush()

    def tell(self, text):
        """Prints what is done, and keeps it."""
        self.keep(f"{self.time()} {text}\n".encode())
        self.show(f"{self.time()} {text}")

    def keep(self, octets):
        with self.lock:
            self.file.write(octets)
            self.file.flush()


class Running:
    """A part that runs, in a session of its own, which is ended as a whole."""

    def __init__(self, part, gives_way, folder, log, output):
        self.part, self.log, self.output, self.is_late = part, log, output, False
        words = [APART, folder, *part.words] if part.apart else [*part.words]
        words = ["nice", "-n", NICE, *words] if gives_way else words
        self.begun, self.ended = time.monotonic(), threading.Event()
        with open(log, "wb") as file:
            out = subprocess.PIPE if part.marks else file
            self.process = subprocess.Popen(words, cwd=ROOT, stdin=subprocess.DEVNULL, stdout=out,
                                            stderr=subprocess.STDOUT, start_new_session=True)

    def follow(self, came):
        """Shows and keeps the lines of the part as they come, and passes on which names they give."""
        with open(self.log, "ab") as file:
            for line in self.process.stdout:
                file.write(line)
                file.flush()
                text = line.decode(errors="replace").rstrip("\n")
                is_told = text.startswith("rt: ")
                self.output.show(f"{self.output.time()} {text[4:]}" if is_told else text)
                came.put(("there", self.part.marks(text)))

    def end(self, number):
        """Sends a signal to all that the part began and that stays with it."""
        try:
            os.killpg(self.process.pid, number)
        except ProcessLookupError:
            pass

    def end_late(self):
        """Ends it where it takes longer than it may."""
        if not self.ended.wait(self.part.minutes * 60):
            self.is_late = True
            self.end_all()

    def end_all(self):
        """Has it end, and ends what doesn't."""
        self.end(signal.SIGTERM)
        self.ended.wait(TO_END)
        self.end(signal.SIGKILL)

    def to_end(self, came):
        """Waits until it has ended, and passes on how."""
        threading.Thread(target=self.end_late, daemon=True).start()
        follower = threading.Thread(target=self.follow, args=(came,), daemon=True)
        if self.part.marks:
            follower.start()
        _, waited, used = os.wait4(self.process.pid, 0)
        self.process.returncode = status = os.waitstatus_to_exitcode(waited)
        self.ended.set()
        # what the part left behind goes with it
        self.end(signal.SIGKILL)
        if self.part.marks:
            follower.join(TO_END)
        with open(self.log, "rb") as file:
            text = file.read()
        if not self.part.counts:
            text += b"0 passed, 1 failed\n" if status else b"1 passed, 0 failed\n"
        if self.is_late:
            text += f"{self.part.name}: it took more than {self.part.minutes} minutes, and was ended\n".encode()
        passed, failed = counted(text, status)
        failed += self.is_late and failed == 0
        took = time.monotonic() - self.begun
        came.put(("ended", Ended(self.part, status, passed, failed, took, used.ru_utime + used.ru_stime, text)))


class Parts:
    """Parts that are run, and what came of them."""

    def __init__(self, parts, lanes, output, folder, given=()):
        """`given` are the names that are there before; `folder` is where what each part writes is kept."""
        self.left, self.lanes, self.output, self.folder = [*parts], lanes, output, folder
        self.there, self.running, self.ended, self.not_run = {*given}, {}, [], []
        self.came, self.place = queue.Queue(), tempfile.mkdtemp(prefix="gate-")
        self.made = 0
        os.chmod(self.place, 0o755)
        os.makedirs(folder, exist_ok=True)

    def is_ready(self, part):
        """Whether a part can begin beside what runs."""
        running = [it.part for it in self.running.values()]
        if not self.there.issuperset(part.needs):
            return False
        if part.alone or any(it.alone for it in running):
            return not running and all(it.alone for it in self.left)
        filling = any(it.fills for it in running)
        others = sum(it.lanes for it in running if not it.fills)
        if part.fills:
            return not filling and others == 0
        return others == 0 if filling else others == 0 or others + part.lanes <= self.lanes

    def begin(self, part):
        """Begins a part, with a folder of its own, which is all users' as /tmp is."""
        self.made += 1
        folder = os.path.join(self.place, str(self.made))
        os.mkdir(folder)
        os.chmod(folder, 0o1777)
        log = os.path.join(self.folder, part.name.replace(":", "-") + ".log")
        gives_way = any(it.part.fills for it in self.running.values())
        self.output.show(f"{self.output.time()} begun: {part.name}")
        running = self.running[part.name] = Running(part, gives_way, folder, log, self.output)
        threading.Thread(target=running.to_end, args=(self.came,), daemon=True).start()
        self.left.remove(part)

    def take(self, ended):
        """Prints what a part wrote that has ended, but for what was shown as it came."""
        part = ended.part
        del self.running[part.name]
        self.ended.append(ended)
        lines = [] if part.marks else ended.text.decode(errors="replace").splitlines()
        last = f"{self.output.time()} ended: {part.name}, {ended.passed} passed, {ended.failed} failed, " \
               f"{ended.seconds:.0f} s, {ended.processor:.0f} s of the processors"
        self.output.show(f"== {part.name}: {part.says}", *lines, last)
        self.output.keep(f"== {part.name}: {part.says}\n".encode() + ended.text + f"{last}\n".encode())

    def run(self, after=lambda part: ()):
        """Runs all: `after` says which further names are there once a part has ended. What needs a name that nothing
        gives any more is not run."""
        try:
            while self.left or self.running:
                # the longest first, and the one that fills the machine before all
                for part in sorted(self.left, key=lambda it: (not it.fills, -it.seconds)):
                    if self.is_ready(part):
                        self.begin(part)
                if not self.running:
                    # what can't begin keeps from running only what waits for all others
                    kept = [it for it in self.left if it.alone and self.there.issuperset(it.needs)]
                    self.not_run += [it for it in self.left if it not in kept]
                    self.left = kept
                    continue
                what, which = self.came.get()
                if what == "there":
                    self.there |= {*which}
                else:
                    self.take(which)
                    self.there |= {which.part.name, *after(which.part)}
        finally:
            for it in [*self.running.values()]:
                it.end_all()
            shutil.rmtree(self.place, ignore_errors=True)

    def passed(self):
        return sum(it.passed for it in self.ended)

    def failed(self):
        """How many tests failed, or parts that couldn't be run."""
        return sum(it.failed for it in self.ended) + len(self.not_run)

    def table(self):
        """What each part took, the longest first."""
        lines = ["| Part | Minutes on the clock | Of the processors |", "|---|---|---|"]
        for it in sorted(self.ended, key=lambda it: -it.seconds):
            lines.append(f"| `{it.part.name}` | {it.seconds / 60:.1f} | {it.processor / 60:.1f} |")
        return lines
