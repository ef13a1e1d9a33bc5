"""What the program answers: it is run, and the line of its fault is read."""
import os
import re
import shutil
import stat
import subprocess
from dataclasses import dataclass

import called

ROOT = os.path.dirname(os.path.dirname(os.path.dirname(os.path.dirname(os.path.realpath(__file__)))))
PROGRAM = os.path.join(ROOT, "build", "apctl")
SUBCOMMANDS = {"check": "check CONFIG", "run": "run CONFIG TRACE", "play": "play CONFIG TRACE...",
               "live": "live CONFIG"}
FAULT = re.compile(r"fault (?:(?P<code>[CLF]\d+|sources|words|memory|thread|output|clock)"
                   r"(?: trace (?P<trace>\d+))?(?: (?:line|record) (?P<line>\d+))?(?: network (?P<network>\S+))?"
                   r"|file (?P<file>.*))", re.DOTALL)
# What a network may refuse: the line of such a fault has the network beside the line or record, or neither.
REFUSED = ("memory", "clock")
# The exit status of a fault, by its code; 1 of all others (docs/FORMATS.md, "Faults").
STATUSES = {"words": 2, "memory": 3, "thread": 3, "F3": 3, "file": 4, "output": 4}
DESCRIPTOR = re.compile(r"/(?:dev|proc/self)/fd/([0-9]{1,6})")


class NoProgram(Exception):
    """The program can't be run."""


@dataclass(frozen=True)
class Fault:
    """A fault as the program says it: its whole line, its code (`file` and `words` among them), and what the line
    names: a network or a trace, from 0, a line or a record, from 1, or a file."""

    said: str
    code: str
    network: int | None = None
    trace: int | None = None
    line: int | None = None
    file: str | None = None


@dataclass(frozen=True)
class Answer:
    """What came of a run: the exit status, standard output, and the fault that standard error tells."""

    status: int
    output: bytes
    fault: Fault | None
    errors: str = ""


def read_fault(said: str) -> Fault | None:
    """The fault of a line that the program wrote."""
    match = FAULT.fullmatch(said)
    if not match or match["code"] in REFUSED and (match["line"] is None) != (match["network"] is None):
        return None
    if match["file"] is not None:
        return Fault(said, "file", file=match["file"])
    network, trace, line = (int(digits) if (digits or "").isdigit() else None
                            for digits in match.group("network", "trace", "line"))
    return Fault(said, match["code"], network, trace, line)


def said_already(said: str) -> Answer:
    """The answer of which this line is known; the fault of a single line ends nothing, and has 1."""
    fault = read_fault(said)
    return Answer(1 if fault is None or fault.line is not None else STATUSES.get(fault.code, 1), b"", fault, said)


def keep_pipes(words: list[str]) -> tuple[int, ...]:
    """The descriptors that words name, as those do that a shell puts for `<(..)`. What comes by such a pipe is read to
    its end, and stands in memory in its place as a file that can be read again."""
    named = {int(match[1]) for match in map(DESCRIPTOR.fullmatch, words) if match}
    found = []
    for number in sorted(named):
        try:
            is_pipe = stat.S_ISFIFO(os.fstat(number).st_mode)
            if number > 2 and is_pipe:
                with open(number, "rb", closefd=False) as pipe, open(os.memfd_create("pipe"), "r+b") as kept:
                    shutil.copyfileobj(pipe, kept)
                    kept.flush()
                    os.dup2(kept.fileno(), number)
            found.append(number)
        except OSError:  # no such descriptor: the program says so
            pass
    return tuple(found)


def run_program(program: str, words: list[str], given: bytes | None = None,
                descriptors: tuple[int, ...] = ()) -> Answer:
    """Runs the program with these words and descriptors, and with this on standard input, or this process's own."""
    try:
        done = subprocess.run([program, *words], capture_output=True, check=False, input=given, pass_fds=descriptors)
    except (OSError, ValueError) as fault:
        reason = getattr(fault, "strerror", None) or fault
        raise NoProgram(f"{program} can't be run: {reason} ({called.program_comes()})") from None
    errors = os.fsdecode(done.stderr)
    said = errors.removesuffix("\n")
    return Answer(done.returncode, done.stdout, read_fault(said), errors)
