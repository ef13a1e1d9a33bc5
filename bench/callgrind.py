"""What callgrind (Debian's package `valgrind`) counts of a run, and how its file is read."""
import os
import re
import subprocess
import sys
import tempfile
from collections import Counter, defaultdict
from typing import NamedTuple

# A name stands in whole where it comes first: `fn=(7) name`, and then as `fn=(7)`.
NAMED = re.compile(r"(c?(?:f[nile]|ob))=\((\d+)\)(?: (.*))?")
# By these the file changes of which the next lines are.
FILES = {"fl", "fi", "fe"}
COST = re.compile(r"[-+*\d]\S* \d+$")


def total(lines):
    """The instructions in all, of the lines of a file of callgrind."""
    return next(int(line.split()[1]) for line in lines if line.startswith(("summary:", "totals:")))


def run_counted(words, counted, stdin=os.devnull, flags=(), env=None):
    """Runs a command over a file, and lets callgrind write what it counts into another: what it wrote. Ends the script
    where its status isn't 0."""
    with open(stdin, "rb") as source:
        ran = subprocess.run(["valgrind", "--tool=callgrind", f"--callgrind-out-file={counted}", *flags, *words],
                             stdin=source, capture_output=True, env=env)
    if ran.returncode:
        said = (ran.stdout + ran.stderr).decode(errors="replace")
        sys.exit(f"{' '.join(words)}: status {ran.returncode}: {said}")
    return ran.stdout


def instructions(words, stdin):
    """The instructions of a command over a file, and what it wrote."""
    with tempfile.TemporaryDirectory(prefix="callgrind-") as folder:
        counted = os.path.join(folder, "counted")
        wrote = run_counted(words, counted, stdin)
        with open(counted) as lines:
            return total(lines), wrote


class Place(NamedTuple):
    """Where instructions stand: the program or library, the source file, which may be that of code that stands inline,
    and the function."""

    library: str
    file: str
    function: str


class Profile(NamedTuple):
    """How many instructions stand where, and how often a function called another."""

    own: Counter[Place]
    calls: Counter[tuple[str, str]]


def profile(lines):
    """What the lines of a file of callgrind say."""
    found, names, now = Profile(Counter(), Counter()), defaultdict(dict), defaultdict(str)
    is_of_call = False
    for line in lines:
        if named := NAMED.match(line):
            word, number, name = named.groups()
            kind = word.removeprefix("c")
            known = names["file" if kind in FILES else kind]
            if name is not None:
                known[number] = name
            now[word if word in ("fn", "cfn", "ob") else "file" if word in FILES else word] = known[number]
        elif line.startswith("calls="):
            found.calls[now["fn"], now["cfn"]] += int(line[6:].split()[0])
            is_of_call = True
        elif COST.match(line):
            # what a call took in all stands in the line behind it
            if not is_of_call:
                found.own[Place(now["ob"], now["file"], now["fn"])] += int(line.split()[1])
            is_of_call = False
    return found
