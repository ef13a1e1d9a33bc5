"""What the scripts beside it share: a run of a command, its peak of memory, and a floor by stock tools for the same
octets."""
import os
import subprocess
import sys
import tempfile
import time
from concurrent.futures import ProcessPoolExecutor
from multiprocessing import get_context
from typing import NamedTuple

RUNS = 3
HERE = os.path.dirname(os.path.abspath(__file__))
PROGRAM = os.path.join(HERE, "..", "build", "apctl")


def in_a_child(task, *words):
    """What a function answers in a process of its own, since a child's peak memory is never told below that of the
    process that started it."""
    with ProcessPoolExecutor(1, mp_context=get_context("fork")) as pool:
        return pool.submit(task, *words).result()


class Run(NamedTuple):
    """What a run took: the seconds on the clock, those of the processor, and at its peak the memory in KiB."""

    seconds: float
    processor: float
    memory: int


def run(words, stdin, stdout):
    """Runs a command over files, and answers what it took."""
    with open(stdin, "rb") as source, open(stdout, "wb") as target:
        begun = time.monotonic()
        child = subprocess.Popen(words, stdin=source, stdout=target)
        _, status, usage = os.wait4(child.pid, 0)
        seconds = time.monotonic() - begun
    child.returncode = os.waitstatus_to_exitcode(status)
    if child.returncode != 0:
        sys.exit(f"{words[0]} ended with status {child.returncode}")
    return Run(seconds, usage.ru_utime + usage.ru_stime, usage.ru_maxrss)


def peak_of(words, stdin):
    """The peak memory of a command over a file, in KiB, as GNU time counts it."""
    with tempfile.NamedTemporaryFile("r") as told, open(stdin, "rb") as source:
        subprocess.run(["/usr/bin/time", "-f", "%M", "-o", told.name, *words], stdin=source, stdout=subprocess.DEVNULL,
                       check=True)
        return int(told.read())


def write_octets(work):
    """Writes what the floor reads: of the trace of `input` the octets as upper-case digits alone, `digits`, and those
    of the frames of `report`, `octets`."""
    with open(os.path.join(work, "input")) as lines, open(os.path.join(work, "digits"), "w") as digits:
        digits.writelines(line.split()[-1].upper() for line in lines if line.startswith(("A ", "W ")))
    with open(os.path.join(work, "report")) as lines, open(os.path.join(work, "octets"), "wb") as octets:
        octets.writelines(bytes.fromhex(line.split()[1]) for line in lines if line.startswith(("air ", "wire ")))


def floor_of(work):
    """The least seconds of stock tools for the octets that come in, read, and for those that go out, written. `None`
    where there are neither."""
    out = os.path.join(work, "out")
    tools = [(["basenc", "--base16", "-d"], "digits"), (["basenc", "--base16"], "octets")]
    tools = [(words, os.path.join(work, name)) for words, name in tools]
    tools = [(words, path) for words, path in tools if os.path.getsize(path)]
    if not tools:
        return None
    return min(sum(run(words, path, out).seconds for words, path in tools) for _ in range(RUNS))
