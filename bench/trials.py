"""What bench/stations and bench/limits share: the input of a trace, the report that it has to bring by the model, and
runs of the program over it."""
import filecmp
import os
import sys
from itertools import zip_longest
from typing import NamedTuple

from common import PROGRAM, in_a_child, run
from model import Radio
from traces import radio_config


class Trial(NamedTuple):
    """A trace that was written: how many lines it has, and in the end how many stations are known and units kept."""

    lines: int
    stations: int
    kept: int


def prepare(work, trace, count, networks, limits):
    """Writes the files `input` and `wanted` of a trace over this many networks with these limits."""
    config = radio_config(networks, **limits)
    radio = Radio(config)
    lines = 0
    with open(os.path.join(work, "input"), "w") as file:
        file.write(config.text() + "---\n")
        for lines, line in enumerate(trace(radio.networks, count), 1):
            radio.take(line)
            file.write(line.text() + "\n")
    with open(os.path.join(work, "wanted"), "w") as file:
        file.writelines(f"{line}\n" for line in radio.report())
    stations = sum(len(network.stations) for network in radio.networks)
    return Trial(lines, stations, sum(network.kept_len for network in radio.networks))


def measure(work, *row, runs):
    """Prepares a trace, and runs the program over it this many times: what was prepared, and what each run took. Ends the
    script where a run's status isn't 0 or its report isn't the wanted one."""
    trial = in_a_child(prepare, work, *row)
    names = [os.path.join(work, name) for name in ("input", "report", "wanted")]
    ran = []
    for _ in range(runs):
        ran.append(run([PROGRAM], *names[:2]))
        if not filecmp.cmp(*names[1:], shallow=False):
            sys.exit(in_a_child(first_difference, *names[1:]))
    return trial, ran


def first_difference(report, wanted):
    """A text of the first line in which two reports differ."""
    with open(report) as found, open(wanted) as right:
        for place, lines in enumerate(zip_longest(found, right, fillvalue="nothing\n"), 1):
            if lines[0] != lines[1]:
                return f"line {place} of the report is {lines[0][:200]!r}, wanted {lines[1][:200]!r}"
    return "the reports are equal"
