"""Lines `T` that may be meant for one network each: such a line begins a beacon interval in every network."""
from collections.abc import Iterable

from explaining.line_by_line import Step
from explaining.source import Finding, Source
from explaining.spans import also_in
from frames import BEACON, DATA, HEADER_LEN, PLAIN_DATA, Frame, address_text, is_group
from texts import Line, Section


def brings_beacons_alone(step: Step) -> bool:
    """Whether a line begins an interval and brings beacons alone, while nothing is kept that an interval brings on."""
    return step.line.kind == "T" and all(Frame(sent.octets).is_management(BEACON) for sent in step.sent) and \
        not any(section.kept for section in step.before.values())


def runs_of(lines: Iterable[Line]) -> list[list[Line]]:
    """The lines `T` that stand one behind the other, remarks aside."""
    runs: list[list[Line]] = [[]]
    for line in lines:
        if line.kind == "T":
            runs[-1].append(line)
        elif runs[-1]:
            runs.append([])
    return [run for run in runs if run]


def is_for_group(line: Line) -> bool:
    """Whether a line has a unit for the group, which waits for some number of intervals."""
    frame = Frame(line.octets)
    return line.kind == "W" and is_group(line.octets[:6]) or line.kind == "A" and len(line.octets) >= HEADER_LEN and \
        frame.type == DATA and frame.subtype == PLAIN_DATA and is_group(frame.third)


def of_each_network(trace: Source, lines: list[Line], idle: set[int], sections: list[Section]) -> list[Finding]:
    """As many lines `T` together as there are networks, each time, of which all but the first bring beacons alone; or
    lines `T` with a remark before each that names a network. `idle` are the numbers of lines that bring these alone."""
    named = [line for line in lines if line.kind == "T" and names_network(trace, line, sections)]
    runs = runs_of(lines)
    more = [line for run in runs for line in run[1:]]
    if len(sections) < 2 or not more or not all(line.number in idle for line in more):
        return []
    is_one_each = all(len(run) == len(sections) for run in runs) and not any(map(is_for_group, lines))
    if len(named) < 2 and not is_one_each:
        return []
    first = more[0]
    remark = ": a remark names a network for it" * (first in named)
    return [Finding(f"each line `T` begins a beacon interval in all {len(sections)} networks, and this one comes "
                    f"behind another one{remark}{also_in(more, [trace])}", trace.place(first.number, 1, 1),
                    "where each network was meant to have one interval leave it out")]


def names_network(trace: Source, line: Line, sections: Iterable[Section]) -> bool:
    """Whether the remark directly before a line names a network, by its SSID or its address."""
    before = trace.line(line.number - 1)
    names = [name for section in sections for name in (section.name, address_text(section.bssid)) if name]
    return before.startswith("#") and any(name in before for name in names)
