"""What is odd in several traces that are played at once."""
from collections.abc import Iterable
from itertools import islice

from explaining.source import Finding, Source
from frames import (ASSOCIATION_REQUEST, AUTHENTICATION, DATA, DISASSOCIATION, MANAGEMENT, REASSOCIATION_REQUEST,
                    Frame, address_text)
from in_words import kind_text
from texts import Line

MOST_NAMED, MOST_NUMBERS, LEAST_LENGTH = 3, 5, 16
ASSOCIATIONS = (ASSOCIATION_REQUEST, REASSOCIATION_REQUEST)
# What a frame needs before it: the addresses of the network and the station, and whether it is an association.
Needed = tuple[bytes, bool]


def of_intervals(traces: list[Source]) -> list[Finding]:
    """Several traces that begin beacon intervals."""
    same = next(((one, other) for place, one in enumerate(traces) for other in traces[:place]
                 if one.octets == other.octets and one.octets.strip()), None)
    if same:
        return [Finding(f"the traces {same[1].name} and {same[0].name} are the same: each frame of them is taken twice",
                        None, "leave one of them out")]
    ticks = [(trace, [number for number, line in enumerate(trace.lines, trace.first) if line.rstrip("\r ") == "T"])
             for trace in traces]
    ticking = [(trace, len(numbers)) for trace, numbers in ticks if numbers]
    if len(ticking) < 2:
        return []
    named = ", ".join(f"{trace.name} has {len(numbers)} ({numbered(numbers)})"
                      for trace, numbers in [pair for pair in ticks if pair[1]][:MOST_NAMED])
    return [Finding(f"lines `T` stand in {len(ticking)} of the traces ({named}), and each begins an interval in every "
                    f"network: {sum(count for _, count in ticking)} in all", None,
                    f"leave them in one of the traces, as {ticking[0][0].name}, and take them out of the others")]


def numbered(numbers: list[int]) -> str:
    """Lines by their numbers, the first few of them."""
    more = " .." if len(numbers) > MOST_NUMBERS else ""
    return f"line{'s' * (len(numbers) > 1)} {', '.join(map(str, numbers[:MOST_NUMBERS]))}{more}"


def of_order(traces: list[Source], lines: list[list[Line]], bssids: Iterable[bytes]) -> list[Finding]:
    """Frames of stations that need an earlier one, which stands in another trace: no order holds between them."""
    if len(traces) < 2:
        return []
    networks = set(bssids)
    frames = [[(line, Frame(line.octets)) for line in of_one if line.kind == "A" and len(line.octets) >= LEAST_LENGTH
               and line.octets[4:10] in networks] for of_one in lines]
    firsts = [firsts_of(of_one) for of_one in frames]
    found: dict[tuple[Needed, int], tuple[Line, Frame, int]] = {}
    for place, of_one in enumerate(frames):
        for line, frame in of_one:
            is_join = frame.type == MANAGEMENT and frame.subtype in ASSOCIATIONS
            is_later = frame.type == DATA or frame.is_management(DISASSOCIATION)
            if not is_join and not is_later:
                continue
            needed = (line.octets[4:16], is_later)
            other = next((at for at, first in enumerate(firsts) if at != place and needed in first), None)
            if other is not None and firsts[place].get(needed, line.number) >= line.number:
                found.setdefault((needed, place), (line, frame, other))
    return [before_it(traces, place, needed, *what, firsts[what[2]][needed])
            for (needed, place), what in islice(found.items(), MOST_NAMED)]


def firsts_of(frames: list[tuple[Line, Frame]]) -> dict[Needed, int]:
    """The first line of a trace in which each station authenticates, and in which it asks to associate, by the
    addresses of the network and the station."""
    firsts: dict[Needed, int] = {}
    for line, frame in frames:
        if frame.type == MANAGEMENT and frame.subtype in (AUTHENTICATION, *ASSOCIATIONS):
            firsts.setdefault((line.octets[4:16], frame.subtype != AUTHENTICATION), line.number)
    return firsts


def before_it(traces: list[Source], place: int, needed: Needed, line: Line, frame: Frame, other: int,
              number: int) -> Finding:
    """What is said of a frame, and of what has to come before it."""
    what = "association request" if needed[1] else "authentication"
    trace = traces[place]
    length = len(trace.line(line.number).rstrip()) or 1
    return Finding(f"no order holds between the lines of different traces: {kind_text(line.octets)} of "
                   f"{address_text(frame.transmitter)} stands here, and its {what}, which has to come before, in "
                   f"{traces[other].name}, line {number}", trace.place(line.number, 1, length),
                   "put the lines of one station into one trace")
