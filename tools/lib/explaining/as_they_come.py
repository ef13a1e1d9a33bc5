"""Lines and records that `live` answered as they came, and that had no fault: what those did that aren't served, as of
the lines of a trace."""
from collections.abc import Collection, Iterator

from explaining.configuration import networks_of
from explaining.line_by_line import steps
from explaining.outcomes import Outcomes
from explaining.source import Finding, Source, in_order
from frames import address_text
from records import cut, parts
from texts import Line, TextError, trace_line

ASKING = "I"  # the line that asks for the tables


def lines_of(given: Source, faulty: Collection[int]) -> Iterator[Line]:
    """The lines that a network may have taken; those with these numbers had a fault."""
    for number, text in enumerate(given.lines, 1):
        text = text.removesuffix("\r").rstrip(" ")
        if number in faulty or not text or text.startswith("#") or text == ASKING:
            continue
        try:
            yield trace_line(number, text)
        except TextError:
            pass


def as_lines(name: str, records: bytes) -> Source:
    """Records as the lines that say the same, each with the number of its record."""
    lines = []
    for kind, bssid, octets in map(parts, cut(records)[0]):
        words = [kind.decode("ascii", "replace")] + [address_text(bssid)] * (kind == b"W") + [octets.hex()]
        lines.append(" ".join(filter(None, words)))
    return Source(f"{name}, each record as a line", "".join(f"{line}\n" for line in lines).encode())


def odd(config: Source, given: Source, faulty: Collection[int], program: str) -> list[Finding]:
    """What is odd in lines that had no fault."""
    lines = list(lines_of(given, faulty))
    outcomes = Outcomes(given, networks_of(config), lines, has_sums=False, config=config)
    count = 0
    for count, step in enumerate(steps(program, config.octets, lines), 1):
        outcomes.take(step)
    outcomes.left_out = lines[count:]
    return in_order(outcomes.findings(), config)
