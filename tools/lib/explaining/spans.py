"""Where the octets of a frame stand in the line of its trace."""
import re

from explaining.source import Place, Source
from texts import Line

MOST_ALSO = 8
BEFORE_DIGITS = re.compile(r"A ?|W +[^ ]+ *")


def place_of(traces: list[Source], line: Line, span: tuple[int, int] | None = None) -> Place | None:
    """Where a line or these octets of it stand, where there is one trace."""
    return place_of_octets(traces[0], line, span) if len(traces) == 1 else None


def place_of_octets(trace: Source, line: Line, span: tuple[int, int] | None) -> Place:
    """The place of these octets, from one up to another; the whole line where none are named."""
    text = trace.line(line.number).rstrip()
    match = BEFORE_DIGITS.match(text)
    if span is None or match is None or not line.octets:
        return trace.place(line.number, 1, len(text))
    digits = [at for at in range(match.end(), len(text)) if text[at] != " "]
    begin = min(2 * span[0], len(digits) - 1)
    end = max(begin, min(2 * span[1], len(digits)) - 1)
    return trace.place(line.number, digits[begin] + 1, digits[end] - digits[begin] + 1)


def also_in(lines: list[Line], traces: list[Source]) -> str:
    """The numbers of the lines behind the first one of which the same is told, the first few of them."""
    if len(traces) != 1 or len(lines) < 2:
        return ""
    numbers = ", ".join(str(traces[0].first + line.number - 1) for line in lines[1:MOST_ALSO + 1])
    more = len(lines) - 1 - MOST_ALSO
    return f"; so in line{'s' * (len(lines) > 2)} {numbers}" + (f" and {more} more" if more > 0 else "")
