"""Lines of a report that stand in a trace: what the program answers, and not what came to its networks."""
import re

from explaining.source import Finding, Source

KINDS = ((re.compile(r"network [0-9a-f:]{17} ssid [0-9a-f]*"), "the line with which a network's report begins"),
         (re.compile(r"events \d+ clock \d+.*"), "the counts of a network"),
         (re.compile(r"station [0-9a-f:]{17} .*"), "a row of a network's table of stations"),
         (re.compile(r"air [0-9a-f]+"), "a frame that a network sent on the air"),
         (re.compile(r"wire [0-9a-f]+"), "a frame that a network sent on its wire"),
         (re.compile(r"end"), "the line with which a network's report ends"))
GOOD = re.compile(r"(?:[AW] +[0-9A-Fa-f][0-9A-Fa-f: ]*|T) *\r?")
MOST_NAMED = 8


def kind_of(line: str) -> str | None:
    """Which line of a report this is; None where it is none."""
    return next((kind for pattern, kind in KINDS if pattern.fullmatch(line.rstrip("\r "))), None)


def of_report(source: Source, number: int) -> Finding | None:
    """A line of a report, alone among lines of a trace, or with the rest of the report."""
    kind = kind_of(source.line(number))
    if kind is None:
        return None
    others = [other for other, line in enumerate(source.lines, 1) if other > number and kind_of(line)]
    more = f" and {len(others) - MOST_NAMED} more" * (len(others) > MOST_NAMED)
    named = ", ".join(str(source.first + other - 1) for other in others[:MOST_NAMED])
    also = f"; lines of a report stand in line{'s' * (len(others) > 1)} {named}{more} too" if others else ""
    is_among = any(GOOD.fullmatch(line) for line in source.lines)
    written = f"where the report was written over the trace, as by `> {source.name}`, which empties a file before it " \
        "is read, take the trace from a copy, and write the report to another file"
    return Finding(f"this is a line of a report, and no trace: {kind}{also}",
                   source.place(number, 1, len(source.line(number).rstrip()) or 1),
                   f"leave {'these lines' if others else 'the line'} out: a report is what the program answers, and a "
                   "trace is what comes to its networks" if is_among else written)
