"""Lines of a configuration that are no TOML for the same cause as the first one: how many more there are, and where."""
import re
from collections.abc import Callable
from dataclasses import replace

from explaining.source import Finding, Source
from explaining.toml_scan import NoToml, scan

QUOTED = re.compile("`[^`]*`")
MOST_NAMED, MOST_LOOKED = 8, 5000
WHOLE = ("this is ", "this text is ")
SAID_ALREADY = ("; so in line", "stands a second time", "other lines too")


def with_others(source: Source, finding: Finding, explain_line: Callable[[NoToml], Finding]) -> Finding:
    """A finding with the numbers of the lines behind it of which the same is to be said, each read by itself."""
    place = finding.place
    is_whole = finding.text.startswith(WHOLE) and "YAML" not in finding.text
    if place is None or is_whole or any(words in finding.text + (finding.advice or "") for words in SAID_ALREADY):
        return finding
    numbers = []
    begin = sum(len(line) + 1 for line in source.lines[:place.line])
    for number, line in enumerate(source.lines[place.line:place.line + MOST_LOOKED], place.line + 1):
        fault = fault_of(line, begin)
        if fault is not None and is_same(finding, explain_line(fault), number):
            numbers.append(source.first + number - 1)
        begin += len(line) + 1
    if not numbers:
        return finding
    more = f" and {len(numbers) - MOST_NAMED} more" * (len(numbers) > MOST_NAMED)
    named = ", ".join(map(str, numbers[:MOST_NAMED]))
    return replace(finding, text=f"{finding.text}; so in line{'s' * (len(numbers) > 1)} {named}{more}")


def fault_of(line: str, begin: int) -> NoToml | None:
    """Why a line by itself is no TOML, with places in the text in which it begins there; None where it is."""
    try:
        scan(line.removesuffix("\r"))
    except NoToml as fault:
        return NoToml(fault.expected, begin + fault.begin, begin + fault.end, fault.key)
    except RecursionError:
        pass
    return None


def is_same(one: Finding, other: Finding, number: int) -> bool:
    """Whether the same is said of another line, but for the words that are quoted there."""
    return other.place is not None and other.place.line == number and \
        QUOTED.sub("`", one.text) == QUOTED.sub("`", other.text)
