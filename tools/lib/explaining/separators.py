"""The line `---` between a configuration and its trace: what was meant as one, and lines of a trace before which it is
missing."""
import re

import called
from explaining.no_key import FOR_YAML, is_yaml
from explaining.source import Finding, Place, Source, quoted

TRACE_LINE = re.compile(r"(?:[AW] +[0-9A-Fa-f: ]{4,}|T|A|W)\s*\r?")
SEPARATOR_LIKE = re.compile(r"\s*(?:-\s*){2,}\r?|\s*(?P<mark>[*_~+])(?P=mark){2,}\s*|"
                            r"\s*-*[\u2010-\u2015\u2212][-\u2010-\u2015\u2212]*\s*"
                            r"|\s*={3,}\s*|\s*-{3,}\s*#.*")
HIDDEN_SEPARATOR = re.compile(r"\s*[#;/]+\s*-{3,}.*")
# A key with its value, and right behind it the beginning of what should be the next line.
JOINED = re.compile(r"(\s*[\w-]+\s*=\s*(?:true|false|[0-9]+(?!T)|\"[^\"]*\"|'[^']*'))\s*"
                    r"(\[\[? *network *\]\]?|-{3,}|[AW] +[0-9A-Fa-f: ]{4,}|T)\s*")


def of_trace(source: Source, place: Place, line: str, wants_trace: bool) -> Finding | None:
    """A line of a trace, or what was meant as the line between the parts."""
    where = source.place(place.line, 1, len(line) or 1)
    if SEPARATOR_LIKE.fullmatch(line):
        first = next((number for number in range(place.line + 1, len(source.lines)) if source.line(number).strip()), 0)
        if is_yaml(source, first):
            return Finding("this is YAML, and a configuration is TOML", where, FOR_YAML)
        if line == "---":
            return Finding("a line `---` and a trace aren't a part of a configuration's file", where,
                           f"such a text is for standard input: `{called.program()} < {source.name}`")
        if line == "---\r":
            return Finding("this line ends with CR LF, so it isn't the line `---` between a configuration and its "
                           "trace", where, "`sed 's/\\r$//'` takes the CRs off")
        unlike = unlike_separator(line)
        return Finding(f"this isn't the line `---` between a configuration and its trace{unlike}", where, "write three "
                       "hyphens, and nothing before or after them" + ("" if wants_trace else
                                                                                  ", in a text for standard input"))
    if wants_trace and re.match(r"-{3,} *\w", line) and TRACE_LINE.fullmatch(next_line(source, place.line)):
        return Finding("this isn't the line `---` between a configuration and its trace: words stand behind it", where,
                       f"write `---` alone, and `# {line.lstrip('- ')}` in a line before it")
    if TRACE_LINE.fullmatch(line) and wants_trace:
        return of_trace_line(source, place, where)
    if TRACE_LINE.fullmatch(line):
        advice = "the trace has a file of its own behind the configuration's; in one text a line `---` stands before it"
        return Finding("this is a line of a trace, and belongs to no configuration", where, advice)
    return None


def next_line(source: Source, number: int) -> str:
    """The next line that isn't empty and no remark."""
    return next((line for line in source.lines[number:] if line.strip() and line[0] != "#"), "")


def unlike_separator(line: str) -> str:
    """What makes a line another one than `---`."""
    text = line.strip()
    if text == "---":
        return ": a blank stands " + ("before" if line[0] != "-" else "behind") + " it"
    if not text.strip("-"):
        return f": it has {len(text)} hyphens"
    return ": a remark stands behind it" if text.startswith("---") else ""


def of_trace_line(source: Source, place: Place, where: Place) -> Finding:
    """A line of a trace before which the line `---` is missing, or the configuration."""
    said = "this is a line of a trace, and belongs to no configuration"
    numbers = [number for number in range(1, place.line) if source.line(number).strip()]
    before = [number for number in numbers if not source.line(number).lstrip().startswith("#")]
    hidden = next((number for number in reversed(numbers) if HIDDEN_SEPARATOR.fullmatch(source.line(number))), None)
    if hidden and hidden > max(before, default=0):
        return Finding(f"{said}; the line `---` before it is a remark, since it begins with `#`",
                       source.place(hidden, 1, len(source.line(hidden))), "write `---` alone there")
    if not before:
        return Finding(f"{said}: the configuration is missing, which comes first, before a line `---`", where,
                       "write the configuration and a line `---` before the trace")
    return Finding(said, where, "write a line `---` before the trace")


def of_joined(source: Source, place: Place, line: str, wants_trace: bool) -> Finding | None:
    """A line without its end, so that the next one stands behind it."""
    found = JOINED.fullmatch(line)
    if not found:
        return None
    key, rest = found[1].strip(), found[2].strip()
    is_trace = rest[0] in "AWT"
    write = f"write `{key}`, and {quoted(rest)} in the next line"
    if is_trace or rest[0] == "-":
        write = f"write `{key}`, then a line `---`" + f", then {quoted(rest)}" * is_trace if wants_trace else \
            f"write `{key}`: the trace has a file of its own"
    return Finding(f"two lines are joined here: {quoted(key)} and {quoted(rest)}",
                   source.place(place.line, found.start(2) + 1, len(rest)), write)
