"""Lines of a trace that hold more than one, or stand as a table's: two frames in a line, values that are separated by
commas, and a number of beacon intervals at once."""
import re

from explaining.source import Finding, Place, Source, in_full, quoted

SEPARATORS = (",", ";", "\t", "|")
HEXADECIMAL = re.compile(r"(?:0x)?(?:[0-9A-Fa-f]{2}[ :]?){10,}")
ADDRESS = re.compile(r"[0-9A-Fa-f]{2}(?::[0-9A-Fa-f]{2}){5}")
SEVERAL = re.compile(r"T ?[*x\u00d7=:+]? ?(\d+)|(\d+) ?[*x\u00d7]? ?T")
WORD_WITHIN = re.compile(r"(?<=[0-9A-Fa-f])[ ;,|/]*[ ;,|/]([AW] +[0-9A-Fa-f]|T *$)")
REMARK = re.compile(r"(?://|--|/\*|[;!%]) *(?=.*[^0-9A-Fa-f\s.:;,|/!%*-])")
LEAST_FIELDS = 2


def of_table(source: Source, number: int, line: str) -> Finding | None:
    """A row of a table, or its heading."""
    separator = max(SEPARATORS, key=line.count)
    if line.count(separator) < (2 if separator == "\t" else 1):  # a TAB alone stands where a space has to
        return None
    place = source.place(number, 1, len(line))
    row = row_of(line, separator)
    name = {",": "commas (CSV)", ";": "semicolons", "\t": "TABs", "|": "bars"}[separator]
    if row:
        return Finding(f"this is a row of values separated by {name}, and a line of a trace has its word, a space and "
                       "the frame's digits", place, f"write {in_full(row)}")
    has_rows = any(row_of(later, separator) for later in source.lines[number:number + 3])
    if has_rows and re.match(r"[\w\"' .-]+" + re.escape(separator), line) and not re.search(r"[0-9A-Fa-f]{12}", line):
        return Finding(f"this is the heading of a table, whose values are separated by {name}, and a trace has "
                       f"none", place,
                       "leave it out, or begin it with `#`")
    return None


def row_of(line: str, separator: str) -> str | None:
    """The line of a trace that a table's row stands for."""
    values = [value.strip(" \"'\r") for value in line.split(separator)]
    word = next((value.upper() for value in values if value.upper() in ("A", "W", "T")), None)
    frames = [re.sub("^0x|[ :]", "", value) for value in values if HEXADECIMAL.fullmatch(value)]
    if word == "T" and not frames:
        return "T"
    if len(frames) != 1:
        return None
    bssid = next((value for value in values if ADDRESS.fullmatch(value)), None)
    return f"W {bssid or 'BSSID'} {frames[0]}" if word == "W" else f"A {frames[0]}"


def of_fields(source: Source, number: int, line: str) -> Finding | None:
    """A frame whose fields are separated by commas, semicolons or the like, as a table of a spreadsheet has them."""
    found = re.fullmatch(r"[\"']?([AaWw])[\"']?([,;|\t])(.+)", line)
    if not found or found[3].count(found[2]) < LEAST_FIELDS:
        return None
    fields = [field.strip(" \"'") for field in found[3].split(found[2])]
    if not all(re.fullmatch(r"(?:[0-9A-Fa-f]{2})+|[0-9A-Fa-f]{2}(?::[0-9A-Fa-f]{2}){5}|", field) for field in fields):
        return None
    also = sum(found[2] in other for other in source.lines) - 1
    name = {",": "commas", ";": "semicolons", "|": "bars", "\t": "TABs"}[found[2]]
    more = f"; so in {also} more line{'s' * (also > 1)}" if also > 0 else ""
    return Finding(f"{name} stand between the fields, as a table (CSV) has them, and a trace has spaces there",
                   source.place(number, found.start(2) + 1),
                   f"write {in_full(' '.join([found[1].upper(), *filter(None, fields)]))}{more}")


def of_several_intervals(line: str, place: Place) -> Finding | None:
    """`T` with a number, or several of them."""
    if re.fullmatch("T(?:[ ,;]*T)+", line):
        return Finding("each `T` begins one beacon interval, and has a line of its own", place,
                       f"write {line.count('T')} lines `T`")
    found = SEVERAL.fullmatch(line.strip())
    count = found and (found[1] or found[2])
    if not count or int(count) < 2:
        return None
    return Finding("`T` begins one beacon interval, and no number stands with it",
                   place.part(line.strip().strip("T ")), f"write {count} lines `T`")


def of_second_line(source: Source, number: int, line: str) -> Finding | None:
    """The word of another line among the digits."""
    found = WORD_WITHIN.search(line)
    if not found:
        return None
    rest = line[found.start(1):]
    if not line[1:found.start(1)].strip():
        return Finding(f"the word `{rest[0]}` stands twice", source.place(number, found.start(1) + 1),
                       f"write {in_full(rest)}")
    return Finding(f"a second line begins here, with its word `{rest[0]}`: each frame has a line of its own",
                   source.place(number, found.start(1) + 1, len(rest)), f"write {in_full(rest)} in the "
                                                                        f"next line")


def of_two_words(source: Source, number: int, line: str) -> Finding | None:
    """A line `T` and the next one, which were joined into one."""
    found = re.match(r"(T+)[ ,;]*(?=[AW] +[0-9A-Fa-f])", line)
    if not found:
        return None
    return Finding(f"two lines are joined here: {quoted(found[1])}, and one that begins with "
                   f"{quoted(line[found.end()])}",
                   source.place(number, 1, found.end() + 1),
                   f"write `T`, and {in_full(line[found.end():])} in the next line")


def of_remark(source: Source, number: int, line: str, at: int) -> Finding | None:
    """A remark behind a frame, as other languages write remarks."""
    if not REMARK.match(line, at):
        return None
    return Finding("a remark has a line of its own, which begins with `#`, and here one stands behind a frame",
                   source.place(number, at + 1, len(line) - at), "move it to a line before this one")
