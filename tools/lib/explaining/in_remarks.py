"""Keys and lines `[[network]]` of a configuration that stand behind `#`, as remarks, where they should count."""
import re

from collections.abc import Collection, Iterator

from explaining.source import Finding, Place, Source, quoted
from explaining.toml_scan import worth_of_bare

BEFORE = r"(?P<before>[^#\n\"']*)#[^\w\n\"'\[]*(?:(?:define|set|option|key)\s+)?"
HEADER = re.compile(r"\s*#[^\w\n\[]*\[\[? *network *\]\]?\s*")
VALUE = r"(?P<value>\"[^\"\n]*\"|'[^'\n]*'|[\w.+-]+)\s*(?:#.*)?"


def key_in_remark(source: Source, key: str, where: str, begin: int, end: int) -> Finding | None:
    """A key with a value behind `#`, in one of the lines from one number up to another."""
    line_of_it = re.compile(rf"{BEFORE}{key}\s*[=: ]\s*{VALUE}", re.I)
    for number in range(begin, min(end, len(source.lines) + 1)):
        found = line_of_it.fullmatch(source.line(number).rstrip())
        if found and is_value(found["value"]):
            place, write = place_of_mark(source, number), f"write `{key} = {found['value']}`"
            return Finding(f"`{key}` stands behind `#` here, as a remark, and is missing {where}", place,
                           f"{write} in a line of its own" if found["before"].strip() else f"{write}, without `#`")
    return None


def is_value(text: str) -> bool:
    """Whether a text is a value of TOML."""
    return text[0] in "\"'" or bool(worth_of_bare(text)[0])


def header_in_remark(source: Source, begin: int, end: int) -> Place | None:
    """A line `[[network]]` behind `#`, the last one before a line that should stand below it."""
    numbers = [number for number in range(begin, end) if HEADER.fullmatch(source.line(number))]
    return place_of_mark(source, numbers[-1]) if numbers else None


def of_header(place: Place) -> Finding:
    """What is said of such a line."""
    return Finding("`[[network]]` stands behind `#` here, as a remark: it begins no network", place,
                   "write `[[network]]`, without `#`, where the keys below it are of a network of their own")


def networks_in_remarks(source: Source, addresses: Collection[str], names: Collection[str]) -> Iterator[Finding]:
    """Networks of these addresses or names, which the trace's frames are to, and which stand in remarks alone."""
    for key, wanted in (("bssid", {address.lower() for address in addresses}), ("ssid", set(names))):
        line_of_it = re.compile(rf"{BEFORE}{key}\s*[=: ]\s*{VALUE}", re.I)
        for number, line in enumerate(source.lines, 1):
            found = line_of_it.fullmatch(line.rstrip()) if "#" in line else None
            value = found["value"].strip("\"'") if found else ""
            if value in wanted or key == "bssid" and value.lower() in wanted:
                wanted -= {value, value.lower()}
                yield Finding(f"the network {quoted(value)}, which frames of this trace are to, stands behind `#`, as "
                              "remarks: it isn't there", place_of_mark(source, number),
                              "take the `#` of its lines away, of its `[[network]]` too")


def names_cut(source: Source, names: Collection[str]) -> Iterator[Finding]:
    """Names that the trace asks for, and that the configuration has with a part of them behind `#`."""
    for number, line in enumerate(source.lines, 1):
        found = re.fullmatch(r"\s*ssid\s*=\s*([\"'])(.*?)\1(\s*)#(.*)", line.rstrip())
        meant = [name for name in names if found and name.startswith(found[2]) and
                 name[len(found[2]):].replace(" ", "") == f"#{found[4]}".replace(" ", "")]
        if meant:
            yield Finding(f"the name ends before `#`, and a remark begins there; frames of this trace ask for "
                          f"{quoted(meant[0])}", place_of_mark(source, number), f'write `ssid = "{meant[0]}"`')


def place_of_mark(source: Source, number: int) -> Place:
    """The `#` of a line and what stands behind it."""
    line = source.line(number).rstrip()
    at = line.index("#")
    return source.place(number, at + 1, len(line) - at)
