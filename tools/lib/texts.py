"""The program's texts, as docs/FORMATS.md says them: a trace, and a report with a section for each network; and what a
configuration says of units."""
import re
import sys
import tomllib
from typing import NamedTuple, Optional

import standard_input
import toml_text
from frames import address_of, address_text

SEPARATOR = "---"
STATION = re.compile(r"station (\S+) (authenticated|associated aid (\d+) listen (\d+) (active|doze) kept (\d+))")
FIRST_OF_LIVE = re.compile(r"ok \d+")
COUNTS = re.compile(r"events (\d+) clock (\d+) unread (\d+) lost (\d+) kept (\d+)")

# What tools/trace-from-capture writes before a line: which frame of which capture it is, and when it was.
ORIGIN = re.compile(r"# (?:frame (?P<frame>\d+)(?: of (?P<capture>.+))?|(?P<made>made, no frame)), "
                    r"(?P<seconds>-?\d+\.\d+) s\r?")

# The remarks of a record around what the access point didn't send.
RESTORED, RESTORED_TO = "# restored: ", "# restored: up to here"
# Those around units of stations that doze, which came back to the program and by no wire.
HANDED_BACK, HANDED_BACK_TO = "# handed back: ", "# handed back: up to here"


class TextError(Exception):
    """A text that isn't what it is said to be."""


class Line(NamedTuple):
    """A line of a trace that isn't skipped: its number, from 1, and `A`, `W` or `T`."""

    number: int
    kind: str
    bssid: Optional[bytes]
    octets: bytes


class Origin(NamedTuple):
    """Where a line of a trace came from: the number of the captured frame (None where there is none), and the capture's
    own seconds."""

    frame: Optional[int]
    seconds: float


class Options(NamedTuple):
    """What a configuration says of a network's units: how many are kept at most (None: there is no end), whether those
    of stations go to stations and the group on the air, and whether those that are kept for too long are lost."""

    quota: Optional[int]
    relay: bool
    aging: bool


class Station(NamedTuple):
    """A row of a table: `aid` is None where the station is authenticated only."""

    address: bytes
    aid: Optional[int]
    listen: int
    doze: bool
    kept: int


class Section(NamedTuple):
    """What the report says of one network."""

    bssid: bytes
    ssid: bytes
    events: int
    clock: int
    unread: int
    lost: int
    kept: int
    stations: list
    air: list
    wire: list

    @property
    def name(self):
        """The SSID, so that a person can read it, or the BSSID."""
        text = self.ssid.decode("utf-8", "replace")
        return text if text.isprintable() else address_text(self.bssid)


def frames_text(number):
    """So many frames, in words."""
    return "1 frame" if number == 1 else f"{number} frames"


def read_text(path):
    """The text of a file, or of standard input for `-`."""
    if path == standard_input.WORD and sys.stdin is None:
        raise TextError("standard input is closed")
    with open(standard_input.path_of(path), encoding="utf-8", errors="replace", newline="") as file:
        return file.read()


def trace_of(text):
    """A text's lines, or those of the trace where it has a configuration and a line `---` before it."""
    lines = text.split("\n")
    return lines[lines.index(SEPARATOR) + 1:] if SEPARATOR in lines else lines


def read_trace(text):
    """The lines of a trace, as `trace_of` finds them."""
    found = []
    for number, line in enumerate(trace_of(text), 1):
        line = line.removesuffix("\r").rstrip(" ")
        if line and not line.startswith("#"):
            found.append(trace_line(number, line))
    return found


def lines_in(text):
    """How many lines of a trace there are, without reading them."""
    return sum(line[:1] in ("A", "W", "T") for line in trace_of(text))


def read_restored(text):
    """The numbers of the lines by which a new program of an access point came to know stations that had joined before, as
    its record marks them: nobody sent these lines, and what was answered to them wasn't sent."""
    return lines_between(text, RESTORED, RESTORED_TO)


def read_handed_back(text):
    """The numbers of the lines that are units of stations that doze, as a record marks them: no wire brought them."""
    return lines_between(text, HANDED_BACK, HANDED_BACK_TO)


def lines_between(text, mark, end):
    """The numbers of the lines of a trace between a remark that begins so and one that ends it."""
    found, is_between = set(), False
    for number, line in enumerate(trace_of(text), 1):
        if line.startswith(mark):
            is_between = not line.startswith(end)
        elif is_between:
            found.add(number)
    return found


def read_origins(text):
    """Of the lines of a trace that tell it by a remark before them where they came from, by the line's number."""
    found = {}
    for number, line in enumerate(trace_of(text), 2):
        match = ORIGIN.fullmatch(line)
        if match:
            found[number] = Origin(int(match["frame"]) if match["frame"] else None, float(match["seconds"]))
    return found


def read_config(text):
    """The configuration of a text that has one and a line `---` before a trace, as TOML gives it; None where the text
    is a trace alone. TextError where it is no TOML."""
    lines = text.split("\n")
    if SEPARATOR not in lines:
        return None
    try:
        return toml_text.loads("\n".join(lines[:lines.index(SEPARATOR)]))
    except tomllib.TOMLDecodeError as fault:
        raise TextError(f"the configuration is no TOML: {fault}") from None


def join_texts(config, trace):
    """A configuration and a trace as one text, with a line `---` between. TextError where one of them is both."""
    for text in (config, trace):
        if SEPARATOR in text.split("\n"):
            raise TextError(f"a configuration and a trace were named, and one of them has a line {SEPARATOR}, behind "
                            "which a trace stands: leave the other out")
    return f"{config}\n{SEPARATOR}\n{trace}"


def options_of(config):
    """The options of each network of a configuration, by the network's address. A configuration of version 1 doesn't
    name those that it can't choose. TextError where one isn't there, or is of another type."""
    try:
        return {address_of(network["bssid"]): network_options(network) for network in config["network"]}
    except (KeyError, TypeError, AttributeError, ValueError) as fault:
        raise TextError(f"the configuration has a network that can't be read: {fault}") from None


def network_options(network):
    """The options of one network."""
    options = Options(network["quota"], network.get("relay", True), network.get("aging", False))
    if tuple(map(type, options)) != (int, bool, bool):
        raise ValueError("`quota` is a number, `relay` and `aging` are truth values")
    return options


def trace_line(number, line):
    """One line of a trace."""
    words = line.split(" ")
    try:
        if line == "T":
            return Line(number, "T", None, b"")
        if words[0] == "A":
            return Line(number, "A", None, bytes.fromhex("".join(words[1:])))
        if words[0] == "W":
            words = [word for word in words if word]
            return Line(number, "W", address_of(words[1]), bytes.fromhex("".join(words[2:])))
    except (ValueError, IndexError):
        pass
    raise TextError(f"line {number} of the trace is none: {line[:60]}")


def read_report(text):
    """The sections of a report."""
    lines = text.split("\n")
    if lines.pop() != "" or not lines:
        raise TextError("this is no report, whose last line is 'end'")
    sections, at = [], 0
    while at < len(lines):
        try:
            section, at = read_section(lines, at)
        except (ValueError, IndexError, AttributeError):
            raise TextError(f"the section of the report that begins in line {at + 1} can't be read") from None
        sections.append(section)
    return sections


def tables_of_live(text):
    """Of what `live` wrote its tables alone, which are sections without frames; another text as it is. TextError where
    it wrote none."""
    lines = text.split("\n")
    if not FIRST_OF_LIVE.fullmatch(lines[0]):
        return text
    found, is_within = [], False
    for line in lines:
        is_within = is_within or line.startswith("network ")
        if is_within:
            found.append(f"{line}\n")
        is_within = is_within and line != "end"
    if not found:
        raise TextError("`live` wrote no tables here, which it does where `I` asks for them and at its end")
    return "".join(found)


def read_section(lines, at):
    """The section that begins at this place, and the place after it."""
    network, bssid, ssid, name = lines[at].split(" ")
    if (network, ssid) != ("network", "ssid"):
        raise ValueError
    counts = [int(word) for word in COUNTS.fullmatch(lines[at + 1]).groups()]
    section = Section(address_of(bssid), bytes.fromhex(name), *counts, [], [], [])
    at += 2
    while lines[at] != "end":
        word, rest = lines[at].split(" ", 1)
        if word == "station":
            section.stations.append(read_station(lines[at]))
        else:
            {"air": section.air, "wire": section.wire}.get(word).append(bytes.fromhex(rest))
        at += 1
    return section, at + 1


def read_station(line):
    """A row of a table."""
    address, standing, aid, listen, mode, kept = STATION.fullmatch(line).groups()
    if standing == "authenticated":
        return Station(address_of(address), None, 0, False, 0)
    return Station(address_of(address), int(aid), int(listen), mode == "doze", int(kept))
