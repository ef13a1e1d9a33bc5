"""Frames as other programs show them: with places at the left and letters at the right, as arrays of a program's
source, as decimal, octal or binary numbers, in words of several octets, in JSON. Each is read, and what it stands for
is said as a line of a trace."""
import ast
import base64
import json
import re
from collections.abc import Callable, Iterable, Iterator
from enum import Enum, auto
from typing import NamedTuple

from explaining.likeness import BEGINNINGS, LEAST_FRAME, MOST_LIKE, likeness
from explaining.other_programs import DUMP_HEAD, of_capture
from explaining.reason import Reason
from explaining.source import Finding, Source, in_full, quoted
from explaining.wired_types import TYPES
from explaining.written import HEADER, fields_in
from frames import BROADCAST, number
from texts import Line

LEAST_NUMBERS, MOST_ROWS = 2, 300
MOST_HEADINGS, LEAST_WORDS = 4, 2
# What stands before a row: what a log puts before each line, as a time and a name, and the place of its first octet.
BEFORE_ROW = re.compile(r"(?:[^\"'{]*?[:\])>] +)??\s*"
                        r"(?P<place>(?:0x)?[0-9A-Fa-f]{3,16})(?: <[^>]*>)?(?P<mark>[:|]?)[ \t]+")
OCTET = r"(?:25[0-5]|2[0-4]\d|1\d\d|0{0,2}\d|0?\d\d)"
BETWEEN, NO_MORE = r"[ \t]*[,;:|]?[ \t]*", re.compile(r"[\s\"'\])};,\\]*(?://.*|/\*.*|#.*)?")
# The first lines of an array or of a dump that has its octets in the lines after them: what is opened, a remark, the
# numbers of columns.
HEADING = re.compile(r".*[=({\[\"]\s*|\s*(?:/\*.*\*/|//.*)?\s*|[\w ]*\b0?0 +0?1 +0?2 +0?3 .*|"
                     r".*\(\d+ (?:bytes|octets)\):?\s*|" + DUMP_HEAD.pattern + ".*")
PYTHON = re.compile(r"(?:(?:bytes|bytearray)\()?(b(['\"]).*\2)\)?,?")
BASE64 = re.compile(r"[A-Za-z0-9+/]{14,}={0,2}")
DIGITS_ALONE = re.compile("(?:[0-9A-Fa-f]{2} ?)+")
RUN = re.compile(r"(?<![\w.])(?:[0-9A-Fa-f]{2} ?){15,}[0-9A-Fa-f]{2}(?!\w)")
LIKE_DIGITS, LEAST_STRANGE = set("0123456789abcdefABCDEFOoIlxXhH="), 3
LIKE_LETTERS = str.maketrans("OolI", "0011")
RADIOTAP_LEN, TYPE_AT = slice(2, 4), slice(12, 14)
JSON, DIGITS = re.compile(r"\s*(?:\{\s*(?:\"|$)|\[\s*(?:[\[{\"]|$))"), re.compile(r"(?:0x)?(?:[0-9A-Fa-f]{2}[: -]?)+")


class Notation(NamedTuple):
    """How octets are written: what it is called, one number of it, the octets of a number, and how it is told from
    others."""

    name: str
    token: str
    octets: Callable[[str], bytes]
    told_by: "ToldBy"


class ToldBy(Enum):
    """How a notation is told from others: by itself, by a place at the left, or by the frame that it gives alone, or by
    that and by numbers of one digit."""

    ITSELF = auto()
    PLACE = auto()
    PLACE_AND_FRAME = auto()
    FRAME = auto()
    SHORT_NUMBERS = auto()


class Row(NamedTuple):
    """One line of such a text: its octets, whether a place stands at the left, and whether it says that it goes on."""

    octets: bytes
    has_place: bool
    goes_on: bool


class Shown(NamedTuple):
    """A frame of some rows: its notation, its first line, and its rows."""

    notation: Notation
    first: int
    rows: list[Row]

    @property
    def octets(self) -> bytes:
        """All of its octets."""
        return b"".join(row.octets for row in self.rows)


def swapped(token: str) -> bytes:
    """The octets of a number whose low octet comes first in the frame, and stands last in the text."""
    return bytes.fromhex(token.removeprefix("0x"))[::-1]


PROGRAM, DUMP = "octets as a program's source has them", "a hex dump"
NOTATIONS = (
    Notation(PROGRAM, r"0[xX][0-9A-Fa-f]{1,2}(?:_?u8)?\b",
             lambda token: bytes.fromhex(re.sub("_?u8$", "", token[2:]).zfill(2)), ToldBy.ITSELF),
    Notation(PROGRAM, r"\\x\{?[0-9A-Fa-f]{2}\}?", lambda token: bytes.fromhex(token[2:].strip("{}")), ToldBy.ITSELF),
    Notation(DUMP, r"[0-9A-Fa-f]{2}\b", bytes.fromhex, ToldBy.PLACE),
    Notation(DUMP, r"(?:[0-9A-Fa-f]{4}|[0-9A-Fa-f]{2})\b", bytes.fromhex, ToldBy.PLACE),
    *(Notation(f"{DUMP} in numbers of several octets, of each of which the low octet comes last",
               rf"(?:0x)?[0-9A-Fa-f]{{{width}}}\b", swapped, ToldBy.PLACE_AND_FRAME) for width in (4, 8, 16)),
    Notation("octal numbers", r"\\?[0-3][0-7]{2}\b", lambda token: bytes([int(token.lstrip("\\"), 8)]), ToldBy.FRAME),
    Notation("binary numbers", r"(?:0b)?[01]{8}\b", lambda token: bytes([int(token.removeprefix("0b"), 2)]),
             ToldBy.FRAME),
    Notation("octets of which some lack the zero before their digit", r"[0-9A-Fa-f]{1,2}\b",
             lambda token: bytes.fromhex(token.zfill(2)), ToldBy.SHORT_NUMBERS),
    Notation("decimal numbers", rf"(?:-(?:1[01]\d|12[0-8]|[1-9]?\d)|{OCTET})\b",
             lambda token: bytes([int(token) & 0xFF]), ToldBy.FRAME),
)


def shown_frame(source: Source, number: int, begin: int, bssids: Iterable[str]) -> Finding | None:
    """What a frame is that stands in this line from this column on, and perhaps in the lines after it, as another
    program shows it; None where the line shows none."""
    addresses = {bytes.fromhex(bssid.replace(":", "")) for bssid in bssids} | {BROADCAST}
    return of_json(source, number, begin, addresses) or of_rows(source, number, begin, addresses) or \
        of_python(source, number, begin) or of_base64(source, number, begin, addresses)


def other_numbers(text: str, line: Line, bssids: Iterable[bytes]) -> Reason | None:
    """That a line's digits are numbers of another kind: read as those they are a frame to one of these networks or to
    all, and as they stand they are none."""
    addresses = {*bssids, BROADCAST}
    if line.kind != "A" or likeness(line.octets, addresses) == MOST_LIKE:
        return None
    twice = digits_of_digits(line.octets)
    if twice and likeness(twice, addresses) == MOST_LIKE:
        return Reason("its digits are those of letters, which are the digits of the frame: they were written as digits "
                      "twice", (0, len(line.octets)), advice_for("A ", twice))
    begin = len(text) - len(text[1:].lstrip())
    for notation in (notation for notation in NOTATIONS if notation.told_by not in (ToldBy.ITSELF, ToldBy.PLACE)):
        row = of_run(text[begin:], notation, False)
        if row and likeness(row.octets, addresses) == MOST_LIKE:
            name = notation.name.removeprefix(f"{DUMP} in ")
            return Reason(f"its digits are {name}, and a trace has each octet as two hexadecimal digits, in their "
                          f"order",
                          (0, len(line.octets)), advice_for("A ", row.octets))
    return None


def digits_of_digits(octets: bytes) -> bytes:
    """The octets whose hexadecimal digits these are, as letters; nothing where they are none."""
    text = octets.decode("latin-1").strip()
    return bytes.fromhex(text) if len(text) % 2 == 0 and re.fullmatch("[0-9A-Fa-f]+", text) else b""


def of_rows(source: Source, number: int, begin: int, addresses: set[bytes]) -> Finding | None:
    """A frame in rows: in the first notation in which these rows read as one, or in one that is told by itself."""
    found = [shown for notation in NOTATIONS for shown in shown_in(source, number, begin, notation)]
    shown = max(found, key=lambda shown: likeness(shown.octets, addresses), default=None)
    if shown is None or not likeness(shown.octets, addresses):
        shown = next((shown for shown in found if shown.notation.told_by is ToldBy.ITSELF or
                      shown.notation.told_by is ToldBy.PLACE and not begin), None) or \
            next((shown for shown in found if is_list(source.line(number)[begin:])), None)
    if shown is None:
        return None
    last = shown.first + len(shown.rows) - 1
    first = number - (not begin and source.line(number - 1).strip() == "A")
    lines = f" for the lines {source.first + first - 1} to {source.first + last - 1}" if last > first else ""
    more = sum(map(is_first_place, source.lines[last:])) if shown.rows[0].has_place else 0
    lines += f"; so in {more} more frame{'s' * (more > 1)} behind it" * (more > 0)
    line, name = source.line(number).rstrip(), shown.notation.name
    capture = f"; {of_capture()}" if shown.rows[0].has_place else ""
    name = f"what tcpdump prints of a frame, {name}" if DUMP_HEAD.match(line) else name
    return Finding(f"{'this is' if name.startswith(('a ', 'what ')) else 'these are'} {name}, and a trace has one line "
                   "of hexadecimal digits for each frame", source.place(number, begin + 1, len(line) - begin),
                   advice_for(line[:begin] or word_for(shown.octets, addresses), shown.octets) + lines + capture)


def shown_in(source: Source, number: int, begin: int, notation: Notation) -> Iterator[Shown]:
    """The frame that begins in this line in a notation, or in one of the next ones where this is a heading."""
    firsts = [number]
    while begin == 0 and len(firsts) < MOST_HEADINGS and HEADING.fullmatch(source.line(firsts[-1])):
        firsts.append(firsts[-1] + 1)
    for first in firsts:
        rows = list(rows_of(source, first, begin, notation))
        if rows and (rows[0].has_place or notation.told_by not in (ToldBy.PLACE, ToldBy.PLACE_AND_FRAME)):
            yield Shown(notation, first, rows)


def is_list(text: str) -> bool:
    """Whether a text is numbers between brackets."""
    return bool(re.fullmatch(r"\s*[\[({][-\d, ]+[\])}][,;]?\s*", text))


def word_for(octets: bytes, addresses: Iterable[bytes]) -> str:
    """The word of a frame's line: `W` for what isn't like a frame of the air, and has a type where Ethernet has it."""
    is_wired = not likeness(octets, addresses) and octets[TYPE_AT] in TYPES
    return "W BSSID " if is_wired else "A "


def advice_for(before: str, octets: bytes) -> str:
    """The line to write for a frame."""
    length = number(octets[RADIOTAP_LEN])
    if octets[:2] == bytes(2) and 8 <= length <= len(octets) - LEAST_FRAME and octets[4:10] != BROADCAST and \
            octets[length] & 3 == 0:
        return f"write {in_full(before + octets[length:].hex())}, without the {length} octets of radiotap"
    return f"write {in_full(before + octets.hex())}"


def rows_of(source: Source, first: int, begin: int, notation: Notation) -> Iterator[Row]:
    """The rows of one frame, from this line on."""
    before = None
    for at in range(first, min(first + MOST_ROWS, len(source.lines) + 1)):
        line = source.line(at).rstrip()
        row = row_of(line[begin:] if at == first else line, notation, at == first)
        if row is None or before and (row.has_place != before.has_place or
                                      row.has_place and is_first_place(line) or
                                      not row.has_place and not before.goes_on):
            return
        yield row
        before = row


def is_first_place(line: str) -> bool:
    """Whether a row is the first one of its frame, by the place at its left."""
    found = BEFORE_ROW.match(line)
    return bool(found and not found["place"].removeprefix("0x").strip("0"))


def row_of(text: str, notation: Notation, is_first: bool) -> Row | None:
    """A line as a row of numbers of a notation: all of it, but for a place before them and what stands behind."""
    place = BEFORE_ROW.match(text)
    return of_run(text[place.end():], notation, is_first, place) or of_run(text, notation, is_first) if place else \
        of_run(text, notation, is_first)


def of_run(text: str, notation: Notation, is_first: bool, place: re.Match[str] | None = None) -> Row | None:
    """The numbers of a row, behind its place where it has one. Of a frame's first row words may stand before them, as
    of a program, and of a row with a place anything behind them, as its letters."""
    run = rf"{notation.token}(?:{BETWEEN}{notation.token})*"
    may_lead = is_first and place is None
    found = re.search(rf"(?<![\w.-]){run}", text) if may_lead else re.match(rf"[\s\"'{{\[(]*{run}", text)
    tokens = re.findall(notation.token, found[0]) if found else []
    if not found or len(tokens) < LEAST_NUMBERS and may_lead:
        return None
    if notation.told_by is ToldBy.SHORT_NUMBERS and all(len(token) > 1 for token in tokens):
        return None
    if place is None and not NO_MORE.fullmatch(text[found.end():]):
        return None
    is_marked = place is None or place["mark"] or place["place"].startswith("0x")
    if place and not is_marked and (len(place["place"]) == len(tokens[0]) or is_first and place["place"].strip("0")):
        return None
    return Row(b"".join(map(notation.octets, tokens)), place is not None, goes_on(text))


def goes_on(text: str) -> bool:
    """Whether a row says that another one follows."""
    text = re.sub(r"\s*(?:/\*.*\*/|//.*)\s*$", "", text)
    return bool(re.search(r"(?:[,\\\"'({\[]|\.\.\.)\s*$", text)) and not re.search(r"[\])}]\s*[,;]?\s*$", text)


def behind_words(source: Source, number: int, begin: int, bssids: Iterable[str]) -> Finding | None:
    """The digits of a frame behind words of another program: as what it is called with, or behind a name."""
    line = source.line(number).rstrip()
    addresses = {bytes.fromhex(bssid.replace(":", "")) for bssid in bssids} | {BROADCAST}
    runs = [run for place in re.finditer(r"(?<![\w.])(?=[0-9A-Fa-f]{2})", line[begin:])
            if (run := RUN.match(line, begin + place.start()))]
    found = next((run for run in runs if likeness(bytes.fromhex(run[0].replace(" ", "")), addresses)), None)
    octets = bytes.fromhex(found[0].replace(" ", "")) if found else b""
    before = line[begin:found.start()].strip() if found else ""
    is_word = re.search(r"[A-Za-z]{2}|[=(]|\d[.:]\d", before) or begin == 0 and before
    is_digits = re.fullmatch("[0-9A-Fa-f]+", before.translate(LIKE_LETTERS))
    if not found or not before.isascii() or not is_word or is_digits and len(before) % 2 == 0 or \
            is_wrong_header(before.split()) or \
            re.fullmatch("(?:(?:0x)?[0-9A-Fa-f]{2}[ \t]*)+", before):
        return None
    return Finding(f"{quoted(before)} stands before the digits of a frame, and a trace has them alone behind their "
                   f"word",
                   source.place(number, begin + 1, found.start() - begin), advice_for(line[:begin] or "A ", octets))


def is_wrong_header(words: list[str]) -> bool:
    """Whether words are the first fields of a header, but for characters of one of them that are no digits."""
    wrong, place = [word for word in words if re.search("[^0-9A-Fa-f]", word)], 0
    if len(words) < LEAST_WORDS or len(wrong) != 1 or any(len(word) % 2 for word in words):
        return False
    for word in words:
        count = fields_in(HEADER[place:], len(word) // 2)
        if count is None:
            return False
        place += count
    return True


def over_lines(source: Source, number: int) -> Finding:
    """Digits without a word: a frame in this line, and perhaps in the next ones, where they begin no frame."""
    lines = [source.line(number)]
    while DIGITS_ALONE.fullmatch(following := source.line(number + len(lines)).strip()) and \
            likeness(bytes.fromhex(following), {BROADCAST}) < MOST_LIKE and \
            bytes.fromhex(following)[:2] not in BEGINNINGS:
        lines.append(following)
    last = f" for the lines {source.first + number - 1} to {source.first + number + len(lines) - 2}"
    write = lines[0] if len(lines) == 1 else "".join(lines).replace(" ", "")
    return Finding("a line begins with its word: `A` for a frame on the air, `W` for one on the wire",
                   source.place(number, 1, len(lines[0].split(" ")[0])),
                   f"write {in_full('A ' + write)}{last * (len(lines) > 1)}")


def among_marks(source: Source, number: int, begin: int, bssids: Iterable[str]) -> Finding | None:
    """The digits of a frame with marks among them that are neither letters nor digits, as brackets and quotes of
    print."""
    line = source.line(number).rstrip()
    addresses = {bytes.fromhex(bssid.replace(":", "")) for bssid in bssids} | {BROADCAST}
    marks = dict.fromkeys(letter for letter in line[begin:] if not letter.isalnum() and letter != " ")
    digits = re.sub(r"[^\w]|_", "", line[begin:])
    if not marks or len(digits) % 2 or re.search("[^0-9A-Fa-f]", digits) or \
            not likeness(bytes.fromhex(digits), addresses):
        return None
    place = min(line.index(mark, begin) for mark in marks)
    return Finding(f"{' and '.join(map(quoted, marks))} stand{'s' * (len(marks) == 1)} among the digits of a frame, "
                   "and spaces alone may",
                   source.place(number, place + 1), advice_for(line[:begin], bytes.fromhex(digits)))


def whole_frame(source: Source, bssids: Iterable[str]) -> Finding:
    """A file of octets, which may be those of a frame."""
    addresses = {bytes.fromhex(bssid.replace(":", "")) for bssid in bssids} | {BROADCAST}
    is_frame = likeness(source.octets, addresses)
    return Finding(f"{source.name}: this file is octets and no text" +
                   (": they are those of a frame, and a trace has their digits" if is_frame else ""), None,
                   advice_for("A ", source.octets) if is_frame else "`file` says what a file is")


def of_python(source: Source, number: int, begin: int) -> Finding | None:
    """Octets as Python shows them."""
    line = source.line(number).rstrip()
    found = PYTHON.fullmatch(line, begin)
    try:
        octets = bytes(ast.literal_eval(found[1])) if found else b""
    except (SyntaxError, ValueError):
        return None
    return None if not octets else Finding(
        "these are octets as Python shows them, and a frame is hexadecimal digits",
        source.place(number, begin + 1, len(line) - begin), advice_for(line[:begin] or "A ", octets))


def of_json(source: Source, number: int, begin: int, addresses: set[bytes]) -> Finding | None:
    """A frame within JSON, as tshark and scripts write it: a text of digits, or a list of numbers."""
    line = source.line(number).rstrip()
    if begin or not JSON.match(line) or re.match(r"\[\[? *[A-Za-z]", line):
        return None
    try:
        value = json.JSONDecoder().raw_decode("\n".join(source.lines[number - 1:]).lstrip())[0]
    except (ValueError, RecursionError):
        value = None
    octets = next((octets for octets in octets_within(value) if likeness(octets, addresses)), None)
    return Finding("this is JSON, and a trace has a line of its own for each frame", source.place(number, 1, len(line)),
                   "write `A` and its digits" if octets is None else f"{advice_for('A ', octets)} for its first frame")


def octets_within(value: object) -> Iterator[bytes]:
    """The octets that texts of digits and lists of numbers stand for, in JSON."""
    if isinstance(value, str) and DIGITS.fullmatch(value):
        yield bytes.fromhex(re.sub("^0x|[: -]", "", value))
    elif isinstance(value, str) and BASE64.fullmatch(value):
        yield base64.b64decode(value + "=" * (-len(value) % 4 or 0))
    elif isinstance(value, list) and value and all(isinstance(item, int) and 0 <= item <= 255 for item in value):
        yield bytes(value)
    elif isinstance(value, (list, dict)):
        for item in value if isinstance(value, list) else value.values():
            yield from octets_within(item)


def of_base64(source: Source, number: int, begin: int, addresses: set[bytes]) -> Finding | None:
    """A frame in base64: letters that are no digits, and a frame that may be read behind them."""
    line = source.line(number).rstrip()
    text = line[begin:].strip()
    if not BASE64.fullmatch(text) or len(set(text) - LIKE_DIGITS) < LEAST_STRANGE:
        return None
    try:
        octets = base64.b64decode(text + "=" * (-len(text) % 4))
    except ValueError:
        return None
    if not likeness(octets, addresses):
        return None
    return Finding("this is a frame in base64, and a trace has its octets as hexadecimal digits",
                   source.place(number, begin + 1, len(text)), advice_for(line[:begin] or "A ", octets))
