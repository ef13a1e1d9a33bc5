"""What a fault of a record of `live --octets` comes of (docs/FORMATS.md, "Lines as they come")."""
import re
from typing import Literal, NamedTuple

import called
from explaining.answers import Fault, read_fault
from explaining.source import Finding, quoted
from frames import address_text
from in_words import octets_text
from records import HEADER_LEN, NOBODY, TOLD, cut, parts

KINDS, MOST_OCTETS = b"AWTI", 4096
WITHOUT_OCTETS = b"TI"
TEXT_LINE = re.compile(rb"(?:[AW] +[0-9A-Fa-f: ]{4,}|T|I|#[^\n]*)\r?\n")


class Layout(NamedTuple):
    """How records may have been written by mistake: what differs, how many octets of a BSSID and of a length they have,
    the order of the length's, what stands behind each record, and how many octets before it a length counts too."""

    what: str
    bssid: int = 6
    length: int = 2
    order: Literal["little", "big"] = "little"
    end: bytes = b""
    counted: int = 0


LAYOUTS = (
    Layout("each length has its high octet first", order="big"),
    Layout("no BSSID stands in a record", bssid=0),
    Layout("no BSSID stands in a record, and each length has its high octet first", bssid=0, order="big"),
    Layout("each length has four octets", length=4),
    Layout("each length has four octets, the high one first", length=4, order="big"),
    Layout("each length has one octet", length=1),
    Layout("a line's end (LF) stands behind each record", end=b"\n"),
    Layout("a line's end (CR LF) stands behind each record", end=b"\r\n"),
    Layout("each length counts the nine octets before it too", counted=HEADER_LEN),
    Layout("each length counts its own two octets too", counted=2),
)


def is_written_so(given: bytes, layout: Layout) -> bool:
    """Whether octets are records of this layout to the last one."""
    place = 0
    while place < len(given):
        begin = place + 1 + layout.bssid + layout.length
        length = int.from_bytes(given[begin - layout.length:begin], layout.order) - layout.counted
        kind, end = given[place:place + 1], begin + length
        is_ended = given.startswith(layout.end, end) or place > 0 and end == len(given)
        if kind not in KINDS or length < 0 or end > len(given) or not is_ended or \
                (length > 0) == (kind in WITHOUT_OCTETS):
            return False
        place = end + len(layout.end)
    return bool(given)


def of_layout(given: bytes) -> Finding | None:
    """Records that were written in another form."""
    try:
        digits = bytes.fromhex(given.decode("ascii"))
    except ValueError:
        digits = b""
    if digits and is_written_so(digits, Layout("")):
        return Finding("standard input is hexadecimal digits, and `live --octets` reads the octets themselves", None,
                       "`xxd -r -p` makes octets of digits")
    layout = next((layout for layout in LAYOUTS if is_written_so(given, layout)), None)
    return None if layout is None or not layout.counted and is_written_so(given, Layout("")) else Finding(
        f"{layout.what}: a record is its kind, a BSSID of six octets, a length of two, the low one first, and so many "
        "octets", None, "it counts the octets behind it alone" if layout.counted else
        "a BSSID of six octets 0 stands in each record but `W`")


def faults_of(output: bytes) -> list[Fault]:
    """The faults that the program told in its records."""
    told = [octets for kind, _, octets in map(parts, cut(output)[0]) if kind == TOLD]
    faults = (read_fault(octets.decode("utf-8", "replace").removesuffix("\n")) for octets in told)
    return [fault for fault in faults if fault]


def explain(given: bytes, fault: Fault, bssids: list[str]) -> list[Finding]:
    """The reason for a fault of a record; none where nothing was found."""
    if TEXT_LINE.match(given):
        return [Finding("standard input is text, and `live --octets` reads records", None,
                        "leave `--octets` out: `live CONFIG` reads lines")]
    layout = of_layout(given)
    if layout:
        return [layout]
    if re.fullmatch(rb"[^\0-\x08\x0e-\x1f\x7f-\xff]+", given):
        return [Finding("standard input is text, and `live --octets` reads records, which have octets that no text has",
                        None, f"{called.document('FORMATS.md')} says how a record is written")]
    whole, rest = cut(given)
    number = fault.line or 0
    if number == len(whole) + 1 and rest:
        return [of_cut(number, rest)]
    if not 1 <= number <= len(whole):
        return []
    kind, bssid, octets = parts(whole[number - 1])
    if fault.code == "L5":
        return [Finding(f"the record {number} has {len(octets):,} octets, and may have {MOST_OCTETS:,}")]
    if fault.code == "L4":
        zeros = "; zeros stand in the other kinds alone" if bssid == NOBODY else \
            "; its octets stand the wrong way round" if address_text(bssid[::-1]) in map(str.lower, bssids) else ""
        return [Finding(f"no network of the configuration has the BSSID {address_text(bssid)} of the record {number}",
                        None, f"its networks have {', '.join(bssids)}{zeros}")]
    return [of_kind(number, kind, bssid, octets)] if fault.code == "L1" else []


def of_kind(number: int, kind: bytes, bssid: bytes, octets: bytes) -> Finding:
    """A record of another kind, or with what its kind doesn't have."""
    if kind not in KINDS:
        kinds = ", ".join(f"`{letter:c}`" for letter in KINDS)
        return Finding(f"the record {number} is of the kind {quoted(kind.decode('latin-1'))}, and kinds are {kinds}",
                       None, "a wrong length of the record before leads here too: it is two octets, the low one first")
    has = ["a BSSID"] * (bssid != NOBODY) + ["octets"] * (bool(octets) and kind != b"A")
    return Finding(f"the record {number}, of the kind `{kind.decode()}`, has {' and '.join(has)}, and has to have none")


def of_cut(number: int, rest: bytes) -> Finding:
    """The input ends within a record."""
    if len(rest) < HEADER_LEN:
        return Finding(f"the input ends within the record {number}, of which it has {octets_text(len(rest))}: a kind, "
                       f"a BSSID and a length are {HEADER_LEN}")
    length = int.from_bytes(rest[HEADER_LEN - 2:HEADER_LEN], "little")
    return Finding(f"the input ends within the record {number}, which says that {length:,} octets follow, and "
                   f"{len(rest) - HEADER_LEN:,} do", None, "its length is two octets, the low one first")
