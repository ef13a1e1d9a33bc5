"""Lines of a trace that hold several, whose ends were lost: `A` is a digit too, so that all is read as one frame where
the words among the digits are even in number, or were left out."""
import re
from collections.abc import Collection, Iterable

from explaining.likeness import BEGINNINGS
from explaining.source import Finding, Source, in_full
from explaining.spans import BEFORE_DIGITS, place_of_octets
from frames import BROADCAST
from texts import Line

# The digits of the shortest frame, and where the receiver and the sender of a frame stand among its digits.
LEAST_DIGITS, RECEIVER, SENDER = 32, slice(8, 20), slice(20, 32)
WORD_LEN = 1
BEGINS = re.compile("|".join(sorted(begin.hex() for begin in BEGINNINGS)))
NUMBERS = {2: "two", 3: "three", 4: "four", 5: "five"}


def frames_within(digits: str, bssids: Iterable[bytes], sender: str | None = None,
                  marked: Collection[int] = ()) -> list[int]:
    """Where other frames to one of these networks, or to all, begin among the digits of a line: those of one sender,
    which may begin within an octet, since the word before each is a digit, and those at the places that are marked.
    None stands for the sender of the first such frame."""
    receivers = {address.hex() for address in (*bssids, BROADCAST)}
    found: list[int] = []
    at = LEAST_DIGITS if sender else 0
    while match := BEGINS.search(digits, at):
        at = match.start()
        head = digits[at:at + LEAST_DIGITS]
        is_one = len(head) == LEAST_DIGITS and head[RECEIVER] in receivers and (
            at in marked or head[SENDER] == sender or sender is None and head[SENDER] not in receivers)
        sender = sender or (head[SENDER] if is_one else None)
        found += [at] * is_one
        at += LEAST_DIGITS if is_one else 1
    return found


def words_within(text: str) -> set[int]:
    """The places among the digits of a line at which a word `A` of another line stands before, between spaces."""
    before = BEFORE_DIGITS.match(text)
    rest = text[before.end():] if before else ""
    return {len(rest[:found.end()].replace(" ", "")) for found in re.finditer(r"(?<= )A (?=[0-9A-Fa-f])", rest)}


def cuts(line: Line, bssids: Collection[bytes], text: str = "") -> list[int]:
    """Where the frames of further lines begin within a line, in digits; on a wire there are two at least, since one
    alone would leave half an octet."""
    digits, marked = line.octets.hex(), words_within(text)
    if line.kind == "A":
        return frames_within(digits, bssids, digits[SENDER], marked) if len(digits) >= LEAST_DIGITS else []
    found = frames_within(digits, bssids, None, marked) if line.kind == "W" else []
    return found if len(found) > 1 and any(at % 2 for at in found) else []


def parts_of(digits: str, found: list[int]) -> list[str]:
    """The frames of further lines, without the word that stands before the next one: a digit `a` where it leaves half
    an octet."""
    ends = [*found[1:], len(digits)]
    parts = [digits[begin:end] for begin, end in zip(found, ends)]
    return [part[:-WORD_LEN] if len(part) % 2 else part for part in parts]


def of_joined_frames(lines: Iterable[Line], bssids: Iterable[bytes], traces: list[Source]) -> list[Finding]:
    """Lines that hold several frames, the first of them with its frames, and how many more there are."""
    bssids = list(bssids)
    joined = [(line, found) for line in lines
              if (found := cuts(line, bssids, traces[0].line(line.number) if len(traces) == 1 else ""))]
    if not joined:
        return []
    line, found = joined[0]
    parts = parts_of(line.octets.hex(), found)
    count = len(parts) + 1
    others = f"; so in {len(joined) - 1} more lines" if len(joined) > 1 else ""
    what = "two frames of one sender stand in this line, and the second is read as a part of the first" if count == 2 \
        else f"{NUMBERS.get(count, str(count))} lines stand in this one, and all is read as one frame: the line ends " \
        "between them are missing, and their word `A` is a digit too"
    place = place_of_octets(traces[0], line, (found[0] // 2, len(line.octets))) if len(traces) == 1 else None
    lines_meant = ", ".join(in_full(f"A {part}") for part in parts)
    where = "in the next line" if count == 2 else "in lines of their own"
    return [Finding(f"{what}{others}", place, f"write {lines_meant} {where}")]
