"""Which field of a frame has an octet too few or too many, by how its line is written: people put spaces between
fields. What follows such a field is read elsewhere than it was meant, so that no other reason is one."""
from collections.abc import Collection
from dataclasses import dataclass
from itertools import accumulate

from explaining.reason import Reason
from explaining.spans import BEFORE_DIGITS
from explaining.wired_types import packet_type
from frames import BROADCAST, CONTROL, PS_POLL, Frame
from in_words import octets_text
from texts import Line

ADDRESS_LEN, LEAST_GROUPS, MOST_OFF = 6, 3, 2
PREAMBLE, DELIMITER, LEAST_PREAMBLE = bytes([0x55] * 7), b"\xd5", 4
NUMBERS = {ADDRESS_LEN: "an address has six", 2: "it has two"}
TYPE = "the type"
Fields = tuple[tuple[str, int], ...]
HEADER: Fields = (("Frame Control", 2), ("Duration", 2), ("Address 1", ADDRESS_LEN), ("Address 2", ADDRESS_LEN),
                  ("Address 3", ADDRESS_LEN), ("Sequence Control", 2))
POLL: Fields = (("Frame Control", 2), ("AID", 2), ("Address 1", ADDRESS_LEN), ("Address 2", ADDRESS_LEN))
WIRED: Fields = (("the destination", ADDRESS_LEN), ("the source", ADDRESS_LEN), (TYPE, 2))


@dataclass(frozen=True)
class Known:
    """The addresses of networks and of stations, which a line may mean."""

    bssids: Collection[bytes] = ()
    stations: Collection[bytes] = ()

    def meant(self, name: str, octets: bytes) -> bytes | None:
        """The address in the place of one with an octet too few or too many."""
        nearest = [*self.bssids, *self.stations] if name == "Address 1" else [*self.stations, *self.bssids]
        nearest += [BROADCAST] * (name != "Address 2")
        return next((address for address in nearest if is_one_off(address, octets)), None)


def preamble(line: Line) -> Reason | None:
    """The octets that go before a frame on a wire (IEEE Std 802.3, 3.2.1), and are none of it."""
    if line.kind != "W" or not line.octets.startswith(PREAMBLE[:LEAST_PREAMBLE]):
        return None
    end = next((at for at, octet in enumerate(line.octets) if octet != PREAMBLE[0]), 0)
    end += line.octets[end:end + 1] == DELIMITER
    return Reason("the preamble of Ethernet stands before the frame, which begins with its destination", (0, end),
                  f"leave `{line.octets[:end].hex()}` out")


def misfit(text: str, line: Line, known: Known) -> Reason | None:
    """The field whose octets, as a line is written, are too few or too many; None where all fit, or where spaces don't
    stand between fields."""
    groups = groups_of(text)
    fields = WIRED if line.kind == "W" else POLL if is_poll(line.octets) else HEADER
    is_other = fields is HEADER and len(line.octets) > 1 and Frame(line.octets).type == CONTROL
    if line.kind == "T" or is_other or len(groups) < LEAST_GROUPS or ADDRESS_LEN not in groups:
        return None
    place = begin = 0
    for number, length in enumerate(groups):
        count = fields_in(fields[place:], length)
        is_too_long = fields is POLL and length > sum(size for _, size in fields[place:])
        if count is None or is_too_long:
            return Slip(fields, place, groups[number:], line.octets, begin).told(known)
        place, begin = place + count, begin + length
        if place == len(fields):
            return None
    return None


def groups_of(text: str) -> list[int]:
    """How many octets each group of digits has; none where one has half an octet."""
    before = BEFORE_DIGITS.match(text)
    words = text[before.end():].split() if before else []
    return [] if any(len(word) % 2 for word in words) else [len(word) // 2 for word in words]


def is_poll(octets: bytes) -> bool:
    """Whether a frame begins as a PS-Poll does."""
    return len(octets) > 1 and Frame(octets).type == CONTROL and Frame(octets).subtype == PS_POLL


def fields_in(fields: Fields, length: int) -> int | None:
    """How many of the next fields a group has, all of them where it goes on behind the last; None where it ends within
    one."""
    ends = list(accumulate(size for _, size in fields))
    if not ends or length > ends[-1]:
        return len(fields)
    return ends.index(length) + 1 if length in ends else None


def fits(fields: Fields, groups: list[int]) -> bool:
    """Whether groups have all of these fields, one after the other."""
    place = 0
    for length in groups:
        count = fields_in(fields[place:], length)
        if count is None:
            return False
        place += count
    return place == len(fields)


@dataclass(frozen=True)
class Slip:
    """A group that isn't the field that is due: the fields and the place of that one, the groups from this one on, and
    where it begins in the frame."""

    fields: Fields
    place: int
    groups: list[int]
    frame: bytes
    begin: int

    def told(self, known: Known) -> Reason | None:
        """What is said of it: its field has another number of octets, isn't there, or something stands before it. None
        where what follows fits none of these."""
        name, size = self.fields[self.place]
        octets = self.frame[self.begin:self.begin + self.groups[0]]
        span = self.begin, self.begin + len(octets)
        if abs(len(octets) - size) <= MOST_OFF and fits(self.fields[self.place + 1:], self.groups[1:]):
            meant = known.meant(name, octets)
            kind = packet_type(self.frame[span[1]:]) if name == TYPE else None
            return Reason(f"{name} has {octets_text(len(octets))}, and {NUMBERS[size]}", span,
                          f"write `{meant.hex() if meant else kind}`" if meant or kind else None)
        if fits(self.fields[self.place + 1:], self.groups):
            write = "the identifier, as `01c0` for 1," if name == "AID" else "`0000`"
            return Reason(self.missing(name, size, known), span,
                          None if size == ADDRESS_LEN else f"write {write} before `{octets.hex()}`")
        if fits(self.fields[self.place:], self.groups[1:]):
            return Reason(f"`{octets.hex()}` stands {self.behind()}, and belongs to no field", span, "leave it out")
        return None

    def behind(self) -> str:
        """Behind which field it stands."""
        return f"behind {self.fields[self.place - 1][0]}" if self.place else "before the first field"

    def missing(self, name: str, size: int, known: Known) -> str:
        """That the field isn't there; of two addresses that are both a network's the station's isn't."""
        if name == "Address 3" and self.frame[self.begin - ADDRESS_LEN:self.begin] in known.bssids:
            return "Address 2, the station, is missing behind Address 1"
        what = name if size == ADDRESS_LEN else f"the two octets of {name}"
        return f"{what} {'is' if size == ADDRESS_LEN else 'are'} missing {self.behind()}"


def is_one_off(address: bytes, octets: bytes) -> bool:
    """Whether octets are an address with one octet left out, or one more."""
    short, long = sorted((address, octets), key=len)
    return len(long) == len(short) + 1 and any(long[:at] + long[at + 1:] == short for at in range(len(long)))
