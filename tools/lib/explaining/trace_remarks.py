"""Lines of a trace that stand in remarks: those that were taken out by a `#`, and those that a missing line end put
behind a remark's words. Where another line did nothing for want of one of them, it is named."""
import re
from collections.abc import Callable, Iterable, Iterator
from typing import NamedTuple

from explaining.source import Source
from fields import MANAGEMENT_NAMES
from frames import DATA, DEAUTHENTICATION, DISASSOCIATION, MANAGEMENT, Frame, address_of
from reading import is_poll

HELD = re.compile(r"(?<!\w)(?:A +(?P<frame>[0-9A-Fa-f ]{32,}+)|"
                  r"W +(?P<bssid>[0-9A-Fa-f]{2}(?::[0-9A-Fa-f]{2}){5}) +(?P<wired>[0-9A-Fa-f ]{28,}+))$")
MARKS, LEAST_OCTETS, MOST_LINE = "# \t\r", 14, 20_000  # as of a frame on a wire; characters of a line that is looked at
LEAVING = (DISASSOCIATION, DEAUTHENTICATION)
MASKED, BEHIND = "which is a remark, since it begins with `#`", "behind the words of a remark"


class Held(NamedTuple):
    """A line that stands in a remark: its number, its octets, the network whose wire it is of, and whether words of the
    remark stand before it."""

    number: int
    octets: bytes
    bssid: bytes | None
    has_words: bool

    @property
    def frame(self) -> Frame:
        """Its octets as a frame of the air."""
        return Frame(self.octets)

    def is_of(self, bssid: bytes, station: bytes) -> bool:
        """Whether it is a frame on the air of a station to a network."""
        return self.bssid is None and self.octets[4:16] == bssid + station

    def brings_unit(self, bssid: bytes, station: bytes) -> bool:
        """Whether it brings a network a unit for a station."""
        if self.bssid is not None:
            return self.bssid == bssid and self.octets[:6] == station
        return self.frame.type == DATA and self.frame.receiver == bssid and self.frame.third == station


def held_in(trace: Source) -> Iterator[Held]:
    """The lines `A` and `W` that stand in remarks."""
    for number, line in enumerate(trace.lines, 1):
        text = line.strip(MARKS) if line.startswith("#") and len(line) <= MOST_LINE else ""
        found = HELD.search(text)
        digits = (found["frame"] or found["wired"]).replace(" ", "") if found else ""
        if found and len(digits) % 2 == 0 and len(digits) >= 2 * LEAST_OCTETS:
            yield Held(number, bytes.fromhex(digits), address_of(found["bssid"].lower()) if found["bssid"] else None,
                       found.start() > 0)


class Remarks:
    """What stands in the remarks of a trace, and in which line."""

    def __init__(self, trace: Source | None = None) -> None:
        self.first = trace.first if trace else 1
        self.held = list(held_in(trace)) if trace else []
        self.ticks = [number for number, line in enumerate(trace.lines, 1)
                      if line.startswith("#") and line.strip(MARKS) == "T"] if trace else []

    def told(self, what: str, is_one: Callable[[Held], bool]) -> str:
        """That the last of these lines stands in a remark; nothing where none does."""
        found = next(filter(is_one, reversed(self.held)), None)
        return f"; {what} stands in line {self.first + found.number - 1}, {BEHIND if found.has_words else MASKED}" \
            if found else ""

    def request(self, bssid: bytes, station: bytes, subtypes: Iterable[int]) -> str:
        """That a request of a station to a network stands in a remark."""
        for subtype in subtypes:
            found = [held for held in self.held if held.is_of(bssid, station) and held.frame.is_management(subtype)]
            if found:
                return self.told(f"its {MANAGEMENT_NAMES[subtype]}", found[-1].__eq__)
        return ""

    def dozing(self, bssid: bytes, station: bytes, number: int) -> str:
        """That a frame by which a station dozes stands in a remark before this line."""
        return self.told("a frame by which it dozes", lambda held: held.number < number and held.is_of(
            bssid, station) and held.frame.type == DATA and held.frame.power_management)

    def poll(self, bssid: bytes, station: bytes) -> str:
        """That a poll of a station stands in a remark."""
        return self.told("a PS-Poll of it", lambda held: held.is_of(bssid, station) and is_poll(held.frame))

    def unit(self, bssid: bytes, station: bytes, number: int) -> str:
        """That a unit for a station stands in a remark before this line."""
        return self.told("a unit for it", lambda held: held.number < number and held.brings_unit(bssid, station))

    def leaving(self, bssid: bytes, number: int) -> str:
        """That a frame by which a station leaves a network stands in a remark before this line."""
        return self.told("a frame by which a station leaves", lambda held: held.number < number and held.bssid is None
                         and held.frame.receiver == bssid and held.frame.type == MANAGEMENT
                         and held.frame.subtype in LEAVING)

    def interval(self) -> str:
        """That lines `T` stand in remarks."""
        numbers = ", ".join(str(self.first + number - 1) for number in self.ticks)
        are = "are remarks, since they begin" if len(self.ticks) > 1 else "is a remark, since it begins"
        return f"; `T` stands in line{'s' * (len(self.ticks) > 1)} {numbers}, which {are} with `#`" if numbers else ""


def unmask(told: str) -> str:
    """What to do with a line that stands in a remark."""
    return "write that line anew, without the remark's words" if BEHIND in told else "take the `#` of that line away"
