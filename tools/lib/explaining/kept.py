"""Units that a network keeps where the trace ends, though a beacon has told of them."""
from dataclasses import dataclass

from explaining.past import Past
from explaining.source import Finding, Place
from explaining.trace_remarks import unmask
from frames import BEACON, BEACON_FIXED_LEN, TIM, Frame, address_text, elements, first_of
from texts import Line, Section

MOST_NAMED, LEAST_TIM = 3, 4


def of_kept(name: str, section: Section, heard: list[Line], dtim: int | None,
            past: Past | None, units: "GroupUnits | None" = None) -> list[Finding]:
    """Units for stations that sent nothing since the last beacon interval began, and units for the group that wait for
    a DTIM that doesn't come."""
    units = units or GroupUnits()
    last = last_frames(heard)
    tick = max((place for place, line in enumerate(heard) if line.kind == "T"), default=-1)
    waiting = [station for station in section.stations if station.kept and last.get(station.address, -1) < tick]
    findings = []
    if waiting:
        named = ", ".join(f"{address_text(station.address)} ({station.kept})" for station in waiting[:MOST_NAMED])
        since = past.dozing.get((section.bssid, waiting[0].address)) if past and len(waiting) == 1 else None
        remark = past.remarks.poll(section.bssid, waiting[0].address) if past and len(waiting) == 1 else ""
        more = f" and {len(waiting) - MOST_NAMED} more stations" * (len(waiting) > MOST_NAMED)
        which = f", which {since}" if since else ""
        findings.append(Finding(f"{name}: units are kept at the end for {named}{more}{which}: a beacon told of them, "
                                f"and nobody asked for them{remark}",
                                None, unmask(remark) if remark else "a PS-Poll (`a400`) brings one, and a frame that "
                                "says that the station is awake (`4801`) brings all"))
    group = section.kept - sum(station.kept for station in section.stations)
    if group and tick >= 0:
        which = f"a DTIM's beacon, one of {dtim}" if dtim and dtim > 1 else "the next beacon"
        count = beacons_to_dtim(section, dtim)
        lines = "more lines `T` bring it" if count is None else f"{count} more line{'s' * (count > 1)} `T` bring" \
            f"{'s' * (count == 1)} it"
        findings.append(Finding(f"{name}: units for the group are kept at the end: {group}{units.numbers}; they follow "
                                f"{which}{units.period}", units.place, lines))
    return findings


@dataclass(frozen=True)
class GroupUnits:
    """Where the units stand that a network keeps for the group: the first one, the numbers of all where there are
    several, and where the configuration says how often a DTIM comes."""

    place: Place | None = None
    numbers: str = ""
    period: str = ""


def beacons_to_dtim(section: Section, dtim: int | None) -> int | None:
    """How many beacons come up to the next DTIM, by the TIM of the last one; None where none was sent."""
    last = next((frame for octets in reversed(section.air) if (frame := Frame(octets)).is_management(BEACON)), None)
    tim = first_of(elements(last.body[BEACON_FIXED_LEN:]) or [], TIM) if last else None
    return (tim[0] or dtim) if tim and len(tim) >= LEAST_TIM else None


def last_frames(heard: list[Line]) -> dict[bytes, int]:
    """The place of the last frame of each sender on the air."""
    return {Frame(line.octets).transmitter: place for place, line in enumerate(heard) if line.kind == "A"}
