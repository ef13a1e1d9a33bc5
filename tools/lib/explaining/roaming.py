"""Stations that are associated in several networks: where each joined one after the other, and what the earlier ones
send to it from then on. No network knows of another, and none looks at the Current AP Address of a reassociation."""
from collections.abc import Iterable
from dataclasses import dataclass

import called
from explaining.hearing import Hearing
from explaining.past import Past
from explaining.reason import Lack
from explaining.source import Finding, Source
from explaining.spans import place_of_octets
from frames import HEADER_LEN, REASSOCIATION_REQUEST, Frame, address_text
from texts import Line, Section

MOST_NAMED, MOST_NUMBERS = 3, 5
CURRENT = (HEADER_LEN + 4, HEADER_LEN + 10)


@dataclass(frozen=True)
class Joined:
    """A station in a network, and the number of the line by which it joined, as a person counts; 0 where none tells."""

    station: bytes
    section: Section
    number: int


def of_roaming(hearings: list[Hearing], traces: list[Source], lines: Iterable[Line],
               past: Past | None) -> list[Finding]:
    """What is said of each of these stations, the first few of them."""
    places: dict[bytes, list[Joined]] = {}
    for hearing in hearings:
        for station in hearing.section.stations:
            if station.aid is not None:
                number = past.arrivals.get(Lack(hearing.section.bssid, station.address, True), 0) if past else 0
                places.setdefault(station.address, []).append(Joined(station.address, hearing.section, number))
    several = [joined for joined in places.values() if len(joined) > 1][:MOST_NAMED]
    lines = list(lines) if several else []
    return [of_station(joined, traces, lines) for joined in several]


def of_station(joined: list[Joined], traces: list[Source], lines: list[Line]) -> Finding:
    """A station that is associated in several networks at the end."""
    names = ", ".join(one.section.name for one in joined)
    said = f"the station {address_text(joined[0].station)} is associated in several networks: {names}"
    order = sorted(joined, key=lambda one: one.number)
    last, before = order[-1], order[-2]
    line = next((line for line in lines if len(traces) == 1 and last.number
                 and traces[0].first + line.number - 1 == last.number), None)
    if line is None or not before.number:
        return Finding(said, None, f"no network knows of another: it left none of them "
                       f"({called.document('README.md', 'examples')})")
    is_again = Frame(line.octets).is_management(REASSOCIATION_REQUEST)
    current = "; Current AP Address isn't looked at" * is_again
    return Finding(f"{said}. It joined {last.section.name} here, and didn't leave {before.section.name}, which it "
                   f"joined in line {before.number}{current}{still_to(before, traces[0], lines, last.number)}",
                   place_of_octets(traces[0], line, CURRENT if is_again else (4, 10)),
                   f"no network knows of another: where it goes over, write `{leaving(before)}` before")


def still_to(before: Joined, trace: Source, lines: list[Line], since: int) -> str:
    """Which lines have units that the earlier network still has for a station."""
    numbers = [number for line in lines if line.kind == "W" and line.bssid == before.section.bssid
               and line.octets[:6] == before.station and (number := trace.first + line.number - 1) > since]
    more = f" and {len(numbers) - MOST_NUMBERS} more" * (len(numbers) > MOST_NUMBERS)
    return f"; {before.section.name} still serves it in line{'s' * (len(numbers) > 1)} " \
        f"{', '.join(map(str, numbers[:MOST_NUMBERS]))}{more}" if numbers else ""


def leaving(before: Joined) -> str:
    """The deauthentication by which a station leaves a network."""
    bssid = before.section.bssid.hex()
    return f"A c000 0000 {bssid} {before.station.hex()} {bssid} 0000 0300"
