"""What became of each station in each network: the line in which it lost what it had, or was refused."""
from bisect import bisect_right
from collections import Counter
from collections.abc import Callable, Iterable

from explaining.line_by_line import Step
from explaining.reason import Lack
from explaining.reflected import Reflected
from explaining.refused import NOTICES, refusal_of
from explaining.trace_remarks import Remarks
from frames import (ASSOCIATION_REQUEST, AUTHENTICATION, DATA, DEAUTHENTICATION, DISASSOCIATION, MANAGEMENT, NULL,
                    REASSOCIATION_REQUEST, Frame, address_text)
from in_words import kind_text, status_text
from reading import unread_kind
from texts import Line, Section, Station

LEAST_LENGTH = 16


def station_in(section: Section, address: bytes) -> Station | None:
    """A station's row of a table."""
    return next((station for station in section.stations if station.address == address), None)


class Past:
    """The last of these of each station in each network, in words, and who has sent anything: an address that was seen,
    or that asks a network later, isn't a slip of another one."""

    def __init__(self, line_number: Callable[[int], int], lines: Iterable[Line] = (),
                 remarks: Remarks | None = None) -> None:
        """`lines` are all of the trace, `remarks` those that stand in its remarks."""
        self.line_number = line_number
        lines = list(lines)
        frames = [(line.number, Frame(line.octets)) for line in lines
                  if line.kind == "A" and len(line.octets) >= LEAST_LENGTH]
        self.asking = {frame.octets[4:16] for _, frame in frames if frame.is_management(AUTHENTICATION)}
        self.sending: dict[bytes, list[tuple[int, Frame]]] = {}
        for number, frame in frames:
            self.sending.setdefault(frame.octets[4:16], []).append((number, frame))
        self.has_deauthentications = any(frame.is_management(DEAUTHENTICATION) for _, frame in frames)
        self.last_to = {frame.octets[4:10]: number for number, frame in frames}
        self.last_dozing = {frame.octets[4:16]: number for number, frame in frames
                            if frame.type == DATA and frame.power_management}
        self.units = units_in(lines)
        self.remarks = remarks or Remarks()
        self.before: dict[bytes, int] = {}
        self.coming = {Lack(frame.octets[4:10], frame.transmitter, True): line_number(number)
                       for number, frame in frames if frame.is_management(ASSOCIATION_REQUEST)}
        self.hosts = {line.octets[6:12] for line in lines if line.kind == "W"}
        self.destinations = Counter(pair[6:] for pair, numbers in self.units.items() for _ in numbers)
        self.wired = {line.bssid for line in lines if line.kind == "W"}
        self.reflected = Reflected(lines)
        self.told: dict[tuple[bytes, bytes], str] = {}
        self.answered: dict[tuple[bytes, bytes], str] = {}
        self.refusals: dict[tuple[bytes, bytes], tuple[int, str]] = {}
        self.group_units: dict[bytes, list[Line]] = {}
        self.woken: dict[tuple[bytes, bytes], str] = {}
        self.emptied: dict[tuple[bytes, bytes], str] = {}
        self.overlooked: dict[tuple[bytes, bytes], str] = {}
        self.missed: dict[tuple[bytes, bytes], str] = {}
        self.dozing: dict[tuple[bytes, bytes], str] = {}
        self.in_vain: dict[tuple[bytes, bytes], str] = {}
        self.listening: dict[tuple[bytes, bytes], int] = {}
        self.seen: set[bytes] = set()
        self.arrivals: dict[Lack, int] = {}

    def of(self, bssid: bytes, station: bytes) -> str | None:
        """What is told of a station in a network."""
        return self.told.get((bssid, station))

    def is_own(self, bssid: bytes, address: bytes) -> bool:
        """Whether an address isn't a slip of another one: it was seen, or authenticates to this network."""
        return address in self.seen or bssid + address in self.asking

    def next_frame(self, bssid: bytes, station: bytes, number: int) -> tuple[int, Frame] | None:
        """The next frame of a station to a network behind this line, with the number of its line."""
        frames = self.sending.get(bssid + station, [])
        at = bisect_right(frames, number, key=lambda pair: pair[0])
        return (self.line_number(frames[at][0]), frames[at][1]) if at < len(frames) else None

    def first_sent(self, bssid: bytes, frame: Frame, number: int) -> int | None:
        """The line before this one of which a frame with Retry 1 is a repetition: of the same kind, and with the same
        sequence number."""
        return next((self.line_number(other) for other, earlier in self.sending.get(bssid + frame.transmitter, [])
                     if other < number and earlier.octets[0] == frame.octets[0] and
                     earlier.sequence_control == frame.sequence_control), None) if frame.retry else None

    def next_unit(self, bssid: bytes, station: bytes, number: int) -> int | None:
        """The line behind this one that has the next unit for a station of a network."""
        numbers = self.units.get(bssid + station, [])
        at = bisect_right(numbers, number)
        return self.line_number(numbers[at]) if at < len(numbers) else None

    def unit_elsewhere(self, bssid: bytes, station: bytes, number: int) -> str:
        """That the last unit for a station before this line came to another network; nothing where none did."""
        found = max(((at, pair[:6]) for pair, numbers in self.units.items() if pair[6:] == station and pair[:6] != bssid
                     for at in numbers if at < number), default=None)
        return f"; the one in line {self.line_number(found[0])} came to {address_text(found[1])}" if found else ""

    def dozes_behind(self, bssid: bytes, station: bytes, number: int) -> bool:
        """Whether a station says to a network behind this line that it dozes."""
        return self.last_dozing.get(bssid + station, 0) > number

    def never_authenticate(self, bssid: bytes) -> list[bytes]:
        """The stations that send a network what asks for an authentication before, and have no line of one."""
        return [pair[6:] for pair, frames in self.sending.items() if pair[:6] == bssid
                and any(frame.type != MANAGEMENT or frame.is_management(ASSOCIATION_REQUEST) for _, frame in frames)
                and not any(frame.is_management(AUTHENTICATION) for _, frame in frames)]

    def is_named(self, bssid: bytes, address: bytes) -> bool:
        """Whether a line has an address as that of a sender on the air or on a wire, or several as a destination."""
        return self.is_own(bssid, address) or address in self.hosts or self.destinations[address] > 1 or \
            any(pair[6:] == address for pair in self.sending)

    def never_joins(self, bssid: bytes, station: bytes) -> bool:
        """Whether no line of a station asks a network to associate."""
        return not any(frame.type == MANAGEMENT and frame.subtype in (ASSOCIATION_REQUEST, REASSOCIATION_REQUEST)
                       for _, frame in self.sending.get(bssid + station, []))

    def remark_of(self, bssid: bytes, station: bytes, subtypes: Iterable[int]) -> str:
        """That a remark holds a request of a station to a network; nothing where none does."""
        return self.remarks.request(bssid, station, subtypes)

    def joins_next(self, bssid: bytes, station: bytes, number: int) -> bool:
        """Whether the next frame of a station to a network, behind this line, asks to associate or is another
        authentication."""
        found = self.next_frame(bssid, station, number)
        return found is not None and found[1].type == MANAGEMENT and found[1].subtype in (
            ASSOCIATION_REQUEST, REASSOCIATION_REQUEST, AUTHENTICATION)

    def note(self, step: Step) -> None:
        """Looks at what a line brought its sender, and whose units left."""
        self.note_modes(step)
        for sent in step.sent:
            if sent.is_wired:
                self.reflected.note(sent.octets)
        if step.line.kind != "A" or len(step.line.octets) < LEAST_LENGTH:
            return
        station = Frame(step.line.octets).transmitter
        self.before[step.line.octets] = self.line_number(step.line.number)
        self.seen.add(station)
        for bssid, after in step.after.items():
            before = step.before[bssid]
            told = self.change(step, station_in(before, station), station_in(after, station)) or \
                self.failure(step, bssid, station) if after is not before else None
            if told:
                self.told[bssid, station] = told
            self.note_mode(step, bssid, station, after)
            answered = self.notice(step, bssid, station) if after is not before else None
            if answered:
                self.answered[bssid, station] = answered
            if after is not before:
                self.note_arrival(step, station_in(before, station), station_in(after, station), bssid)

    def note_mode(self, step: Step, bssid: bytes, station: bytes, after: Section) -> None:
        """Notes a frame by which a station dozes, and that was answered by a notice, since it wasn't associated."""
        frame, row = Frame(step.line.octets), station_in(after, station)
        if frame.type != DATA or frame.octets[4:10] != bssid:
            return
        odd = "More Data" if frame.more_data else "Retry" if frame.retry else ""
        if row is not None and row.aid is not None:
            self.in_vain.pop((bssid, station), None)
            if odd and frame.subtype == NULL and not frame.power_management and not row.doze:
                self.in_vain[bssid, station] = f": in line {self.line_number(step.line.number)} {odd} is 1, and " \
                    "Power Management 0"
        elif frame.power_management:
            self.in_vain[bssid, station] = f": line {self.line_number(step.line.number)}, by which it dozes, came " \
                "before it was associated"

    def note_arrival(self, step: Step, before: Station | None, after: Station | None, bssid: bytes) -> None:
        """Notes the last line by which a station came, and a mode that it told where none is read (11.2.3.2)."""
        if after is None:
            return
        frame, number = Frame(step.line.octets), self.line_number(step.line.number)
        if before is None:
            self.arrivals[Lack(bssid, after.address, False)] = number
            self.told.pop((bssid, after.address), None)
        if after.aid is not None and (before is None or before.aid is None):
            self.arrivals[Lack(bssid, after.address, True)] = number
            self.told.pop((bssid, after.address), None)
            self.answered.pop((bssid, after.address), None)
        is_join = frame.type == MANAGEMENT and frame.subtype in (ASSOCIATION_REQUEST, REASSOCIATION_REQUEST)
        if is_join and after.aid is not None and self.failure(step, bssid, after.address) is None:
            self.listening[bssid, after.address] = number
        if frame.type == DATA:
            self.overlooked.pop((bssid, after.address), None)
        elif frame.type == MANAGEMENT and frame.power_management:
            self.overlooked[bssid, after.address] = f": Power Management is 1 in {kind_text(frame.octets)} of it, in " \
                f"line {number}, and is read in data frames alone"

    def comes_later(self, lacks: Lack, number: int) -> str:
        """In which line after this one a station comes; nothing where it doesn't."""
        there = self.arrivals.get(lacks, 0)
        what = "associates" if lacks.is_associated else "authenticates"
        return f"; it {what} after that, in line {there}" if there > self.line_number(number) else ""

    def asks_later(self, lacks: Lack, number: int) -> str:
        """In which line after this one a station asks for what it lacks; nothing where it doesn't."""
        wanted = (ASSOCIATION_REQUEST, REASSOCIATION_REQUEST) if lacks.is_associated else (AUTHENTICATION,)
        there = next((other for other, frame in self.sending.get(lacks.bssid + lacks.station, [])
                      if other > number and frame.type == MANAGEMENT and frame.subtype in wanted), None)
        what = "associate" if lacks.is_associated else "authenticate"
        return "" if there is None else f"; it asks to {what} after that, in line {self.line_number(there)}"

    def note_group(self, step: Step, bssid: bytes) -> None:
        """Notes the lines whose units for the group are kept, the last of them where some were sent."""
        before, after = group_kept(step.before[bssid]), group_kept(step.after[bssid])
        units = self.group_units.setdefault(bssid, [])
        if after > before:
            units.append(step.line)
        elif after < before:
            del units[:len(units) - after]

    def note_modes(self, step: Step) -> None:
        """Notes which stations are awake from this line on, and for which no unit is kept any more."""
        number = self.line_number(step.line.number)
        for bssid, after in step.after.items():
            if after is step.before[bssid]:
                continue
            self.note_missed(step, bssid, number)
            self.note_group(step, bssid)
            rows = {row.address: row for row in after.stations}
            for before in step.before[bssid].stations:
                row = rows.get(before.address)
                if row and row.doze and not before.doze:
                    self.dozing[bssid, row.address] = f"dozes since line {number}, by " \
                        f"{kind_text(step.line.octets)} of it"
                if row and before.doze and not row.doze:
                    self.woken[bssid, row.address] = f", by {kind_text(step.line.octets)} of it in line {number}"
                if before.kept and (row is None or not row.kept):
                    what = "was sent" if row and has_data(step, bssid) else "was dropped"
                    is_own = step.line.kind == "A" and Frame(step.line.octets).transmitter == before.address
                    by = f", by {kind_text(step.line.octets)} of it" if is_own and what == "was dropped" else ""
                    self.emptied[bssid, before.address] = f": the last one {what} in line {number}{by}"

    def note_missed(self, step: Step, bssid: bytes, number: int) -> None:
        """Notes for which station a unit was lost, or was sent at once."""
        to = step.line.octets[:6] if step.line.kind == "W" else Frame(step.line.octets).third
        before, after = station_in(step.before[bssid], to), station_in(step.after[bssid], to)
        if before is None or after is None or before.kept != after.kept or after.aid is None:
            return
        if step.after[bssid].lost > step.before[bssid].lost:
            self.missed[bssid, to] = f": the unit of line {number} was lost"
        elif not before.doze and any(sent.bssid == bssid and Frame(sent.octets).receiver == to and
                                     Frame(sent.octets).type == DATA for sent in step.sent if not sent.is_wired):
            self.missed[bssid, to] = f": the unit of line {number} was sent at once, since the station was awake"
        elif before.doze and any(sent.bssid == bssid and sent.is_wired and sent.octets[:6] == to for sent in step.sent):
            self.missed[bssid, to] = f": the unit of line {number} went over the wire alone, since " \
                f"{step.after[bssid].name} doesn't relay"

    def change(self, step: Step, before: Station | None, after: Station | None) -> str | None:
        """What a line took from a station."""
        number = self.line_number(step.line.number)
        if before is None:
            return None
        if after is None:
            return f"it left in line {number}, by a deauthentication"
        if before.aid is None or after.aid is not None:
            return None
        frame = Frame(step.line.octets)
        if frame.is_management(DISASSOCIATION):
            return f"it left in line {number}, by a disassociation"
        return f"it authenticated again in line {number}, and has to associate again" if \
            frame.is_management(AUTHENTICATION) else None

    def notice(self, step: Step, bssid: bytes, station: bytes) -> str | None:
        """That a station asked to associate, and was answered by a notice."""
        frame = Frame(step.line.octets)
        if frame.type != MANAGEMENT or frame.subtype not in (ASSOCIATION_REQUEST, REASSOCIATION_REQUEST):
            return None
        for sent in step.sent:
            refusal = refusal_of(sent.octets) if sent.bssid == bssid and not sent.is_wired else None
            if refusal and not refusal.is_status and Frame(sent.octets).receiver == station:
                return f"{kind_text(step.line.octets)} of it, in line {self.line_number(step.line.number)}, was " \
                    f"answered by a {NOTICES[refusal.kind]}, reason {refusal.code}: it wasn't authenticated"
        return None

    def failure(self, step: Step, bssid: bytes, station: bytes) -> str | None:
        """What a station asked for in vain."""
        number, octets = self.line_number(step.line.number), step.line.octets
        for sent in step.sent:
            refusal = refusal_of(sent.octets) if sent.bssid == bssid and not sent.is_wired else None
            if refusal and refusal.is_status and Frame(sent.octets).receiver == station:
                return f"{kind_text(octets)} of it, in line {number}, was refused: {status_text(refusal.code)}"
        rule = unread_kind(bssid, octets)
        if step.after[bssid].unread > step.before[bssid].unread and rule and Frame(octets).type == 0:
            return f"{kind_text(octets)} of it, in line {number}, can't be read ({rule})"
        return None


def units_in(lines: Iterable[Line]) -> dict[bytes, list[int]]:
    """The numbers of the lines that have a unit, by the addresses of the network and of the destination."""
    units: dict[bytes, list[int]] = {}
    for line in lines:
        if line.kind == "W":
            units.setdefault((line.bssid or b"") + line.octets[:6], []).append(line.number)
        elif line.kind == "A" and len(line.octets) >= LEAST_LENGTH and Frame(line.octets).type == DATA:
            unit = Frame(line.octets)
            units.setdefault(unit.receiver + unit.third, []).append(line.number)
    return units


def group_kept(section: Section) -> int:
    """How many units a network keeps for the group."""
    return section.kept - sum(station.kept for station in section.stations)


def has_data(step: Step, bssid: bytes) -> bool:
    """Whether a network sent a unit on the air for a line."""
    return any(sent.bssid == bssid and not sent.is_wired and Frame(sent.octets).type == DATA for sent in step.sent)


def whereabouts(step: Step, bssid: bytes, station: bytes, past: Past) -> str | None:
    """Where a station is that isn't where it should be: what became of it, or in which other networks it is."""
    told = past.of(bssid, station)
    if told:
        return told
    rows = {other: row for other, section in step.before.items()
            if other != bssid and (row := station_in(section, station))}
    for what, is_it in (("is a station of", lambda row: row.aid is not None),
                        ("is authenticated in", lambda row: row.aid is None)):
        names = [step.before[other].name for other, row in rows.items() if is_it(row)]
        if names:
            return f"{address_text(station)} {what} {', '.join(names)}"
    return None


def home_of(step: Step, bssid: bytes, station: bytes) -> bytes | None:
    """Another network that knows a station, first one where it is associated."""
    rows = [(row.aid is None, place, other) for place, (other, section) in enumerate(step.before.items())
            if other != bssid and (row := station_in(section, station))]
    return min(rows)[2] if rows else None
