"""Why a line that a network took and read changed nothing there: by what the frame says, and what the tables said
before it (docs/FORMATS.md, "What changes nothing")."""
import re
from dataclasses import dataclass

from explaining.line_by_line import Step
from explaining.names import name_reason
from explaining.past import Past, home_of, station_in, whereabouts
from explaining.reason import Lack, Reason
from explaining.trace_remarks import unmask
from explaining.unheard import is_slip, nearest
from frames import (ASSOCIATION_REQUEST, AUTHENTICATION, BROADCAST, DATA, DEAUTHENTICATION, DISASSOCIATION, MANAGEMENT,
                    NULL, PLAIN_DATA, PROBE_REQUEST, REASSOCIATION_REQUEST, Frame, address_text, number)
from in_words import address_word, kind_text
from reading import SNAP, is_poll, request_of
from texts import Section, Station

MOST_NAMED, LLC_LEN = 4, 3
IDENTIFIER = 0x3FFF
# The beginnings of groups' addresses, and addresses of one router that look like the first of them (RFC 5798).
GROUPS = {bytes.fromhex("01005e"): "a group of IPv4", bytes.fromhex("3333"): "a group of IPv6",
          bytes.fromhex("0180c2"): "a group of bridges", bytes([0xFF] * 6): "all"}
TYPO_LEN = 3  # octets of a beginning that one wrong digit doesn't make another's
VIRTUAL_ROUTERS = (bytes.fromhex("00005e0001"), bytes.fromhex("00005e0002"))
JOINING = (AUTHENTICATION, ASSOCIATION_REQUEST, REASSOCIATION_REQUEST)


@dataclass(frozen=True)
class Looked:
    """A line as one network took it, and what became of stations before."""

    step: Step
    bssid: bytes
    past: Past

    @property
    def section(self) -> Section:
        """The network before the line."""
        return self.step.before[self.bssid]

    def station(self, address: bytes) -> Station | None:
        """A station of the network before the line."""
        return station_in(self.section, address)

    def names(self) -> dict[bytes, bytes]:
        """The networks' SSIDs."""
        return {bssid: section.ssid for bssid, section in self.step.before.items()}

    def homes(self, station: bytes) -> list[bytes]:
        """The networks that know a station."""
        return [bssid for bssid, section in self.step.before.items() if station_in(section, station)]

    def why_not_there(self, address: bytes, state: str = "unknown") -> str:
        """Where a station is that isn't known, or isn't associated."""
        told = self.past.of(self.bssid, address) or self.past.answered.get((self.bssid, address)) or \
            whereabouts(self.step, self.bssid, address, self.past)
        wanted = JOINING if state == "unknown" else JOINING[1:]
        remark = self.past.remark_of(self.bssid, address, wanted)
        if told:
            return told + remark
        if remark:
            return remark.removeprefix("; ")
        like = nearest(address, [station.address for station in self.section.stations])
        if like is not None and state == "unknown" and not self.past.is_own(self.bssid, address):
            return f"{address_text(like)} is one of this network, and nearly the same"
        if state == "unknown":
            return self.before_trace(address)
        return "it never asked to associate" if self.past.never_joins(self.bssid, address) else \
            "it didn't ask to associate before"

    def before_trace(self, address: bytes) -> str:
        """Why a station is unknown of which no line before tells."""
        asks = self.bssid + address in self.past.asking
        return f"no line before has it authenticate to {self.section.name}" if asks else \
            "it joined before the trace begins, or never"

    def left(self) -> dict[bytes, int]:
        """The stations that disassociated, and are known, each with the number of the line by which it did."""
        told = {station.address: self.past.of(self.bssid, station.address) or "" for station in self.section.stations
                if station.aid is None}
        return {address: line_in(text) for address, text in told.items() if text.endswith("by a disassociation")}

    def associated(self) -> list[bytes]:
        """The addresses of the stations that are associated."""
        return [station.address for station in self.section.stations if station.aid is not None]


def line_in(told: str) -> int:
    """The number of the line that a text names first."""
    found = re.search(r"line (\d+)", told)
    return int(found[1]) if found else 0


def nothing(looked: Looked) -> Reason | None:
    """The reason; None where none is known."""
    line = looked.step.line
    if line.kind == "W":
        return from_wire(looked, line.octets)
    frame = Frame(line.octets)
    if is_poll(frame):
        return poll(looked, frame)
    if frame.type == DATA:
        return mode(looked, frame)
    if frame.is_management(PROBE_REQUEST):
        return name_reason(line.octets, looked.names(), looked.bssid)
    return leaving(looked, frame) if frame.type == MANAGEMENT else None


def from_wire(looked: Looked, octets: bytes) -> Reason:
    """A frame on the wire for no station that is associated."""
    if request_of(looked.bssid, octets):
        return Reason(f"{kind_text(octets)} of the air (802.11) stands behind `W`, for what came over the wire", (0, 2),
                      "write `A` and the frame")
    to, source = octets[:6], octets[6:12]
    if to in looked.step.before:
        own = "the network's own address" if to == looked.bssid else f"the address of {looked.step.before[to].name}"
        return Reason(f"its destination {address_text(to)} is {own}, and no station's: a network has no use for a "
                      "frame of a wire", (0, 6), "a frame on the wire begins with its destination: "
                      f"{stations_text(looked)} associated" if looked.associated() else None)
    group = slip_of_group(looked, to)
    if group:
        return group
    said = f"it is to {address_word(to)}, which is no station of {looked.section.name} that is associated"
    if source in looked.associated():
        return Reason(f"{said}; its source {address_text(source)} is one: a frame on the wire begins with its "
                      "destination",
                      (0, 12), f"write `{source.hex()} {to.hex()}` for `{to.hex()} {source.hex()}`")
    remark = looked.past.remark_of(looked.bssid, to, JOINING)
    if looked.station(to) is not None:
        return Reason(f"{said}: {looked.why_not_there(to, 'authenticated')}", (0, 6),
                      unmask(remark) if remark else None)
    if remark:
        return Reason(f"{said}{remark}", (0, 6), unmask(remark))
    told = whereabouts(looked.step, looked.bssid, to, looked.past)
    is_own = told is not None or looked.past.is_own(looked.bssid, to)
    like = None if is_own else nearest(to, looked.associated())
    if like is not None:
        return Reason(f"{said}; {address_text(like)} is, and nearly the same", (0, 6), f"write `{like.hex()}`")
    return Reason(f"{said}: {told or stations_text(looked)}", (0, 6), of_wire(looked, to),
                  None if told else Lack(looked.bssid, to, True))


def slip_of_group(looked: Looked, to: bytes, begin: int = 0) -> Reason | None:
    """A destination that differs from one of the usual groups in the bit that makes it a group, and that no line has as
    the address of a sender; or one that differs in one digit from that of all."""
    if to != BROADCAST and is_slip(to.hex(), BROADCAST.hex()):
        return Reason(f"its destination {address_text(to)} is a group that nobody is in; all are `{BROADCAST.hex()}`",
                      (begin, begin + 6), f"write `{BROADCAST.hex()}`")
    if to[0] & 1 or to.startswith(VIRTUAL_ROUTERS) or looked.past.is_named(looked.bssid, to):
        return None
    found = next((prefix for prefix in GROUPS if to[0] ^ 1 == prefix[0] and to[1:len(prefix)] == prefix[1:] or
                  len(prefix) == TYPO_LEN and is_slip(to[:TYPO_LEN].hex(), prefix.hex())), None)
    if found is None:
        return None
    return Reason(f"its destination {address_text(to)} is no group address, since its first octet, {to[0]:02x}, is "
                  f"even; {GROUPS[found]} begins with {found.hex(':')}", (begin, begin + 6),
                  f"write `{(found + to[len(found):]).hex()}`")


def stations_text(looked: Looked) -> str:
    """Which stations are associated."""
    found = looked.associated()
    more = f" and {len(found) - MOST_NAMED} more" if len(found) > MOST_NAMED else ""
    named = ", ".join(map(address_text, found[:MOST_NAMED])) or "none"
    return f"{named}{more} {'are' if len(found) > 1 else 'is'}"


def of_wire(looked: Looked, address: bytes) -> str | None:
    """The wire of the network where a station is."""
    owner = next((bssid for bssid, section in looked.step.before.items()
                  if (row := station_in(section, address)) and row.aid is not None), None)
    return f"over its own wire it would come as `W {address_text(owner)}`" if owner else None


def poll(looked: Looked, frame: Frame) -> Reason | None:
    """A poll of a station that is associated."""
    station = looked.station(frame.transmitter)
    if station is None or station.aid is None:
        return None
    aid = number(frame.octets[2:4]) & IDENTIFIER
    own = (station.aid | 0xC000).to_bytes(2, "little").hex()
    if aid != station.aid:
        turned = int.from_bytes(frame.octets[2:4], "big") & IDENTIFIER == station.aid
        why = ": its octets stand the wrong way round" if turned else \
            ": it stands where other frames have Duration" if aid == 0 else ""
        owner = "" if why else owner_of(looked, aid)
        return Reason(f"the poll names the identifier {aid}{owner}, and the station has {station.aid}{why}", (2, 4),
                      f"write `{own}`")
    past = looked.past
    woken, emptied, overlooked, missed = (told.get((looked.bssid, station.address), "") for told in (
        past.woken, past.emptied, past.overlooked, past.missed))
    if not station.doze:
        is_data = "Data frame" in (overlooked or woken)
        vain = past.in_vain.get((looked.bssid, station.address), "")
        remark = past.remarks.dozing(looked.bssid, station.address, looked.step.line.number)
        return Reason(f"the station is awake{overlooked or woken or vain}, and a poll brings a unit to one that dozes"
                      f"{remark}", (0, 2), unmask(remark) if remark else
                      "where it goes on dozing that frame begins with `0811`" if is_data else
                      "a Null that begins with `4811` says before that it dozes")
    of_group = looked.section.kept - sum(row.kept for row in looked.section.stations)
    group = "; a unit for the group is kept, and no poll brings one: it follows the beacon of a DTIM" * (of_group > 0)
    if station.kept:
        return None
    return of_empty(looked, station, emptied, missed, group)


def owner_of(looked: Looked, aid: int) -> str:
    """Which station of a network has an identifier."""
    owner = next((row.address for row in looked.section.stations if row.aid == aid), None)
    return f", that of {address_text(owner)}" if owner else ""


def of_empty(looked: Looked, station: Station, emptied: str, missed: str, group: str) -> Reason:
    """A poll of a station that dozes, and for which no unit is kept: by what came before, or comes only later."""
    past = looked.past
    unit, dozing = line_in(missed), line_in(past.dozing.get((looked.bssid, station.address), ""))
    is_late = not emptied and "sent at once" in missed and dozing > unit
    coming = past.next_unit(looked.bssid, station.address, looked.step.line.number)
    later = "" if coming is None or is_late else f"; {'the next one' if emptied or missed else 'the unit for it'} " \
        f"comes after this poll, in line {coming}"
    strayed = "" if emptied or missed or later else past.unit_elsewhere(looked.bssid, station.address,
                                                                        looked.step.line.number)
    remark = past.remarks.unit(looked.bssid, station.address, looked.step.line.number)
    advice = unmask(remark) if remark else \
        f"write line {dozing}, by which the station dozes, before line {unit}" if is_late else \
        f"write the poll behind line {coming}" if later else None
    return Reason(f"no unit is kept for the station{emptied or missed}{later}{strayed}{group}{remark}", (2, 4), advice)


def mode(looked: Looked, frame: Frame) -> Reason | None:
    """A Null that says what was said before, or that has data behind it."""
    if with_data(frame):
        return with_data(frame)
    station = looked.station(frame.transmitter)
    if station is None or station.aid is None or station.doze != frame.power_management:
        return None
    said = f"the station says that it {'dozes' if station.doze else 'is awake'}, and it " \
        f"{'dozed' if station.doze else 'was awake'} before"
    same = looked.past.before.get(frame.octets)
    others = [row.address for row in looked.section.stations if row.aid is not None and row.doze != station.doze]
    other = others[0] if others else None
    if same and other:
        return Reason(f"{said}: this line is a copy of line {same}, octet for octet, Address 2 too", (10, 16),
                      f"where {address_text(other)} was meant, which {'is awake' if station.doze else 'dozes'}, write "
                      f"`{other.hex()}`")
    is_again = looked.past.first_sent(looked.bssid, frame, looked.step.line.number) is not None
    odd = "" if frame.power_management else "`20` is More Data, which isn't read" if frame.more_data else \
        "`08` is Retry" if frame.retry and not is_again else ""
    more = f"; {odd}, and Power Management is `10`" if odd else ""
    following = looked.past.next_frame(looked.bssid, frame.transmitter, looked.step.line.number)
    polls = following is not None and is_poll(following[1])
    shows = "" if station.doze or more or polls else "a station shows so that it is still there; "
    return Reason(said + more, (1, 2), f"{shows}`{'4801' if station.doze else '4811'}` says that it "
                  f"{'is awake' if station.doze else 'dozes'}")


def with_data(frame: Frame) -> Reason | None:
    """A Null with a unit behind its header, which has none (9.3.2.1)."""
    if frame.type != DATA or frame.subtype != NULL or not frame.body.startswith(SNAP[:LLC_LEN]):
        return None
    control = bytes([PLAIN_DATA << 4 | DATA << 2, frame.octets[1]])
    return Reason("a unit stands behind a Null, which carries none: it is passed on to nobody", (0, 2),
                  f"a Data frame begins with `{control.hex()}`")


def leaving(looked: Looked, frame: Frame) -> Reason | None:
    """A departure of a station that isn't there."""
    station = looked.station(frame.transmitter)
    if frame.subtype == DEAUTHENTICATION and station is None:
        home = home_of(looked.step, looked.bssid, frame.transmitter)
        other = looked.step.before[home] if home and not looked.past.of(looked.bssid, frame.transmitter) else None
        return Reason(f"{address_text(frame.transmitter)} is unknown: {looked.why_not_there(frame.transmitter)}",
                      (10, 16), f"to {other.name} Address 1 and Address 3 are `{other.bssid.hex()}`" if other else None)
    if frame.subtype == DISASSOCIATION and station is not None and station.aid is None:
        return Reason(f"{address_text(frame.transmitter)} isn't associated: "
                      f"{looked.why_not_there(frame.transmitter, 'authenticated')}", (10, 16))
    return None
