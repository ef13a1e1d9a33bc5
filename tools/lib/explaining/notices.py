"""Why a request is answered by a notice: its class isn't allowed in the state of its station (docs/PROTOCOL.md,
"Stations that come and go"), and what would have come before it."""
import re

from explaining.nothing import IDENTIFIER, JOINING, Looked, owner_of
from explaining.past import home_of, whereabouts
from explaining.reason import Lack, Reason
from explaining.refused import Refusal
from explaining.trace_remarks import unmask
from explaining.unheard import nearest
from frames import (ASSOCIATION_REQUEST, DATA, DEAUTHENTICATION, DISASSOCIATION, MANAGEMENT, REASSOCIATION_REQUEST,
                    Frame, address_text, number)
from in_words import kind_text, name_in
from reading import is_poll

ASSOCIATIONS = (ASSOCIATION_REQUEST, REASSOCIATION_REQUEST)
# What the past tells of a request that failed.
IN_VAIN = re.compile(r"(?P<what>an authentication|an? (?:re)?association request) of it, in line (?P<line>\d+), "
                     r"(?P<how>was refused|can't be read).*")
LEFT = re.compile(r"it left in line (?P<line>\d+), by a (?P<how>\w+)")
RECEIVER, SENDER = (4, 10), (10, 16)


def notice(refusal: Refusal, looked: Looked, station: bytes) -> Reason:
    """Why a request is of a class that its station's state doesn't allow."""
    frame = Frame(looked.step.line.octets)
    is_known = refusal.kind != DEAUTHENTICATION
    said = "the station isn't associated" if is_known else "the station is unknown"
    if frame.type == DATA and frame.third in looked.associated():
        return Reason(f"{said}; Address 3, {address_text(frame.third)}, is one that is associated: the sender comes "
                      "first, then the destination", (10, 22), f"write `{frame.third.hex()} {station.hex()}`")
    remark = looked.past.remark_of(looked.bssid, station, JOINING[1:] if is_known else JOINING)
    if is_known:
        return Reason(f"{said}: {looked.why_not_there(station, 'authenticated')}", SENDER,
                      unmask(remark) if remark else why_in_vain(looked, station) or
                      after_leaving(looked, station) or "it has to associate before",
                      Lack(looked.bssid, station, True))
    owner = owner_of(looked, number(frame.octets[2:4]) & IDENTIFIER) if is_poll(frame) else ""
    home = home_of(looked.step, looked.bssid, station)
    is_to_other = home is not None and frame.type == MANAGEMENT and looked.past.of(looked.bssid, station) is None
    span = RECEIVER if is_to_other else SENDER
    told = whereabouts(looked.step, looked.bssid, station, looked.past)
    whose = f"; the identifier that it names is{owner.removeprefix(',')}" if owner else ""
    return Reason(f"{said}: {why_unknown(looked, frame)}{whose}", span,
                  unmask(remark) if remark else what_first(looked, frame, home),
                  None if told else Lack(looked.bssid, station, frame.type == DATA))


def why_unknown(looked: Looked, frame: Frame) -> str:
    """Why a network doesn't know a sender: what became of it, where else it is, and whom it may be."""
    station, here = frame.transmitter, looked.section.name
    told = whereabouts(looked.step, looked.bssid, station, looked.past)
    remark = looked.past.remark_of(looked.bssid, station, JOINING)
    if told:
        return (told if looked.past.of(looked.bssid, station) else f"{told}, and this is to {here}") + remark
    if remark:
        return remark.removeprefix("; ")
    said = f"no line before has it authenticate to {here}" if frame.type == MANAGEMENT else \
        looked.past.answered.get((looked.bssid, station)) or looked.before_trace(station)
    like = alike(looked, frame)
    return said + (f"; {address_text(like)} is one of this network, and nearly the same" if like else "")


def alike(looked: Looked, frame: Frame) -> bytes | None:
    """The station that an unknown sender may be: one of nearly the same address, whose next step this would be."""
    is_next = frame.type == MANAGEMENT
    rows = [row.address for row in looked.section.stations if (row.aid is None) == is_next]
    return None if looked.past.is_own(looked.bssid, frame.transmitter) else nearest(frame.transmitter, rows)


def why_in_vain(looked: Looked, station: bytes) -> str | None:
    """Why the line before, by which a station asks for what it lacks, did nothing; None where there is no such line."""
    found = IN_VAIN.fullmatch(looked.past.of(looked.bssid, station) or "")
    if found is None:
        return None
    number, why = looked.past.refusals.get((looked.bssid, station), (0, ""))
    if found["how"] != "was refused":
        bssid = looked.bssid.hex()
        right = f", as `A b000 0000 {bssid} {station.hex()} {bssid} 0000 0000 0100 0000`" * ("auth" in found["what"])
        return f"line {found['line']} asks for it, and can't be read; mend that line{right}"
    return f"line {found['line']} asks for it, and was refused since {why}" if number == int(found["line"]) else None


def after_leaving(looked: Looked, station: bytes) -> str | None:
    """What to do of a station that sends on behind the line by which it left; None where it didn't leave."""
    found = LEFT.match(looked.past.of(looked.bssid, station) or "")
    if found and Frame(looked.step.line.octets).is_management(DISASSOCIATION):
        return "leave this line out: a station that deauthenticates has left, and disassociates before that, if at all"
    again = "authenticate and associate" if found and found["how"] == "deauthentication" else "associate"
    return f"leave line {found['line']} out, or have it {again} again behind it" if found else None


def what_first(looked: Looked, frame: Frame, home: bytes | None) -> str:
    """What would have been served: the same of the station of nearly this address, or to the network where the station
    is, or what comes before it here."""
    station, bssid, like = frame.transmitter.hex(), looked.bssid.hex(), alike(looked, frame)
    vain = why_in_vain(looked, frame.transmitter) or after_leaving(looked, frame.transmitter)
    if vain:
        return vain
    other = looked.step.before[home] if home else None
    if like and other is None:
        return f"where that one is meant write `{like.hex()}`"
    if frame.type != MANAGEMENT:
        return f"to {other.name} Address 1 is `{other.bssid.hex()}`; here it has to authenticate and associate before" \
            if other else "it has to authenticate and associate before"
    first = f"`A b000 0000 {bssid} {station} {bssid} 0000 0000 0100 0000`"
    if other and frame.subtype in ASSOCIATIONS and name_in(frame) == other.ssid:
        return f"it names {other.name}: write `{other.bssid.hex()}` as Address 1 and as Address 3"
    return f"before {kind_text(frame.octets)} to {looked.section.name} comes its authentication: {first}"
