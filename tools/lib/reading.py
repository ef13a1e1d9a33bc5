"""What one network reads of a string of octets, or of a wired frame (docs/PROTOCOL.md, "What is read" and "The
wire")."""
from functools import lru_cache
from typing import NamedTuple, Optional

from frames import (ASSOCIATION_REQUEST, AUTHENTICATION, BROADCAST, CONTROL, DATA, DEAUTHENTICATION, DISASSOCIATION,
                    HEADER_LEN, MANAGEMENT, NULL, PLAIN_DATA, PROBE_REQUEST, PS_POLL, REASSOCIATION_REQUEST, SSID,
                    Frame, elements, first_of, is_group, number)

FIXED_LEN = {PROBE_REQUEST: 0, AUTHENTICATION: 6, ASSOCIATION_REQUEST: 4, REASSOCIATION_REQUEST: 10, DISASSOCIATION: 2,
             DEAUTHENTICATION: 2}
WITH_ELEMENTS = {PROBE_REQUEST, ASSOCIATION_REQUEST, REASSOCIATION_REQUEST}
POLL_LEN, MOST_BODY = 16, 2304
SNAP = bytes.fromhex("aaaa03000000")
LEAST_TYPE, LEAST_LENGTH, MOST_LENGTH, MOST_PAYLOAD = 0x0600, 3, 1500, 2296


class Unit(NamedTuple):
    """One unit on its way: where to, where from, and its octets as on the air."""

    destination: bytes
    source: bytes
    body: bytes


class Request(NamedTuple):
    """What a station asks for: `kind` is the subtype of a management frame, or one of the words below."""

    kind: object
    station: bytes
    names: Optional[bytes] = None
    listen: int = 0
    aid: int = 0
    doze: bool = False
    unit: Optional[Unit] = None


POLL, MODE = "poll", "mode"


def hears(bssid, octets):
    """Whether a network takes a string of octets that was on the air."""
    return len(octets) >= 10 and octets[4:10] in (bssid, BROADCAST)


def request_of(bssid, octets):
    """The request of a string of octets that a network hears, or None where it counts as unread."""
    if unread_kind(bssid, octets):
        return None
    frame = Frame(octets)
    if is_poll(frame):
        return Request(POLL, frame.transmitter, aid=number(octets[2:4]) & 0x3FFF)
    return data_of(frame) if frame.type == DATA else management_of(frame)


def unread_kind(bssid, octets):
    """Why a network that hears a string of octets can't read it, `U1` to `U8`; None where it can."""
    frame = Frame(octets)
    kind, poll = frame.type, is_poll(frame)
    if len(octets) < POLL_LEN or kind != CONTROL and len(octets) < HEADER_LEN:
        return "U1"
    if octets[0] & 3:
        return "U2"
    if not poll and not is_kind(frame):
        return "U3"
    if octets[1] & 0xC4 or not poll and octets[22] & 0xF:
        return "U4"
    if octets[1] & 3 != (1 if kind == DATA else 0):
        return "U5"
    transmitter = frame.transmitter
    if is_group(transmitter) or transmitter == bssid or not is_addressed(bssid, frame):
        return "U6"
    if not poll and len(octets) > HEADER_LEN + MOST_BODY:
        return "U8"
    return None if kind != MANAGEMENT or fields_of(frame.subtype, frame.body) else "U7"


def is_poll(frame):
    """Whether it is a PS-Poll."""
    return frame.type == CONTROL and frame.subtype == PS_POLL


def is_kind(frame):
    """Whether it is a management or data frame that is read at all."""
    if frame.type == MANAGEMENT:
        return frame.subtype in FIXED_LEN
    return frame.type == DATA and frame.subtype in (PLAIN_DATA, NULL)


def is_addressed(bssid, frame):
    """Whether Address 1, and Address 3 of a management frame, are the network's, or all of a probe request."""
    own = (bssid, BROADCAST) if frame.is_management(PROBE_REQUEST) else (bssid,)
    return frame.receiver in own and (frame.type != MANAGEMENT or frame.third in own)


def data_of(frame):
    """The request of a data frame: its mode, and its unit where it has one."""
    unit = Unit(frame.third, frame.transmitter, frame.body) if frame.subtype == PLAIN_DATA else None
    return Request(MODE, frame.transmitter, doze=frame.power_management, unit=unit)


def management_of(frame):
    """The request of a management frame, or None where its body hasn't the fields of its kind."""
    fields = fields_of(frame.subtype, frame.body)
    return fields and Request(frame.subtype, frame.transmitter, names=fields[0], listen=fields[1])


@lru_cache(maxsize=4096)
def fields_of(subtype, body):
    """The SSID and the listen interval in the body of a management frame, or None where it hasn't the fields of its
    kind. Each network asks for the same bodies, and stations send the same ones again and again."""
    fixed = FIXED_LEN[subtype]
    listed = elements(body[fixed:]) if subtype in WITH_ELEMENTS else []
    if len(body) < fixed or listed is None:
        return None
    return first_of(listed, SSID), number(body[2:4])


def wired_unread_kind(octets):
    """Why a wired frame can't be read, `U1`, `U7` or `U8`; None where it can."""
    if len(octets) < 14:
        return "U1"
    if unit_from_wire(octets):
        return None
    return "U8" if int.from_bytes(octets[12:14], "big") >= LEAST_TYPE else "U7"


def unit_from_wire(octets):
    """The unit of a wired frame, or None where it counts as unread."""
    if len(octets) < 14:
        return None
    field, payload = int.from_bytes(octets[12:14], "big"), octets[14:]
    if field >= LEAST_TYPE and len(payload) <= MOST_PAYLOAD:
        return Unit(octets[:6], octets[6:12], SNAP + octets[12:])
    if LEAST_LENGTH <= field <= MOST_LENGTH and field <= len(payload):
        return Unit(octets[:6], octets[6:12], payload[:field])
    return None


def wired_form(unit):
    """The wired frame of a unit, or None where it has none (RFC 1042)."""
    addresses, body = unit.destination + unit.source, unit.body
    if len(body) >= 8 and body.startswith(SNAP) and int.from_bytes(body[6:8], "big") >= LEAST_TYPE:
        return addresses + body[6:]
    if LEAST_LENGTH <= len(body) <= MOST_LENGTH:
        return addresses + len(body).to_bytes(2, "big") + body
    return None
