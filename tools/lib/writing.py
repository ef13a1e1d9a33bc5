"""Frames that stations send, and frames that come over a wire, written from words: what tools/frame writes for a person
(docs/PROTOCOL.md, "Frames" and "The wire")."""
from dataclasses import dataclass, replace

from fields import fields_on_air, fields_on_wire
from frames import (ASSOCIATION_REQUEST, AUTHENTICATION, BROADCAST, CONTROL, DATA, DEAUTHENTICATION, DISASSOCIATION,
                    EXTENDED_SUPPORTED_RATES, HEADER_LEN, NULL, PLAIN_DATA, PROBE_REQUEST, PS_POLL,
                    REASSOCIATION_REQUEST, SSID, SUPPORTED_RATES, Frame, address_text, elements, first_of, number)
from reading import FIXED_LEN, SNAP, unread_kind

# The words of frames, each with the type and the subtype.
KINDS = {"probe": (0, PROBE_REQUEST), "auth": (0, AUTHENTICATION), "join": (0, ASSOCIATION_REQUEST),
         "rejoin": (0, REASSOCIATION_REQUEST), "disassoc": (0, DISASSOCIATION), "deauth": (0, DEAUTHENTICATION),
         "data": (DATA, PLAIN_DATA), "null": (DATA, NULL), "poll": (CONTROL, PS_POLL)}
WIRED = "wired"  # the word of a frame that comes over a wire
TO_DS, RETRY, POWER_MANAGEMENT, MORE_DATA = 0x01, 0x08, 0x10, 0x20
ESS, TWO_HIGH_BITS, MOST_IN_ONE = 0x0001, 0xC000, 8
USUAL_RATES, USUAL_LISTEN, USUAL_PAYLOAD = bytes.fromhex("02040b16"), 10, bytes.fromhex("080001")
USUAL_HOST = bytes.fromhex("02bb00000001")
NOBODY = bytes(6)
LEAVES = 3  # the reason of a station that leaves (9.4.1.7)


@dataclass(frozen=True)
class Wanted:
    """What a frame is to say. `bssid` is Address 1, or the BSSID of a PS-Poll, `third` Address 3, and `rest` what
    follows the header, where that is said by octets."""

    kind: str
    station: bytes
    bssid: bytes
    third: bytes | None = None
    duration: int = 0
    sequence: int = 0
    is_retry: bool = False
    is_dozing: bool = False
    has_more: bool = False
    ssid: bytes | None = None
    rates: bytes = USUAL_RATES
    listen: int = USUAL_LISTEN
    current: bytes | None = None
    algorithm: int = 0
    number: int = 1
    reason: int = LEAVES
    aid: int = TWO_HIGH_BITS | 1
    payload: bytes = USUAL_PAYLOAD
    rest: bytes | None = None


@dataclass(frozen=True)
class WiredFrame:
    """A frame that comes over the wire of a network: from a host to a station, with its type and its payload."""

    bssid: bytes
    destination: bytes
    source: bytes = USUAL_HOST
    payload: bytes = USUAL_PAYLOAD

    @property
    def octets(self) -> bytes:
        """Its octets."""
        return self.destination + self.source + self.payload

    def line(self) -> str:
        """The line of a trace, with spaces between its fields."""
        return " ".join(["W", address_text(self.bssid), *(field.octets.hex() for field in fields_on_wire(self.octets))])


def two(value: int) -> bytes:
    """A number of two octets, the low one first."""
    return value.to_bytes(2, "little")


def frame_of(wanted: Wanted) -> bytes:
    """The octets of a frame."""
    kind, subtype = KINDS[wanted.kind]
    flags = TO_DS * (kind == DATA) + RETRY * wanted.is_retry + POWER_MANAGEMENT * wanted.is_dozing + \
        MORE_DATA * wanted.has_more
    control = bytes([kind << 2 | subtype << 4, flags])
    rest = rest_of(wanted) if wanted.rest is None else wanted.rest
    if kind == CONTROL:
        return control + two(wanted.aid) + wanted.bssid + wanted.station + rest
    return (control + two(wanted.duration) + wanted.bssid + wanted.station + (wanted.third or wanted.bssid) +
            two(wanted.sequence << 4) + rest)


def rest_of(wanted: Wanted) -> bytes:
    """What follows the header."""
    if wanted.kind == "auth":
        return two(wanted.algorithm) + two(wanted.number) + two(0)
    if wanted.kind in ("disassoc", "deauth"):
        return two(wanted.reason)
    if wanted.kind == "data":
        return SNAP + wanted.payload
    fixed = {"probe": b"", "join": two(ESS) + two(wanted.listen),
             "rejoin": two(ESS) + two(wanted.listen) + (wanted.current or wanted.bssid)}.get(wanted.kind)
    return b"" if fixed is None else fixed + elements_of(wanted.ssid, wanted.rates)


def element(identifier: int, octets: bytes) -> bytes:
    """One element."""
    return bytes([identifier, len(octets)]) + octets


def elements_of(ssid: bytes | None, rates: bytes) -> bytes:
    """The elements of a request: a name where there is one, and rates, of which the first eight stand in one
    element."""
    more = rates[MOST_IN_ONE:]
    return (b"" if ssid is None else element(SSID, ssid)) + element(SUPPORTED_RATES, rates[:MOST_IN_ONE]) + \
        (element(EXTENDED_SUPPORTED_RATES, more) if more else b"")


def grouped(octets: bytes) -> str:
    """A frame's digits with spaces between its fields, as a line of a trace may have them."""
    return " ".join(field.octets.hex() for field in fields_on_air(octets))


def wanted_of(octets: bytes) -> Wanted | None:
    """What a frame says, so that `frame_of` gives its octets again; None where no network can read it."""
    frame = Frame(octets)
    kind = next((word for word, of in KINDS.items() if of == (frame.type, frame.subtype)), None)
    bssid = frame.third if frame.receiver == BROADCAST != frame.third else frame.receiver
    if kind is None or unread_kind(NOBODY if bssid == BROADCAST else bssid, octets):
        return None
    if kind == "poll":
        wanted = Wanted(kind, frame.transmitter, frame.receiver, aid=number(octets[2:4]), rest=octets[16:])
    else:
        wanted = Wanted(kind, frame.transmitter, frame.receiver, frame.third, number(octets[2:4]),
                        frame.sequence_control >> 4, rest=octets[HEADER_LEN:])
    wanted = replace(wanted, is_retry=frame.retry, is_dozing=frame.power_management, has_more=frame.more_data)
    return simplest(wanted, octets)


def simplest(wanted: Wanted, octets: bytes) -> Wanted:
    """The same, with what follows the header said by its fields where that gives the same octets."""
    body = octets[HEADER_LEN:]
    listed = elements(body[FIXED_LEN.get(KINDS[wanted.kind][1], 0):]) if KINDS[wanted.kind][0] == 0 else None
    said = {"auth": {"algorithm": number(body[:2]), "number": number(body[2:4])}, "data": {"payload": body[len(SNAP):]},
            "disassoc": {"reason": number(body[:2])}, "deauth": {"reason": number(body[:2])}}.get(wanted.kind, {})
    if listed:
        rates = (first_of(listed, SUPPORTED_RATES) or b"") + (first_of(listed, EXTENDED_SUPPORTED_RATES) or b"")
        said = {"ssid": first_of(listed, SSID), "rates": rates, "listen": number(body[2:4]), "current": body[4:10]}
    found = replace(wanted, rest=None, **said)
    return found if frame_of(found) == octets else wanted
