"""The lines of a trace (docs/FORMATS.md, "Trace"), and the octets that stations send and that come over the wire, as
a well-behaved sender makes them. Addresses, names and bodies are octets."""
import os
import sys
from typing import NamedTuple, Optional

sys.path.append(os.path.join(os.path.dirname(os.path.realpath(__file__)), "..", "tools", "lib"))
from frames import BROADCAST, address_text  # noqa: E402
from reading import SNAP  # noqa: E402

HOST = bytes.fromhex("02bb00000001")
RATES = bytes.fromhex("010402040b16")
ETHERTYPE = bytes.fromhex("0800")


class Line(NamedTuple):
    """A line of a trace: its word, its octets, and for `W` the address of its network."""

    word: str
    octets: bytes = b""
    bssid: Optional[bytes] = None

    def text(self):
        """The line, without its end."""
        shown = [self.word]
        if self.bssid:
            shown.append(address_text(self.bssid))
        if self.word != "T":
            shown.append(self.octets.hex())
        return " ".join(shown)


TICK = Line("T")


def air(octets):
    """The line of a string of octets that was heard."""
    return Line("A", octets)


def wired(bssid, to, source=HOST, payload=b"", kind=ETHERTYPE):
    """The line of a frame that came over the wire to a network. `kind` is its type or its length."""
    return Line("W", to + source + kind + payload, bssid)


def management(subtype, bssid, station, body, third=None):
    """A management frame of a station, to a network."""
    return bytes([subtype << 4, 0, 0, 0]) + bssid + station + (third or bssid) + bytes(2) + body


def element(identifier, octets):
    """An element of at most 255 octets."""
    return bytes([identifier, len(octets)]) + octets


def probe(station, name, rates=RATES):
    """A probe request to all, for an SSID: the wildcard one has no octets."""
    return management(4, BROADCAST, station, element(0, name) + rates)


def authentication(bssid, station, algorithm=0, step=1):
    """An authentication, Open System as it begins unless said otherwise."""
    fields = algorithm.to_bytes(2, "little") + step.to_bytes(2, "little") + bytes(2)
    return management(11, bssid, station, fields)


def association(bssid, station, name, rates=RATES, listen=10):
    """An association request; `name` is the SSID that it asks for."""
    fields = bytes.fromhex("0100") + listen.to_bytes(2, "little")
    return management(0, bssid, station, fields + element(0, name) + rates)


def reassociation(bssid, station, name, rates=RATES, listen=10, before=HOST):
    """A reassociation request; `before` is the access point that the station comes from."""
    fields = bytes.fromhex("0100") + listen.to_bytes(2, "little") + before
    return management(2, bssid, station, fields + element(0, name) + rates)


def disassociation(bssid, station, reason=8):
    """A disassociation."""
    return management(10, bssid, station, reason.to_bytes(2, "little"))


def deauthentication(bssid, station, reason=3):
    """A deauthentication."""
    return management(12, bssid, station, reason.to_bytes(2, "little"))


def poll(bssid, station, aid):
    """A PS-Poll with an association identifier."""
    return bytes.fromhex("a400") + (0xC000 | aid).to_bytes(2, "little") + bssid + station


def null(bssid, station, doze):
    """A Null: the station says whether it dozes."""
    return bytes([0x48, 0x11 if doze else 0x01, 0, 0]) + bssid + station + bssid + bytes(2)


def data(bssid, station, to, body, doze=False):
    """A Data frame of a station: a unit, and whether it dozes."""
    return bytes([0x08, 0x11 if doze else 0x01, 0, 0]) + bssid + station + to + bytes(2) + body


def typed(payload, kind=ETHERTYPE):
    """The body of a unit that names a type (RFC 1042)."""
    return SNAP + kind + payload
