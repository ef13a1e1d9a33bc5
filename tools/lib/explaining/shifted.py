"""Frames whose header lacks octets, by where the unit begins that follows it: all that stands behind the gap is read as
another field than it was meant as."""
from collections.abc import Iterable

from explaining.reason import Reason
from explaining.repairs import repaired
from explaining.wired_types import TYPES, packet_type
from fields import type_name
from frames import DATA, HEADER_LEN, PLAIN_DATA, Frame
from reading import SNAP, hears, unread_kind, wired_unread_kind
from texts import Line

ADDRESS_LEN, TYPE_LEN, WIRED_TYPE = 6, 2, 12


def shifted(line: Line, bssids: Iterable[bytes]) -> Reason | None:
    """What a header lacks; None where it is whole, where it isn't seen, or where one change makes a frame of it that
    one of these networks reads."""
    if line.kind != "A":
        return on_wire(line.octets) if line.kind == "W" else None
    found, networks = on_air(line.octets), list(bssids)
    is_read = any(hears(bssid, line.octets) and unread_kind(bssid, line.octets) is None for bssid in networks)
    is_told = not is_read and any(repaired(bssid, line.octets) for bssid in networks)
    return None if is_told else found


def on_air(octets: bytes) -> Reason | None:
    """A Data frame with LLC, SNAP and a type before the place where its body begins."""
    frame = Frame(octets)
    if len(octets) < HEADER_LEN or frame.type != DATA or frame.subtype != PLAIN_DATA:
        return None
    for missing, what in ((1, "an octet is"), (ADDRESS_LEN, "six octets, as many as an address has, are")):
        begin = HEADER_LEN - missing
        kind = octets[begin + len(SNAP):begin + len(SNAP) + TYPE_LEN]
        if octets[begin:].startswith(SNAP) and kind in TYPES:
            return Reason(f"LLC and SNAP begin behind {begin} octets, and the header of a Data frame has {HEADER_LEN}: "
                          f"{what} missing before them", (0, begin),
                          "Frame Control 2, Duration 2, three addresses of 6 and Sequence Control 2 stand there")
    return None


def on_wire(octets: bytes) -> Reason | None:
    """A frame of a wire with its type before the place where it stands."""
    if octets[WIRED_TYPE:WIRED_TYPE + TYPE_LEN] in TYPES:
        return None
    alone = packet_type(octets)
    if alone:
        return Reason(f"a packet of {type_name(int(alone, 16))} stands alone, and a frame on a wire begins with its "
                      "destination, its source and its type", (0, 2),
                      f"write the two addresses and `{alone}` before it")
    is_unread = wired_unread_kind(octets) is not None
    for missing, what in ((1, "an octet is"), (ADDRESS_LEN, "an address is")):
        begin = WIRED_TYPE - missing
        kind, packet = octets[begin:begin + TYPE_LEN], octets[begin + TYPE_LEN:]
        if kind in TYPES and (is_unread or packet_type(packet) == kind.hex()):
            return Reason(f"the type `{kind.hex()}` stands behind {begin} octets, and the destination and the source "
                          f"have {WIRED_TYPE}: {what} missing before it", (0, begin),
                          "a frame on a wire begins with its destination 6 and its source 6")
    cut = packet_type(octets[WIRED_TYPE + 1:])
    first = octets[WIRED_TYPE:WIRED_TYPE + 1].hex()
    return Reason(f"`{first}` alone stands where the type does, before a packet whose type is `{cut}`",
                  (WIRED_TYPE, WIRED_TYPE + 1), f"write `{cut}`") if cut and first in cut else None
