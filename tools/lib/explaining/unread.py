"""Why a network can't read a frame: which of the rules U1 to U8 holds (docs/PROTOCOL.md, "What is read"), what in the
frame breaks it, and what to write there."""
from collections.abc import Callable

import called
from explaining.elements_cut import wrong_length
from explaining.reason import Reason
from explaining.repairs import repaired
from explaining.wired_types import TYPES
from fields import FIXED, FLAGS
from frames import (ASSOCIATION_REQUEST, AUTHENTICATION, BEACON, BROADCAST, CONTROL, DATA, DEAUTHENTICATION,
                    DISASSOCIATION, HEADER_LEN, MANAGEMENT, PROBE_REQUEST, Frame, address_text, is_group)
from in_words import address_word, kind_text
from reading import (FIXED_LEN, LEAST_LENGTH, LEAST_TYPE, MOST_BODY, MOST_LENGTH, MOST_PAYLOAD, POLL_LEN, request_of,
                     unread_kind, wired_unread_kind)

HEADER_ENDS = (("Address 2", 16), ("Address 3", 22), ("Sequence Control", HEADER_LEN))
# The usual fixed fields of a body.
BODIES = {AUTHENTICATION: "0000 0100 0000", ASSOCIATION_REQUEST: "0100 0a00", DISASSOCIATION: "0300",
          DEAUTHENTICATION: "0300"}
LEAST_WIRED, LEAST_HEARD, ADDRESS_LEN = 14, 10, 6


def unread(bssid: bytes, octets: bytes, current: bytes | None = None) -> Reason | None:
    """Why a network that hears a frame on the air can't read it; None where it can. `current` is the network with which
    its sender is associated."""
    rule = unread_kind(bssid, octets)
    if rule is None:
        return None
    parts: dict[str, Callable[[bytes, bytes], Reason]] = {
        "U1": short, "U2": version, "U3": kind, "U4": flags, "U5": directions, "U6": addresses, "U7": body, "U8": long}
    return repaired(bssid, octets, current) or parts[rule](bssid, octets)


def short(_: bytes, octets: bytes) -> Reason:
    """U1."""
    frame = Frame(octets)
    missing = [name for name, end in HEADER_ENDS if end > len(octets)] if frame.type != CONTROL else []
    if missing and len(octets) >= LEAST_HEARD:
        are = "are" if len(missing) > 1 else "is"
        listed = " and ".join(filter(None, (", ".join(missing[:-1]), missing[-1])))
        return Reason(f"{kind_text(octets)} of {len(octets)} octets: of its header of {HEADER_LEN} "
                      f"{listed} {are} missing", (0, len(octets)),
                      f"{called.document('FIRST_TRACE.md')} has the fields of each frame")
    least = POLL_LEN if len(octets) < POLL_LEN else HEADER_LEN
    what = "no frame that is read has fewer than" if least == POLL_LEN else "the header alone of such a frame has"
    return Reason(f"{kind_text(octets)} of {len(octets)} octets, and {what} {least}", (0, len(octets)))


def version(_: bytes, octets: bytes) -> Reason:
    """U2."""
    return Reason(f"the version, the two low bits of `{octets[0]:02x}`, is {octets[0] & 3}, and there is 0 alone",
                  (0, 1),
                  f"`{octets[0] & 0xFC:02x}` has version 0")


def kind(bssid: bytes, octets: bytes) -> Reason:
    """U3."""
    frame = Frame(octets)
    said = kind_text(octets)
    if frame.transmitter == bssid:
        return Reason(f"{said}, which the network sends itself: a trace has what it hears", (0, 2),
                      "leave the line out: the program makes its networks' frames itself" +
                      ", and a beacon of each by `T`" * frame.is_management(BEACON))
    if frame.type == MANAGEMENT and frame.subtype in FIXED:
        return Reason(f"{said}, which access points send, and none reads", (0, 2))
    if frame.is_qos:
        return Reason(f"{said}, and the program has no QoS (WMM)", (0, 2),
                      "without QoS Data begins with `0801`, and Null with `4801`")
    return Reason(f"{said}, and that kind isn't read", (0, 2), f"{called.document('FIRST_TRACE.md')} has the two "
                  "octets with which the frames begin that are read")


def flags(_: bytes, octets: bytes) -> Reason:
    """U4."""
    wrong = [FLAGS[bit] for bit in (2, 6, 7) if octets[1] >> bit & 1]
    if wrong:
        if "Protected Frame" in wrong:
            return Reason("it is encrypted (Protected Frame is 1)", (1, 2), "these networks have no encryption: what a "
                          f"station sends without it has `{octets[1] & 0x3B:02x}` there, and another body")
        return Reason(f"{' and '.join(wrong)} is 1", (1, 2), f"without it the octet is `{octets[1] & 0x3B:02x}`")
    return Reason(f"Sequence Control `{octets[22:24].hex()}` says fragment {octets[22] & 0xF}, its second digit, and "
                  "fragments aren't read", (22, 24), f"write `0000`, or `{octets[22] & 0xF0:02x}{octets[23]:02x}`")


def directions(_: bytes, octets: bytes) -> Reason:
    """U5."""
    if Frame(octets).type != DATA:
        return Reason(f"To DS or From DS is 1 in {kind_text(octets)}, which has both 0", (1, 2),
                      f"write `{octets[1] & 0xFC:02x}`")
    if octets[1] & 3 == 3:
        return Reason("To DS and From DS are 1: a frame with four addresses", (1, 2),
                      f"a station's data has three: write `{octets[0]:02x}{octets[1] & 0xFC | 1:02x}`")
    said = "From DS is 1, so an access point sent it" if octets[1] & 2 else "To DS is 0"
    return Reason(f"{said}, and data of a station has To DS 1 and From DS 0", (1, 2),
                  f"write `{octets[0]:02x}{octets[1] & 0xFC | 1:02x}`")


def addresses(bssid: bytes, octets: bytes) -> Reason:
    """U6."""
    frame, own = Frame(octets), address_text(bssid)
    if frame.transmitter == bssid:
        return Reason("Address 2 is the network's own BSSID, as Address 1 is, and the station stands there", (10, 16)) \
            if frame.receiver == bssid else \
            Reason("Address 2 is the network's own: it sent this frame itself, and a trace has what it hears", (10, 16))
    if is_group(frame.transmitter):
        is_turned = frame.type == DATA and not is_group(frame.third)
        single = bytes([frame.transmitter[0] & 0xFC | 2]) + frame.transmitter[1:]
        odd = "" if frame.transmitter == BROADCAST else f", since its first octet, {octets[10]:02x}, is odd"
        return Reason(f"Address 2 is the group address {address_word(frame.transmitter)}{odd}, and a sender is one "
                      f"station",
                      (10, 16), f"the sender comes first, then the destination: write `{frame.third.hex()}`, then "
                      f"`{frame.transmitter.hex()}`" if is_turned and not odd else
                      f"a station's is even, as `{single.hex()}`" if odd else None)
    is_probe = frame.is_management(PROBE_REQUEST)
    if frame.receiver != bssid and not is_probe:
        return Reason(f"{kind_text(octets)} to all, and it has to be to the network", (4, 10),
                      f"Address 1 is {own}, written `{bssid.hex()}`")
    if frame.receiver != bssid:
        bssid = BROADCAST
    third = address_word(frame.third)
    wanted = "all, or the BSSID of the network that is asked" if is_probe else f"the network's, {own}"
    return Reason(f"Address 3 is {third}, and has to be {wanted}", (16, 22), f"write `{bssid.hex()}`")


def body(_: bytes, octets: bytes) -> Reason:
    """U7."""
    frame = Frame(octets)
    fixed = FIXED_LEN[frame.subtype]
    if len(frame.body) < fixed:
        names = ", ".join(f"{name} {size}" for name, size, _ in FIXED[frame.subtype])
        return Reason(f"the body of {kind_text(octets)} has at least {fixed} octets ({names}), and here "
                      f"{len(frame.body)}", (HEADER_LEN, len(octets)), f"write them, as `{BODIES[frame.subtype]}`"
                      if frame.subtype in BODIES else None)
    return wrong_length(octets, HEADER_LEN + fixed)


def long(_: bytes, octets: bytes) -> Reason:
    """U8."""
    return Reason(f"{len(octets) - HEADER_LEN:,} octets follow the header, and at most {MOST_BODY:,} may",
                  (HEADER_LEN + MOST_BODY, len(octets)))


def wired_unread(bssid: bytes, octets: bytes) -> Reason | None:
    """Why a network can't read a frame of its wire; None where it can."""
    rule = wired_unread_kind(octets)
    if rule is None:
        return None
    if not octets:
        return Reason("no frame stands behind the BSSID", None, "write the frame's destination, source and type there")
    if len(octets) >= LEAST_HEARD and request_of(bssid, octets):
        return Reason(f"{kind_text(octets)} of the air (802.11) stands behind `W`, for what came over the wire",
                      (0, 2), "write `A` and the frame")
    if octets[:ADDRESS_LEN] == bssid and octets[LEAST_WIRED + 4:LEAST_WIRED + 6] in TYPES:
        return Reason("the network's BSSID stands a second time, as digits before the destination", (0, ADDRESS_LEN),
                      f"leave `{bssid.hex()}` out")
    if rule == "U1":
        return Reason(f"a frame of a wire has at least {LEAST_WIRED} octets (destination 6, source 6, type 2), and "
                      f"here {len(octets)}", (0, len(octets)), "write the type behind the addresses: IPv4 is `0800`"
                      if len(octets) == 2 * ADDRESS_LEN else None)
    if rule == "U8":
        return Reason(f"{len(octets) - LEAST_WIRED:,} octets follow the type, and at most {MOST_PAYLOAD:,} may",
                      (LEAST_WIRED + MOST_PAYLOAD, len(octets)))
    return wired_length(octets)


def wired_length(octets: bytes) -> Reason:
    """U7 of the wire: a field that is neither a type nor a length that fits."""
    field, turned = int.from_bytes(octets[12:14], "big"), int.from_bytes(octets[12:14], "little")
    payload = len(octets) - LEAST_WIRED
    written = octets[12:14].hex()
    if turned in (0x0800, 0x0806, 0x86DD):
        return Reason(f"`{written}` is the type `{turned:04x}` with its octets the wrong way round: in a frame of a "
                      "wire the high octet comes first", (12, 14), f"write `{turned:04x}`")
    if LEAST_LENGTH <= field <= MOST_LENGTH:
        too = ": it counts the header's 14 too" if field == payload + LEAST_WIRED else ""
        return Reason(f"`{written}` is a length of {field} octets, and {payload} follow{too}", (12, 14),
                      f"write `{payload:04x}`, or all {field} octets" if payload >= LEAST_LENGTH else
                      f"all {field} octets follow a length")
    return Reason(f"`{written}` is no type (from {LEAST_TYPE:04x}) and no length of {LEAST_LENGTH} to {MOST_LENGTH:,} "
                  "octets",
                  (12, 14), "IPv4 is `0800`")

