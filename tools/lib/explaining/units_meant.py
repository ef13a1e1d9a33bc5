"""What a unit (MSDU) on the air may not be meant to say: one without LLC, SNAP or a type, or with something before
them."""
from collections.abc import Callable

from explaining.reason import Reason
from explaining.wired_types import TYPES, other_packet, packet_type
from fields import type_name
from frames import HEADER_LEN
from reading import LEAST_TYPE, SNAP

LLC_LEN, TYPE_LEN, ADDRESSES_LEN = 3, 2, 12
# Unnumbered commands and responses of LLC: UI, XID, TEST, SABME, DISC, UA, DM and FRMR, without and with P/F.
UNNUMBERED = {0x03, 0x13, 0xAF, 0xBF, 0xE3, 0xF3, 0x6F, 0x7F, 0x43, 0x53, 0x63, 0x73, 0x0F, 0x1F, 0x87, 0x97}
MOST_BEFORE, MOST_WRONG = 8, 2  # octets before LLC and SNAP, and wrong ones within them
# Pairs of service access points of other protocols (IEEE Std 802, LLC): STP, IPX, NetBIOS, ISO, raw IPX.
OTHER_PROTOCOLS = {bytes.fromhex(pair) for pair in ("4242", "e0e0", "f0f0", "fefe", "ffff")}
TAGS, EAPOL = (bytes.fromhex("8100"), bytes.fromhex("88a8")), bytes.fromhex("888e")
PACKETS = {0x45: "an IPv4 packet", 0x60: "an IPv6 packet"}


def of_unit(body: bytes) -> Reason | None:
    """What is doubtful in a unit on the air; None where it has LLC, SNAP and a type, or is one of another protocol."""
    if not body:
        return None
    if body.startswith(SNAP):
        found = behind_snap(body[len(SNAP):])
        return found and at(len(SNAP), found)
    parts: tuple[Callable[[bytes], Reason | None], ...] = (of_late_snap, of_cut_snap, of_wrong_snap, of_bare_type,
                                                           of_whole_frame, of_packet)
    found = next((reason for part in parts if (reason := part(body))), None)
    if found or is_other_protocol(body):
        return found and at(0, found)
    return at(0, Reason(f"the unit begins with `{body[:len(SNAP)].hex()}`, and not with LLC and SNAP, `{SNAP.hex()}`, "
                        "and a type: on a wire it has its length where the type stands, and no host knows what it is",
                        (0, min(len(SNAP), len(body))), f"write `{SNAP.hex()} 0800` before an IPv4 packet"))


def at(begin: int, reason: Reason) -> Reason:
    """A reason whose octets are those of a body from this place on, as one of the frame."""
    first, last = reason.span or (0, 1)
    return Reason(reason.text, (HEADER_LEN + begin + first, HEADER_LEN + begin + last), reason.advice)


def is_other_protocol(body: bytes) -> bool:
    """Whether a unit has an LLC header of another protocol than those with a type."""
    return body[:2] in OTHER_PROTOCOLS or len(body) >= LLC_LEN and body[2] in UNNUMBERED


def is_test(body: bytes) -> bool:
    """Whether a unit answers a TEST or XID command (IEEE Std 802.2), as stations answer those of an access point."""
    return len(body) >= LLC_LEN and body[1] & 1 == 1 and body[2] in (0xE3, 0xF3, 0xAF, 0xBF)


def is_packet(body: bytes) -> bool:
    """Whether a unit begins as a packet of its type does, as those by which stations ask a router or a server."""
    kind, packet = body[len(SNAP):len(SNAP) + TYPE_LEN].hex(), body[len(SNAP) + TYPE_LEN:]
    begins = {"0800": packet[:1] == b"\x45" and len(packet) > 1, "0806": packet[:2] == b"\0\1",
              "86dd": packet[:1].hex()[:1] == "6"}
    return body.startswith(SNAP) and begins.get(kind, False)


def of_strange_type(kind: bytes) -> Reason | None:
    """A type of what these networks don't have, and pass on as it is."""
    if kind in TAGS:
        return Reason(f"a tag of a VLAN (`{kind.hex()}`) stands before the type, and these networks have no VLANs: the "
                      "unit is passed on with it", (0, 2 * TYPE_LEN), "leave its four octets out; a network's wire may "
                      "be the interface of a VLAN, as eth0.7")
    return Reason(f"the unit is EAPOL (`{kind.hex()}`), by which stations agree on keys, and these networks don't "
                  "encrypt: it is passed on as any other", (0, TYPE_LEN),
                  "a station joins an open network without it") if kind == EAPOL else None


def behind_snap(rest: bytes) -> Reason | None:
    """What stands behind LLC and SNAP, and is no type that was meant."""
    written, kind = rest[:2].hex(), int.from_bytes(rest[:2], "big")
    if len(rest) < TYPE_LEN:
        there = f"`{written}` alone stands" if rest else "nothing stands"
        return Reason(f"behind LLC and SNAP {there}, and a type has two octets", (0, max(1, len(rest))),
                      "write the type there: IPv4 is `0800`")
    if rest.startswith(SNAP[:LLC_LEN]):
        return Reason("LLC and SNAP stand twice", (0, len(SNAP)), "leave them out once")
    strange = of_strange_type(rest[:TYPE_LEN])
    if strange:
        return strange
    if rest[0] == 0 and rest[1:3] in TYPES:
        return Reason(f"an octet too many stands before the type `{rest[1:3].hex()}`: LLC and SNAP have six, "
                      f"`{SNAP.hex()}`", (0, 1), "leave `00` out")
    cut = of_cut_type(rest)
    if cut:
        return cut
    if rest[1::-1] in TYPES and rest[:2] not in TYPES:
        turned = rest[1::-1]
        return Reason(f"`{written}` is the type `{turned.hex()}` ({type_name(int.from_bytes(turned, 'big'))}) with its "
                      "octets the wrong way round: of a type the high octet comes first", (0, 2),
                      f"write `{turned.hex()}`")
    if rest[0] in PACKETS and rest[1] == 0:
        return Reason(f"{PACKETS[rest[0]]} (`{written}`) stands where the type does", (0, 2),
                      f"write the type before it: `{'0800' if rest[0] == 0x45 else '86dd'}`")
    other = other_packet(rest[:TYPE_LEN], rest[TYPE_LEN:])
    if other:
        owner = f"is {type_name(kind)}'s" if rest[:TYPE_LEN] in TYPES else "stands there"
        return Reason(f"the type `{written}` {owner}, and what follows is of {type_name(int(other, 16))}",
                      (0, TYPE_LEN), f"write `{other}`")
    if kind < LEAST_TYPE:
        return Reason(f"`{written}` stands where the type does, and a type is at least {LEAST_TYPE:04x}: on a wire the "
                      "unit has its length there, and LLC and SNAP in it", (0, 2), "IPv4 is `0800`, and ARP `0806`")
    return None


def of_cut_type(rest: bytes) -> Reason | None:
    """A type that lacks an octet, or with one behind it that belongs to nothing."""
    cut, late = packet_type(rest[1:]), packet_type(rest[TYPE_LEN + 1:])
    if cut and rest[:1].hex() in cut:
        return Reason(f"`{rest[:1].hex()}` alone stands before the packet of {type_name(int(cut, 16))}, whose type is "
                      f"`{cut}`", (0, 1), f"write `{cut}`")
    return Reason(f"`{rest[TYPE_LEN:TYPE_LEN + 1].hex()}` stands between the type and the packet of "
                  f"{type_name(int(late, 16))}", (TYPE_LEN, TYPE_LEN + 1), "leave it out") \
        if late and rest[:TYPE_LEN].hex() == late else None


def of_cut_snap(body: bytes) -> Reason | None:
    """LLC and SNAP of which octets are missing, before a type."""
    cuts = (SNAP[:begin] + SNAP[end:] for begin in range(len(SNAP)) for end in range(begin + 1, len(SNAP) + 1))
    rest = next((rest for rest in cuts if len(rest) > 1 and body.startswith(rest) and
                 body[len(rest):len(rest) + 2] in TYPES), None)
    if rest is None:
        return None
    kind = body[len(rest):len(rest) + TYPE_LEN].hex()
    return Reason(f"`{rest.hex()}` stands before the type `{kind}`, and LLC and SNAP have six octets", (0, len(rest)),
                  f"write `{SNAP.hex()}` there")


def of_late_snap(body: bytes) -> Reason | None:
    """LLC and SNAP with something before them, as the fields that QoS or four addresses have there."""
    place = body.find(SNAP, 1, len(SNAP) + MOST_BEFORE)
    if place < 0:
        return None
    what = {2: " (a QoS Control field, which Data frames don't have)", 6: " (a fourth address, which Data frames of a "
            "station don't have)"}.get(place, "")
    return Reason(f"`{body[:place].hex()}` stands before LLC and SNAP{what}", (0, place), "leave it out")


def of_wrong_snap(body: bytes) -> Reason | None:
    """LLC and SNAP with an octet or two that are others, before a type."""
    wrong = [at for at, (mine, due) in enumerate(zip(body, SNAP)) if mine != due]
    if not 0 < len(wrong) <= MOST_WRONG or body[len(SNAP):len(SNAP) + TYPE_LEN] not in TYPES:
        return None
    return Reason(f"`{body[:len(SNAP)].hex()}` stands before the type, and LLC and SNAP are `{SNAP.hex()}`",
                  (wrong[0], wrong[-1] + 1), f"write `{SNAP.hex()}`")


def of_bare_type(body: bytes) -> Reason | None:
    """A type without LLC and SNAP, or without LLC before it."""
    if body[:2] in TYPES:
        return Reason(f"the unit begins with the type `{body[:2].hex()}` "
                      f"({type_name(int.from_bytes(body[:2], 'big'))}), and LLC and SNAP are missing before it", (0, 2),
                      f"write `{SNAP.hex()} {body[:2].hex()}`")
    return None


def of_whole_frame(body: bytes) -> Reason | None:
    """A whole frame of Ethernet as a unit."""
    if body[ADDRESSES_LEN:ADDRESSES_LEN + 2] not in TYPES:
        return None
    return Reason("a whole frame of Ethernet, with its addresses, stands where the unit does", (0, ADDRESSES_LEN + 2),
                  f"write `{SNAP.hex()}` and the type for its two addresses: those stand in the header")


def of_packet(body: bytes) -> Reason | None:
    """A packet without LLC, SNAP and a type."""
    if len(body) < 2 or body[0] not in PACKETS or body[1]:
        return None
    kind = "0800" if body[0] == 0x45 else "86dd"
    return Reason(f"the unit begins with {PACKETS[body[0]]} (`{body[:2].hex()}`), and LLC, SNAP and a type are missing "
                  "before it", (0, 2), f"write `{SNAP.hex()} {kind}` before it")
