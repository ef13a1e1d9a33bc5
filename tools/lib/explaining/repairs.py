"""What one change makes of a frame that a network doesn't take or can't read: a frame that it reads. So that change is
what was meant."""
from collections.abc import Iterator

from explaining.check_sequences import FCS_LEN, LEAST_LEN, ends_with_fcs
from explaining.likeness import BEGINNINGS
from explaining.reason import Reason
from fields import ELEMENT_NAMES
from frames import (ASSOCIATION_REQUEST, AUTHENTICATION, BROADCAST, CONTROL, DATA, DEAUTHENTICATION, DISASSOCIATION,
                    HEADER_LEN, MANAGEMENT, PLAIN_DATA, PROBE_REQUEST, PS_POLL, REASSOCIATION_REQUEST, Frame, is_group,
                    number)
from in_words import kind_text
from reading import FIXED_LEN, POLL_LEN, SNAP, hears, unread_kind

DURATION, SEQUENCE, FRAGMENT = bytes(2), bytes(2), 0xF
USUAL_CAPABILITY, USUAL_FIXED, USUAL_FLAGS, TWO_HIGH_BITS = b"\1\0", b"\1\0\x0a\0", 0x18, 0xC000
RADIOTAP_MOST, MOST_STEPS = 64, 4
# The octets of control frames, and subtypes of management frames that nobody sends.
CONTROL_LENGTHS, UNUSED = {8: 20, 9: 32, 10: 16, 11: 16, 12: 10, 13: 10, 14: 16, 15: 16}, (7, 15)
QOS_SUBTYPES, EXTENSION = (8, 12), 3
# Association, reassociation and probe responses, and beacons: stations send an access point none of them.
ANSWERS = (1, 3, 5, 8)
CURRENT = "the BSSID of the access point that the station comes from"
NO_CURRENT = "it is associated with none of these networks, and an association request, which has no such field, " \
    "begins with `0000`"


def repaired(bssid: bytes, octets: bytes, current: bytes | None = None) -> Reason | None:
    """The change that makes a network read these octets; None where none of those that are tried does. `current` is
    the network with which their sender is associated."""
    if len(octets) < LEAST_LEN:
        return None
    for changed, reason in changes(bssid, octets, current):
        if hears(bssid, changed) and unread_kind(bssid, changed) is None and is_usual(Frame(changed)):
            return reason
    return None


def is_usual(frame: Frame) -> bool:
    """Whether a frame says what stations say: an authentication one of the sequence numbers that there are (9.4.1.2), a
    request to associate that it is one of an infrastructure (ESS), a departure a reason, and a management frame no
    flags but Retry and Power Management; data has a unit."""
    if frame.type != MANAGEMENT:
        has_unit = frame.type == DATA and (frame.subtype != PLAIN_DATA or bool(frame.body))
        return has_unit or frame.type == CONTROL and number(frame.octets[2:4]) >= TWO_HIGH_BITS
    said = {AUTHENTICATION: 1 <= number(frame.body[2:4]) <= MOST_STEPS, DISASSOCIATION: any(frame.body[:2]),
            DEAUTHENTICATION: any(frame.body[:2]), ASSOCIATION_REQUEST: frame.body[:1] and frame.body[0] & 1,
            REASSOCIATION_REQUEST: frame.body[:1] and frame.body[0] & 1}
    return bool(said.get(frame.subtype, True)) and frame.octets[1] & ~USUAL_FLAGS == 0


def is_of_station(frame: Frame) -> bool:
    """Whether stations alone send such a frame: requests to probe, to authenticate and to associate, data with To DS,
    and polls."""
    if frame.type != MANAGEMENT:
        return frame.type == CONTROL and frame.subtype == PS_POLL or \
            frame.type == DATA and frame.to_ds and not frame.from_ds
    is_first = frame.subtype == AUTHENTICATION and number(frame.body[2:4]) == 1
    return is_first or frame.subtype in (PROBE_REQUEST, ASSOCIATION_REQUEST, REASSOCIATION_REQUEST)


def changes(bssid: bytes, octets: bytes, current: bytes | None = None) -> Iterator[tuple[bytes, Reason]]:
    """Changes that people have to make, the likeliest first."""
    yield from of_control(octets)
    yield from of_sequence(octets)
    head = octets[:2]
    yield head + DURATION + octets[2:], Reason("the two octets of Duration are missing behind Frame Control", (2, 4),
                                               f"write `{head.hex()} 0000`, and Address 1 behind it")
    for receiver in (bssid, BROADCAST):
        if octets[3:9] == receiver:
            yield from of_cut_head(octets)
    yield from of_addresses(bssid, octets)
    if any(octets[16:22]):
        yield octets[:16] + bssid + octets[16:], Reason("Address 3 is missing behind Address 2", (16, 22),
                                                        f"write `{bssid.hex()}` there")
    yield from of_fields(bssid, octets, current)
    length = number(octets[2:4])
    if head == b"\0\0" and 8 <= length <= RADIOTAP_MOST:
        yield octets[length:], Reason("a radiotap header, the capture's own, stands before the frame", (0, length),
                                      "leave it out")
    if ends_with_fcs(octets):
        yield octets[:-FCS_LEN], Reason("the last four octets are the frame check sequence, and a trace has frames "
                                        "without it", (len(octets) - FCS_LEN, len(octets)), "leave them out")


def of_cut_head(octets: bytes) -> Iterator[tuple[bytes, Reason]]:
    """A frame whose Address 1 stands an octet too early."""
    reason = Reason(f"an octet is missing before Address 1, where Frame Control 2 and "
                    f"{'AID' if Frame(octets).type == CONTROL else 'Duration'} 2 stand, and here three: "
                    f"`{octets[:3].hex()}`", (0, 3), "write all four octets there, as `b000 0000`")
    for begin in (octets[:2], *sorted(begin for begin in BEGINNINGS if begin[0] == octets[0])):
        yield begin + (octets[1:3] if Frame(octets).type == CONTROL else DURATION) + octets[3:], reason


def of_control(octets: bytes) -> Iterator[tuple[bytes, Reason]]:
    """Changes of Frame Control."""
    turned = octets[1::-1] + octets[2:]
    if octets[1]:
        yield turned, Reason(f"the octets of Frame Control stand the wrong way round: {kind_text(turned)} begins with "
                             f"`{turned[:2].hex()}`", (0, 2), f"write `{turned[:2].hex()}`")
    digits = f"{octets[0]:02x}"[::-1] + f"{octets[1]:02x}"
    yield bytes.fromhex(digits) + octets[2:], Reason("the two digits of the first octet stand in each other's place: "
                                                     f"such a frame begins with `{digits}`",
                                                     (0, 2), f"write `{digits}`")
    frame = Frame(octets)
    is_answer = frame.type == MANAGEMENT and frame.subtype in ANSWERS
    what = f"{kind_text(octets)}, which access points send," if is_answer else "no frame that is read"
    for begin in typed_for(octets):
        yield begin + octets[2:], Reason(f"{what} begins with `{octets[:2].hex()}`, and one digit "
                                         f"differs from `{begin.hex()}`, with which "
                                         f"{kind_text(begin + octets[2:])} begins",
                                         (0, 2), f"write `{begin.hex()}`")
    if Frame(octets).type != DATA and octets[HEADER_LEN:].startswith(SNAP):
        mended = bytes([PLAIN_DATA << 4 | DATA << 2, 1])
        yield mended + octets[2:], Reason(f"LLC and SNAP, `{SNAP.hex()}`, stand behind the header, as in a Data frame, "
                                          f"and {kind_text(octets)} begins with `{octets[:2].hex()}`", (0, 2),
                                          f"write `{mended.hex()}`")
    if len(octets) >= HEADER_LEN and Frame(octets).type == DATA and not octets[1] & 3:
        mended = bytes([octets[0], octets[1] | 1])
        yield mended + octets[2:], Reason("To DS is 0, and data of a station has To DS 1", (1, 2),
                                          f"write `{mended.hex()}`")


def typed_for(octets: bytes) -> Iterator[bytes]:
    """The beginnings of frames that are read from which that of a frame differs in one digit, where it is that of no
    frame that anybody sends, or has another length than that frame."""
    frame = Frame(octets)
    is_other = frame.type == CONTROL and len(octets) > CONTROL_LENGTHS.get(frame.subtype, 0) or \
        frame.type == MANAGEMENT and frame.subtype in UNUSED or frame.type == DATA and frame.subtype not in (
            0, 4, *QOS_SUBTYPES) or frame.type != CONTROL and len(octets) == POLL_LEN
    is_answer = frame.type == MANAGEMENT and frame.subtype in ANSWERS and not is_group(frame.receiver)
    is_other = is_other or is_answer or frame.type == EXTENSION
    written = octets[:2].hex()
    for begin in sorted(BEGINNINGS) if is_other else ():
        if sum(mine != due for mine, due in zip(written, begin.hex())) == 1:
            yield begin


def of_addresses(bssid: bytes, octets: bytes) -> Iterator[tuple[bytes, Reason]]:
    """Address 1 and Address 2 in the other's place, in a frame that no network sends; or an address with an octet too
    few or too many."""
    if is_of_station(Frame(octets)):
        yield octets[:4] + octets[10:16] + octets[4:10] + octets[16:], Reason(
            f"Address 1 and Address 2 stand in each other's place: {kind_text(octets)} has its receiver first, then "
            "its sender", (4, 16), f"write `{octets[10:16].hex()} {octets[4:10].hex()}`")
    if Frame(octets).type == DATA and octets[16:22] == bssid and octets[10:16] != bssid:
        yield octets[:4] + bssid + octets[10:16] + octets[4:10] + octets[22:], Reason(
            "the BSSID stands as Address 3: data of a station has the BSSID first, then the station, then the "
            "destination",
            (4, 22), f"write `{bssid.hex()} {octets[10:16].hex()} {octets[4:10].hex()}`")
    for length in (5, 7):
        short, long = sorted((bssid, octets[4:4 + length]), key=len)
        is_one_off = len(long) - len(short) == 1 and any(long[:at] + long[at + 1:] == short for at in range(len(long)))
        if is_one_off and octets[4:10] != bssid:
            yield octets[:4] + bssid + octets[4 + length:], Reason(
                f"Address 1 has {length} octets, and an address has six", (4, 4 + length), f"write `{bssid.hex()}`")
        station = octets[10:10 + length]
        if octets[4:10] == bssid == octets[10 + length:16 + length]:
            yield octets[:10] + station.ljust(6, b"\0")[:6] + octets[10 + length:], Reason(
                f"Address 2 has {length} octets, and an address has six", (10, 10 + length))


def of_fields(bssid: bytes, octets: bytes, current: bytes | None) -> Iterator[tuple[bytes, Reason]]:
    """Fields of an association request that are missing before its elements."""
    frame = Frame(octets)
    if frame.is_management(REASSOCIATION_REQUEST):
        yield octets[:28] + bssid + octets[28:], Reason(
            "the body of a reassociation request has Capability 2, Listen Interval 2 and Current AP Address 6 before "
            "its elements, and here the address is missing", (28, 29),
            f"write `{current.hex()}` there" if current else f"write {CURRENT}; {NO_CURRENT}")
    address = octets[28:34]
    if frame.is_management(ASSOCIATION_REQUEST) and (address == bssid or address[:1] > b"\0" and not is_group(address)
                                                     and address[0] not in ELEMENT_NAMES):
        yield octets[:28] + octets[34:], Reason(
            "an address stands before the elements, as in a reassociation request, and an association request has "
            "Capability 2 and Listen Interval 2 there alone", (28, 34),
            f"leave `{address.hex()}` out, or write `2000` for `0000`")
    if frame.is_management(ASSOCIATION_REQUEST) or frame.is_management(REASSOCIATION_REQUEST):
        yield octets[:24] + USUAL_CAPABILITY + octets[24:], Reason(
            "two octets are missing before the elements, where Capability Information 2 and Listen Interval 2 stand",
            (24, 26), "write both, as `0100 0a00`")
        fixed = FIXED_LEN[frame.subtype]
        yield octets[:24] + (USUAL_FIXED + bssid)[:fixed] + octets[24:], Reason(
            f"the {fixed} octets before the elements are missing: Capability Information 2, Listen Interval 2" +
            (", Current AP Address 6" if frame.is_management(REASSOCIATION_REQUEST) else ""), (24, 26),
            f"write `{(USUAL_FIXED + (current or b''))[:fixed].hex()}` there" +
            (f", and behind it {CURRENT}; {NO_CURRENT}" if fixed > len(USUAL_FIXED) and not current else ""))


def of_sequence(octets: bytes) -> Iterator[tuple[bytes, Reason]]:
    """Changes of Sequence Control: a number that stands in the bits of the fragment, or the field that isn't there."""
    value = number(octets[22:24])
    if value & FRAGMENT and value < 1 << 12:
        meant = (value << 4).to_bytes(2, "little")
        yield octets[:22] + meant + octets[24:], Reason(
            f"Sequence Control `{octets[22:24].hex()}` says fragment {value & FRAGMENT}, its low four bits, and "
            "fragments aren't read", (22, 24), f"the sequence number {value} is `{meant.hex()}`")
    if Frame(octets).type == MANAGEMENT or octets[22:].startswith(SNAP[:3]):
        yield octets[:22] + SEQUENCE + octets[22:], Reason(
            "the two octets of Sequence Control are missing behind Address 3", (22, 24), "write `0000` there")
