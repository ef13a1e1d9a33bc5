"""A frame in a few words, for a person: what a station asks for, what a network sends, and what came over a wire."""
from collections.abc import Callable

from fields import REASONS, STATUSES, kind_of, type_name
from frames import (ASSOCIATION_REQUEST, ASSOCIATION_RESPONSE, AUTHENTICATION, BEACON, BEACON_FIXED_LEN, BROADCAST,
                    DATA,
                    DEAUTHENTICATION, DISASSOCIATION, MANAGEMENT, NULL, PROBE_REQUEST, REASSOCIATION_REQUEST,
                    REASSOCIATION_RESPONSE, SSID, TIM, Frame, address_text, elements, first_of, number, tim_bits)
from reading import FIXED_LEN, LEAST_TYPE, is_poll

LEAST_NAMED = 16  # octets: up to the end of Address 2
ALGORITHMS = {0: "Open System", 1: "Shared Key", 2: "Fast BSS Transition", 3: "SAE"}
MOST_LETTERS = 40


def address_word(octets: bytes) -> str:
    """An address, for a person."""
    return "all" if octets == BROADCAST else address_text(octets)


def octets_text(count: int) -> str:
    """So many octets."""
    return "1 octet" if count == 1 else f"{count:,} octets"


def name_text(ssid: bytes | None) -> str:
    """What a request says of a network's name."""
    if ssid is None:
        return "without an SSID"
    return f"for {ssid_text(ssid)}" if ssid else "for any network"


def ssid_text(ssid: bytes) -> str:
    """A name between marks, or its octets where it is no text that can be shown."""
    try:
        text = ssid.decode("utf-8")
    except UnicodeDecodeError:
        return f"the octets {ssid.hex()}"
    return f"`{text[:MOST_LETTERS]}`" if text.isprintable() else f"the octets {ssid.hex()}"


def kind_text(octets: bytes) -> str:
    """What a frame on the air is called, with `a` or `an`."""
    kind = kind_of(octets)
    kind += " frame" * (len(octets) > 1 and Frame(octets).type == DATA and not kind.startswith("frame"))
    return f"{'an' if kind[0] in 'aeioAR' else 'a'} {kind}"


def name_in(frame: Frame) -> bytes | None:
    """The SSID of a request with elements, where it has one that can be found."""
    return first_of(elements(frame.body[FIXED_LEN[frame.subtype]:]) or [], SSID)


def heard_text(octets: bytes) -> str:
    """A frame on the air that somebody sent to a network, without its receiver."""
    if len(octets) < LEAST_NAMED:
        return f"{len(octets)} octets" if len(octets) < 2 else f"{kind_text(octets)} of {len(octets)} octets"
    frame = Frame(octets)
    said = f"{kind_text(octets)} of {address_word(frame.transmitter)}"
    return said + more_text(frame)


def more_text(frame: Frame) -> str:
    """What is worth saying of a request beside its kind and its sender."""
    if is_poll(frame):
        return f", identifier {number(frame.octets[2:4]) & 0x3FFF}"
    if frame.type == DATA:
        mode = "says that it dozes" if frame.power_management else "says that it is awake"
        return f", {mode}" if frame.subtype & NULL else f" to {address_word(frame.third)}, {mode}"
    if frame.type != MANAGEMENT:
        return ""
    if frame.subtype in (PROBE_REQUEST, ASSOCIATION_REQUEST, REASSOCIATION_REQUEST):
        return f" {name_text(name_in(frame))}"
    if frame.subtype == AUTHENTICATION:
        algorithm = number(frame.body[:2])
        return f": {ALGORITHMS.get(algorithm, f'algorithm {algorithm}')}, number {number(frame.body[2:4])}"
    return reason_text(frame) if frame.subtype in (DISASSOCIATION, DEAUTHENTICATION) else ""


def reason_text(frame: Frame) -> str:
    """The reason of a frame that ends something."""
    reason = number(frame.body[:2])
    return f", reason {reason}" + (f" ({REASONS[reason]})" if reason in REASONS else "")


def status_text(status: int) -> str:
    """A status, for a person."""
    return f"status {status}" + (f" ({STATUSES[status]})" if status in STATUSES else "")


def sent_text(octets: bytes) -> str:
    """A frame that a network sends on the air."""
    if len(octets) < LEAST_NAMED:
        return octets_text(len(octets))
    frame = Frame(octets)
    said = f"{kind_of(octets)} to {address_word(frame.receiver)}"
    if frame.type == DATA:
        more = ", with More Data" if frame.more_data else ""
        return f"data to {address_word(frame.receiver)} from {address_word(frame.third)}{more}"
    of_kind: dict[int, Callable[[Frame], str]] = {
        BEACON: told_text, AUTHENTICATION: lambda sent: f", {status_text(number(sent.body[4:6]))}",
        ASSOCIATION_RESPONSE: joined_text, REASSOCIATION_RESPONSE: joined_text, DEAUTHENTICATION: reason_text,
        DISASSOCIATION: reason_text}
    return said + of_kind[frame.subtype](frame) if frame.subtype in of_kind else said


def joined_text(frame: Frame) -> str:
    """What the answer to an association says."""
    status, aid = number(frame.body[2:4]), number(frame.body[4:6]) & 0x3FFF
    return f", {status_text(status)}" + (f", identifier {aid}" if status == 0 else "")


def told_text(frame: Frame) -> str:
    """What a beacon tells of units that wait."""
    listed = first_of(elements(frame.body[BEACON_FIXED_LEN:]) or [], TIM)
    if listed is None or len(listed) < 4:
        return ""
    count, period, group, aids = tim_bits(listed)
    waits = [f"identifier {aid}" for aid in sorted(aids)] + ["the group"] * group
    next_one = "a DTIM" if count == 0 else f"{count} before the next DTIM"
    return f", {next_one} (period {period})" + (f": units wait for {', '.join(waits)}" if waits else "")


def wired_text(octets: bytes) -> str:
    """A frame of a wire."""
    if len(octets) < 14:
        return f"{len(octets)} octets"
    kind = int.from_bytes(octets[12:14], "big")
    return (f"a unit to {address_word(octets[:6])} from {address_word(octets[6:12])}, "
            f"{type_name(kind) if kind >= LEAST_TYPE else f'length {kind}'}")
