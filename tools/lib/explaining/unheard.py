"""Why no network takes a frame that was on the air: it is too short, or its Address 1 is neither a network's nor
all."""
from collections.abc import Iterable

import called
from explaining.check_sequences import LEAST_LEN
from explaining.reason import Reason
from explaining.repairs import ANSWERS, repaired
from frames import (ASSOCIATION_REQUEST, AUTHENTICATION, BROADCAST, DATA, MANAGEMENT, PROBE_REQUEST,
                    REASSOCIATION_REQUEST, Frame, address_text, number)
from in_words import address_word, name_in, octets_text

NAMING = (PROBE_REQUEST, ASSOCIATION_REQUEST, REASSOCIATION_REQUEST)

def unheard(octets: bytes, networks: dict[bytes, str]) -> Reason | None:
    """The reason, for networks with these addresses and names; None where nothing but the address itself is to be
    said."""
    if not octets:
        return Reason("no frame stands behind `A`: the line ends there", None,
                      f"write its digits, as {called.document('FIRST_TRACE.md')} has them")
    if len(octets) < LEAST_LEN:
        return Reason(f"it has {octets_text(len(octets))}, and no network takes fewer than {LEAST_LEN}",
                      (0, len(octets)))
    frame = Frame(octets)
    for bssid in networks:
        reason = repaired(bssid, octets)
        if reason:
            return reason
    if octets[2:8] in networks or octets[2:8] == BROADCAST:
        return Reason("two octets are missing before Address 1, where Frame Control 2 and Duration 2 stand, and here "
                      f"`{octets[:2].hex()}` alone", (0, 2), "write both, as `b000 0000` of an authentication")
    if frame.transmitter in networks:
        return Reason(f"it is to {address_word(frame.receiver)} and from {networks[frame.transmitter]}: a network "
                      "sends this, and a trace has what networks hear", (4, 10),
                      "leave the line out: the program makes its networks' answers itself, and the report has them"
                      if is_answer(frame) else
                      "a station's frame has the BSSID as Address 1 and the station as Address 2")
    if frame.receiver == frame.transmitter:
        bssid = next((bssid for bssid in networks if bssid == frame.third), next(iter(networks)))
        return Reason(f"Address 1 is {address_text(frame.receiver)}, which is its sender, Address 2, too: the "
                      "network's BSSID stands there", (4, 10), f"write `{bssid.hex()}`")
    like = nearest(frame.receiver, networks)
    if like is None and is_slip(frame.receiver.hex(), BROADCAST.hex()):
        return Reason(f"Address 1 is {address_text(frame.receiver)}, and all are `{BROADCAST.hex()}`", (4, 10),
                      f"write `{BROADCAST.hex()}`")
    if like is None:
        return by_name(octets, networks)
    turned = ": its octets stand the wrong way round, and so may those of the other addresses" * \
        (frame.receiver == like[::-1])
    return Reason(f"Address 1 is {address_text(frame.receiver)}, and {networks[like]} has {address_text(like)}{turned}",
                  (4, 10), f"write `{like.hex()}`")


def is_answer(frame: Frame) -> bool:
    """Whether access points alone send such a frame: a response, a beacon, an authentication that answers, data with
    From DS."""
    if frame.type == DATA:
        return frame.from_ds and not frame.to_ds
    return frame.type == MANAGEMENT and (frame.subtype in ANSWERS or frame.subtype == AUTHENTICATION and
                                         number(frame.body[2:4]) == 2)


def by_name(octets: bytes, networks: dict[bytes, str]) -> Reason | None:
    """A request to another address that names one of the networks."""
    frame = Frame(octets)
    if frame.type != MANAGEMENT or frame.subtype not in NAMING:
        return None
    name = (name_in(frame) or b"").decode("utf-8", "replace")
    bssid = next((bssid for bssid, other in networks.items() if name and other == name), None)
    return Reason(f"Address 1 is {address_text(frame.receiver)}, no network's, and it names `{name}`, which has "
                  f"{address_text(bssid)}", (4, 10), f"write `{bssid.hex()}`, as Address 3 too") if bssid else None


def nearest(address: bytes, others: Iterable[bytes]) -> bytes | None:
    """The address that differs in one digit, or has two digits or two octets swapped, or its octets the other way
    round."""
    return next((other for other in others if other != address and
                 (other == address[::-1] or is_slip(address.hex(), other.hex()) or is_swapped(address, other))), None)


def is_swapped(one: bytes, other: bytes) -> bool:
    """Whether two octets that stand side by side are swapped."""
    places = [place for place, (mine, theirs) in enumerate(zip(one, other)) if mine != theirs]
    return len(places) == 2 and places[1] == places[0] + 1 and \
        one[places[0]:places[1] + 1] == other[places[0]:places[1] + 1][::-1]


def is_slip(one: str, other: str) -> bool:
    """Whether two strings of digits differ in one digit, or in two that stand side by side and are swapped."""
    places = [place for place, (mine, theirs) in enumerate(zip(one, other)) if mine != theirs]
    if len(places) == 2 and places[1] == places[0] + 1:
        return one[places[0]:places[1] + 1] == other[places[0]:places[1] + 1][::-1]
    return len(places) == 1
