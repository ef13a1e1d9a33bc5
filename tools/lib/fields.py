"""A frame field by field, for a person: each field's name, its octets, and what they say (IEEE Std 802.11-2016, 9.2 to
9.4, RFC 1042). Nothing is checked, and what is cut is shown as far as it goes."""
from typing import NamedTuple

from frames import (ASSOCIATION_REQUEST, ASSOCIATION_RESPONSE, AUTHENTICATION, BEACON, BROADCAST, CONTROL, DATA,
                    DEAUTHENTICATION, DISASSOCIATION, DSSS_PARAMETER_SET, EXTENDED_SUPPORTED_RATES, HEADER_LEN,
                    MANAGEMENT, PROBE_REQUEST, PROBE_RESPONSE, PS_POLL, REASSOCIATION_REQUEST, REASSOCIATION_RESPONSE,
                    SSID, SUPPORTED_RATES, TIM, Frame, address_text, number, tim_bits)
from reading import LEAST_TYPE, SNAP

MANAGEMENT_NAMES = {
    ASSOCIATION_REQUEST: "association request", ASSOCIATION_RESPONSE: "association response",
    REASSOCIATION_REQUEST: "reassociation request", REASSOCIATION_RESPONSE: "reassociation response",
    PROBE_REQUEST: "probe request", PROBE_RESPONSE: "probe response", BEACON: "beacon", 9: "ATIM",
    DISASSOCIATION: "disassociation", AUTHENTICATION: "authentication", DEAUTHENTICATION: "deauthentication",
    13: "action", 14: "action without acknowledgement"}
CONTROL_NAMES = {8: "block acknowledgement request", 9: "block acknowledgement", PS_POLL: "PS-Poll", 11: "RTS",
                 12: "CTS", 13: "acknowledgement", 14: "CF-End"}
DATA_NAMES = {0: "Data", 4: "Null", 8: "QoS Data", 12: "QoS Null"}
FLAGS = ("To DS", "From DS", "More Fragments", "Retry", "Power Management", "More Data", "Protected Frame",
         "+HTC/Order")
STATUSES = {0: "success", 1: "refused", 13: "the algorithm isn't served", 14: "not the sequence number that is due",
            17: "too many stations", 18: "a basic rate is missing"}
REASONS = {3: "the station leaves", 6: "class 2 frame of a station that isn't authenticated",
           7: "class 3 frame of a station that isn't associated", 8: "the station leaves"}
ELEMENT_NAMES = {SSID: "SSID", SUPPORTED_RATES: "Supported Rates", DSSS_PARAMETER_SET: "DSSS Parameter Set", TIM: "TIM",
                 7: "Country", 42: "ERP", 45: "HT Capabilities", 48: "RSN", EXTENDED_SUPPORTED_RATES:
                 "Extended Supported Rates", 61: "HT Operation", 127: "Extended Capabilities", 191: "VHT Capabilities",
                 192: "VHT Operation", 221: "Vendor Specific", 255: "element with an extended ID"}
# The fixed fields of a management frame's body: name, octets, and how they are said.
TIMESTAMP, INTERVAL = ("Timestamp", 8, "microseconds"), ("Beacon Interval", 2, "time units")
CAPABILITY, LISTEN = ("Capability Information", 2, "capability"), ("Listen Interval", 2, "beacon intervals")
STATUS, REASON, AID = ("Status Code", 2, "status"), ("Reason Code", 2, "reason"), ("AID", 2, "identifier")
FIXED = {
    ASSOCIATION_REQUEST: (CAPABILITY, LISTEN), ASSOCIATION_RESPONSE: (CAPABILITY, STATUS, AID),
    REASSOCIATION_REQUEST: (CAPABILITY, LISTEN, ("Current AP Address", 6, "address")),
    REASSOCIATION_RESPONSE: (CAPABILITY, STATUS, AID), PROBE_REQUEST: (),
    PROBE_RESPONSE: (TIMESTAMP, INTERVAL, CAPABILITY), BEACON: (TIMESTAMP, INTERVAL, CAPABILITY),
    DISASSOCIATION: (REASON,), DEAUTHENTICATION: (REASON,),
    AUTHENTICATION: (("Algorithm", 2, "algorithm"), ("Sequence Number", 2, ""), STATUS)}
ADDRESS_ROLES = {(False, False): ("receiver", "sender", "BSSID"), (True, False): ("BSSID", "source", "destination"),
                 (False, True): ("destination", "BSSID", "source"), (True, True): ("receiver", "transmitter",
                                                                                  "destination")}


class Field(NamedTuple):
    """One field of a frame."""

    name: str
    octets: bytes
    meaning: str


def kind_of(octets):
    """What a frame on the air is called."""
    if len(octets) < 2:
        return "octets"
    frame = Frame(octets)
    names = {MANAGEMENT: MANAGEMENT_NAMES, CONTROL: CONTROL_NAMES, DATA: DATA_NAMES}.get(frame.type, {})
    return names.get(frame.subtype, f"frame of type {frame.type}, subtype {frame.subtype}")


def fields_on_air(octets):
    """The fields of a frame on the air."""
    if len(octets) < 2:
        return [Field("octets", octets, "")] if octets else []
    frame = Frame(octets)
    flags = [name for bit, name in enumerate(FLAGS) if octets[1] >> bit & 1]
    found = [Field("Frame Control", octets[:2], ", ".join([kind_of(octets), *flags]))]
    if frame.type == CONTROL and frame.subtype == PS_POLL:
        found.append(Field("AID", octets[2:4], f"identifier {number(octets[2:4]) & 0x3FFF}"))
    else:
        found.append(Field("Duration", octets[2:4], f"{number(octets[2:4])} microseconds"))
    roles = ADDRESS_ROLES[frame.to_ds, frame.from_ds]
    if frame.type == CONTROL:
        roles = ("BSSID", "sender") if frame.subtype == PS_POLL else ("receiver", "sender")
    for place, role in enumerate(roles):
        part = octets[4 + 6 * place:10 + 6 * place]
        found.append(Field(f"Address {place + 1}", part, f"{role}: {address_meaning(part)}"))
    if frame.type == CONTROL:
        found.append(Field("octets after it", octets[16:], "not looked at"))
    else:
        control = number(octets[22:24])
        found.append(Field("Sequence Control", octets[22:24], f"number {control >> 4}, fragment {control & 0xF}"))
        found += body_fields(frame)
    return [field for field in found if field.octets]


def address_meaning(octets):
    """An address, for a person."""
    return "all" if octets == BROADCAST else address_text(octets)


def body_fields(frame):
    """The fields of a body."""
    body = frame.octets[HEADER_LEN:]
    if frame.type == MANAGEMENT and frame.subtype in FIXED and not frame.protected:
        return management_fields(frame.subtype, body)
    if frame.type != DATA or frame.protected:
        return [Field("body", body, "encrypted" if frame.protected else f"{len(body)} octets")]
    before = []
    if frame.to_ds and frame.from_ds:
        before, body = [Field("Address 4", body[:6], f"source: {address_meaning(body[:6])}")], body[6:]
    if frame.is_qos:
        before.append(Field("QoS Control", body[:2], f"traffic identifier {number(body[:2]) & 0xF}"))
        body = body[2:]
    return before + unit_fields(body)


def management_fields(subtype, body):
    """Fixed fields, then elements."""
    found, place = [], 0
    for name, size, kind in FIXED[subtype]:
        octets = body[place:place + size]
        found.append(Field(name, octets, meaning(octets, kind)))
        place += size
    if subtype in (DISASSOCIATION, DEAUTHENTICATION, AUTHENTICATION):
        return found + [Field("octets after it", body[place:], "not looked at")]
    while place < len(body):
        size = body[place + 1] if place + 1 < len(body) else 0
        octets = body[place:place + 2 + size]
        found.append(element_field(octets, len(octets) < 2 + size or len(octets) < 2))
        place += len(octets)
    return found


def meaning(octets, kind):
    """What a fixed field says."""
    value = number(octets)
    if kind == "address":
        return address_meaning(octets)
    if kind == "identifier":
        return f"identifier {value & 0x3FFF}"
    if kind == "algorithm":
        return {0: "Open System", 1: "Shared Key", 3: "SAE"}.get(value, str(value))
    if kind == "capability":
        return ", ".join(name for bit, name in ((0, "ESS"), (4, "Privacy"), (5, "Short Preamble"), (10, "Short Slot"))
                         if value >> bit & 1) or "none"
    names = {"status": STATUSES, "reason": REASONS}.get(kind)
    if names is not None:
        return f"{value}: {names[value]}" if value in names else str(value)
    return f"{value} {kind}".strip()


def element_field(octets, is_cut):
    """One element."""
    if is_cut:
        return Field("element, cut", octets, "its length says more than there is")
    identifier, worth = octets[0], octets[2:]
    name = ELEMENT_NAMES.get(identifier, f"element {identifier}")
    if identifier == SSID:
        return Field(name, octets, f"`{worth.decode('utf-8', 'replace')}`" if worth else "any (wildcard)")
    if identifier in (SUPPORTED_RATES, EXTENDED_SUPPORTED_RATES):
        rates = [f"{(rate & 0x7F) / 2:g}{' (basic)' if rate & 0x80 else ''}" for rate in worth]
        return Field(name, octets, f"{', '.join(rates)} Mb/s")
    if identifier == DSSS_PARAMETER_SET and worth:
        return Field(name, octets, f"channel {worth[0]}")
    if identifier == TIM and len(worth) >= 4:
        count, period, group, aids = tim_bits(worth)
        waits = [f"identifier {aid}" for aid in sorted(aids)] + ["the group"] * group
        return Field(name, octets, f"DTIM count {count} of {period}, units wait for {', '.join(waits) or 'nobody'}")
    return Field(name, octets, f"{len(worth)} octets")


def unit_fields(body):
    """A unit: its LLC header where it has that of RFC 1042, and its payload."""
    if body.startswith(SNAP) and len(body) >= 8:
        kind = int.from_bytes(body[6:8], "big")
        return [Field("LLC and SNAP", body[:6], "RFC 1042"), Field("type", body[6:8], f"{type_name(kind)}"),
                Field("payload", body[8:], f"{len(body) - 8} octets")]
    return [Field("unit", body, f"{len(body)} octets")]


def type_name(kind):
    """What a type of Ethernet is called."""
    names = {0x0800: "IPv4", 0x0806: "ARP", 0x86DD: "IPv6", 0x888E: "EAPOL"}
    return names.get(kind, f"type {kind:04x}")


def fields_on_wire(octets):
    """The fields of a wired frame."""
    kind = int.from_bytes(octets[12:14], "big")
    said = type_name(kind) if kind >= LEAST_TYPE else f"length {kind}"
    found = [Field("destination", octets[:6], address_meaning(octets[:6])),
             Field("source", octets[6:12], address_meaning(octets[6:12])),
             Field("type or length", octets[12:14], said), Field("payload", octets[14:], f"{len(octets[14:])} octets")]
    return [field for field in found if field.octets]
