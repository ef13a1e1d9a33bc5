#!/usr/bin/env python3
"""A second model of docs/PROTOCOL.md and docs/FORMATS.md, in plain Python: of a configuration and a trace, what the
program has to write.

It was written from the clauses of IEEE Std 802.11-2016 and RFC 1042 and from these pages alone, by someone who had
seen neither the definitions nor the first model, bench/model.py. So where both models and the program give one answer,
their writers took each sentence to say the same. Neither model takes anything from the other.

`answer_of(config, trace)` is what `apctl run CONFIG TRACE` writes, with its status; `live_answer_of(config, lines)` is
that of `apctl live CONFIG` with `lines` on standard input. It looks at no record, and at no memory, file or stream that
fails. Python reads TOML 1.0, so what TOML 1.1 alone has is `fault C1` here: \\x and \\e in strings, line ends and a last
comma in inline tables, times without seconds.
"""
import argparse
import functools
import re
import sys
import tomllib
from typing import Iterator, NamedTuple, Optional

# --- What is answered -----------------------------------------------------------------------------------------------


class Answer(NamedTuple):
    """What a run leaves behind."""

    status: int
    out: bytes  # standard output
    fault: bytes  # standard error


class Fault(Exception):
    """The input has a fault; the text is the line that names it, without its LF."""


STATUS_OF_A_FAULT = 1  # of a configuration or a trace

# --- Configuration --------------------------------------------------------------------------------------------------

BYTE_ORDER_MARK = "\ufeff"  # docs/FORMATS.md, "Which TOML is read": at the start it is read over
MOST_LEVELS = 80  # that a configuration nests
LARGEST_INTEGER = 2**63 - 1  # TOML: an integer that isn't held without loss is an error; 64 bits are held

TOP_KEYS = {"version", "channel", "interval", "queue", "network"}
NETWORK_KEYS = {"bssid", "ssid", "rates", "dtim", "max_stations", "max_known", "quota", "max_events"}
NETWORK_KEYS_OF_VERSION_2 = NETWORK_KEYS | {"relay", "aging"}

# C4 to C6 and C11: the keys that are numbers, with their limits.
TOP_NUMBERS = (("C4", "channel", 1, 14), ("C5", "interval", 1, 65_535), ("C6", "queue", 1, 4096))
NETWORK_NUMBERS = (
    ("dtim", 1, 255),
    ("max_stations", 1, 2007),
    ("max_known", 1, 10_000),
    ("quota", 0, 100_000),
    ("max_events", 1, 1_000_000),
)

ADDRESS_TEXT = re.compile("[0-9A-Fa-f]{2}(:[0-9A-Fa-f]{2}){5}")
HEXADECIMAL = re.compile("[0-9A-Fa-f]*")


class Settings(NamedTuple):
    """What a configuration says of one network, with the channel and the interval of all."""

    bssid: bytes
    ssid: bytes
    rates: bytes
    dtim: int
    max_stations: int
    max_known: int
    quota: int
    max_events: int
    relay: bool
    aging: bool
    channel: int
    interval: int


def address_of(text: str) -> Optional[bytes]:
    """The six octets that six pairs of hexadecimal digits with `:` between stand for, else None."""
    if ADDRESS_TEXT.fullmatch(text) is None:
        return None
    return bytes.fromhex(text.replace(":", ""))


def is_group(address: bytes) -> bool:
    """9.2.2: bit 0 of the first octet."""
    return address[0] & 1 == 1


def is_number(value: object, least: int, most: int) -> bool:
    """A whole number within its limits; a truth value is another type, though Python takes it for a number."""
    return type(value) is int and least <= value <= most


def check_that_toml_is_read(table: dict) -> None:
    """C1, of what Python's reader takes and the page doesn't: too many levels, integers of more than 64 bits."""
    waiting = [(table, 0)]
    while waiting:
        value, level = waiting.pop()
        if isinstance(value, (dict, list)):
            if level > MOST_LEVELS:
                raise Fault("fault C1")
            inner = value.values() if isinstance(value, dict) else value
            waiting.extend((each, level + 1) for each in inner)
        elif type(value) is int and not -LARGEST_INTEGER - 1 <= value <= LARGEST_INTEGER:
            raise Fault("fault C1")


def toml_of(octets: bytes) -> dict:
    """C1: UTF-8, and TOML."""
    try:
        table = tomllib.loads(octets.decode("utf-8").removeprefix(BYTE_ORDER_MARK))
    except (ValueError, RecursionError):
        raise Fault("fault C1") from None
    check_that_toml_is_read(table)
    return table


def check_keys(table: dict, version: int) -> None:
    """C3: keys at the top and in each table of the array `network`, and nowhere else."""
    listed = NETWORK_KEYS if version == 1 else NETWORK_KEYS_OF_VERSION_2
    networks = table.get("network")
    tables = [each for each in networks if isinstance(each, dict)] if isinstance(networks, list) else []
    if not TOP_KEYS.issuperset(table) or any(not listed.issuperset(each) for each in tables):
        raise Fault("fault C3")


def rates_of(value: object) -> Optional[bytes]:
    """C10: the octets of `rates`, or None."""
    if not isinstance(value, str) or HEXADECIMAL.fullmatch(value) is None or len(value) % 2 == 1:
        return None
    rates = bytes.fromhex(value)
    speeds = [rate & 0x7F for rate in rates]
    if not 1 <= len(rates) <= 16 or len(set(speeds)) < len(speeds):
        return None
    return rates if all(1 <= speed <= 108 for speed in speeds) else None


def settings_of(table: dict, top: dict, place: int, earlier: list) -> Settings:
    """C8 to C13 of the network at a place, after those before it were found to be right."""

    def fault(code: str) -> Fault:
        return Fault(f"fault {code} network {place}")

    text = table.get("bssid")
    bssid = address_of(text) if isinstance(text, str) else None
    if bssid is None or is_group(bssid) or any(other.bssid == bssid for other in earlier):
        raise fault("C8")
    text = table.get("ssid")
    ssid = text.encode("utf-8") if isinstance(text, str) else b""
    if not 1 <= len(ssid) <= 32:
        raise fault("C9")
    rates = rates_of(table.get("rates"))
    if rates is None:
        raise fault("C10")
    if any(not is_number(table.get(key), least, most) for key, least, most in NETWORK_NUMBERS):
        raise fault("C11")
    if table["max_known"] < table["max_stations"]:
        raise fault("C12")
    # A text of version 1 stands for networks that relay and whose units don't age.
    relay, aging = (True, False) if top["version"] == 1 else (table.get("relay"), table.get("aging"))
    if not isinstance(relay, bool) or not isinstance(aging, bool):
        raise fault("C13")
    numbers = {key: table[key] for key, _, _ in NETWORK_NUMBERS}
    return Settings(bssid, ssid, rates, **numbers, relay=relay, aging=aging, channel=top["channel"],
                    interval=top["interval"])


@functools.lru_cache(maxsize=1)
def all_settings_of(config: bytes) -> list:
    """The settings of each network, or the first fault ("Configuration"). The last one is kept: it is often asked for
    again."""
    table = toml_of(config)
    if not is_number(table.get("version"), 1, 2):
        raise Fault("fault C2")
    check_keys(table, table["version"])
    for code, key, least, most in TOP_NUMBERS:
        if not is_number(table.get(key), least, most):
            raise Fault(f"fault {code}")
    networks = table.get("network")
    most = 8 if table["version"] == 1 else 16
    if not isinstance(networks, list) or not 1 <= len(networks) <= most:
        raise Fault("fault C7")
    if any(not isinstance(each, dict) for each in networks):
        raise Fault("fault C7")
    found: list = []
    for place, each in enumerate(networks):
        found.append(settings_of(each, table, place, found))
    return found


def networks_of(config: bytes) -> list:
    """The networks of a configuration, as they begin, or the configuration's first fault."""
    return [Network(settings) for settings in all_settings_of(config)]


# --- Trace ----------------------------------------------------------------------------------------------------------

MOST_LINES = 1_000_000
MOST_OCTETS = 4096
NOT_HEXADECIMAL = re.compile(rb"[^0-9A-Fa-f]")


class Event(NamedTuple):
    """A line of a trace that isn't skipped."""

    letter: bytes
    bssid: bytes
    octets: bytes


def lines_of(octets: bytes) -> Iterator[bytes]:
    """The lines, without the LF and the one CR before it; a last line without LF keeps its CR."""
    *ended, last = octets.split(b"\n")
    for line in ended:
        yield line.removesuffix(b"\r")
    if last:
        yield last


def octets_of(text: bytes) -> bytes:
    """OCTETS, or L2 or L5."""
    digits = text.replace(b" ", b"")
    if len(digits) % 2 == 1 or NOT_HEXADECIMAL.search(digits):
        raise Fault("L2")
    if len(digits) > 2 * MOST_OCTETS:
        raise Fault("L5")
    return bytes.fromhex(digits.decode("ascii"))


def event_of(line: bytes, bssids: set, alone: tuple = (b"T",)) -> Optional[Event]:
    """What a line says, None where it is skipped; `alone` are the letters that nothing may follow."""
    line = line.rstrip(b" ")
    if not line or line.startswith(b"#"):
        return None
    letter, _, rest = line.partition(b" ")
    if letter in alone and not rest:
        return Event(letter, b"", b"")
    if letter == b"A":
        return Event(letter, b"", octets_of(rest))
    if letter != b"W":
        raise Fault("L1")
    word, _, rest = rest.lstrip(b" ").partition(b" ")
    bssid = address_of(word.decode("latin-1"))
    if bssid is None:
        raise Fault("L3")
    if bssid not in bssids:
        raise Fault("L4")
    return Event(letter, bssid, octets_of(rest))


def events_of(trace: bytes, bssids: set) -> list:
    """The events of a trace, or the first line with a fault ("Trace")."""
    events = []
    for number, line in enumerate(lines_of(trace), start=1):
        try:
            if number > MOST_LINES:
                raise Fault("L5")
            event = event_of(line, bssids)
        except Fault as fault:
            raise Fault(f"fault {fault} line {number}") from None
        if event is not None:
            events.append(event)
    return events


# --- Frames ---------------------------------------------------------------------------------------------------------

BROADCAST = b"\xff" * 6

# Octet 0 of Frame Control (9.2.4.1) is version, type and subtype. These have version 0, so they name a kind.
ASSOCIATION_REQUEST, ASSOCIATION_RESPONSE = 0x00, 0x10
REASSOCIATION_REQUEST, REASSOCIATION_RESPONSE = 0x20, 0x30
PROBE_REQUEST, PROBE_RESPONSE = 0x40, 0x50
BEACON = 0x80
DISASSOCIATION, AUTHENTICATION, DEAUTHENTICATION = 0xA0, 0xB0, 0xC0
PS_POLL = 0xA4
DATA, NULL = 0x08, 0x48

# Octet 1 of Frame Control: bits 8 to 15.
TO_DS, FROM_DS, MORE_FRAGMENTS, POWER_MANAGEMENT, MORE_DATA, PROTECTED, ORDER = 1, 2, 4, 16, 32, 64, 128

SHORT_HEADER = 16  # of a PS-Poll (9.3.1.5)
HEADER = 24  # of the others (9.3.3.2, 9.3.2.1)
MOST_OF_A_BODY = 2304

# The octets of the fixed fields of each kind that is read ("What is read").
FIXED_FIELDS = {
    PROBE_REQUEST: 0,
    AUTHENTICATION: 6,
    ASSOCIATION_REQUEST: 4,
    REASSOCIATION_REQUEST: 10,
    DISASSOCIATION: 2,
    DEAUTHENTICATION: 2,
    PS_POLL: 0,
    DATA: 0,
    NULL: 0,
}
WITH_ELEMENTS = (PROBE_REQUEST, ASSOCIATION_REQUEST, REASSOCIATION_REQUEST)

# Classes of requests (11.3.3).
CLASS_2 = (ASSOCIATION_REQUEST, REASSOCIATION_REQUEST, DISASSOCIATION)
CLASS_3 = (DATA, NULL, PS_POLL)

# Elements (9.4.2.1).
SSID, SUPPORTED_RATES, DSSS_PARAMETER_SET, TIM, EXTENDED_SUPPORTED_RATES = 0, 1, 3, 5, 50


def short(number: int) -> bytes:
    """A number of two octets, the low one first."""
    return number.to_bytes(2, "little")


def number_of(octets: bytes) -> int:
    return int.from_bytes(octets, "little")


def element(identifier: int, content: bytes) -> bytes:
    return bytes([identifier, len(content)]) + content


def elements_of(octets: bytes) -> Optional[dict]:
    """The first element of each ID, or None where the octets aren't elements to the last one."""
    found: dict = {}
    place = 0
    while place < len(octets):
        if place + 2 > len(octets):
            return None
        start = place + 2
        end = start + octets[place + 1]
        if end > len(octets):
            return None
        found.setdefault(octets[place], octets[start:end])
        place = end
    return found


def header_of(kind: int) -> int:
    return SHORT_HEADER if kind == PS_POLL else HEADER


def is_read(octets: bytes, bssid: bytes) -> bool:
    """Whether a network reads what it hears: U1 to U8 of "What is read", in the order of the page."""
    is_control = octets[0] >> 2 & 3 == 1
    if len(octets) < SHORT_HEADER or (len(octets) < HEADER and not is_control):
        return False  # U1
    kind, flags = octets[0], octets[1]
    if kind not in FIXED_FIELDS:
        return False  # U2 and U3: the version and the kind are one octet
    if flags & (MORE_FRAGMENTS | PROTECTED | ORDER):
        return False  # U4
    if kind != PS_POLL and octets[22] & 15 != 0:
        return False  # U4, the fragment number
    if flags & (TO_DS | FROM_DS) != (TO_DS if kind in (DATA, NULL) else 0):
        return False  # U5
    if not has_right_addresses(octets, kind, bssid):
        return False  # U6
    if kind != PS_POLL and len(octets) - HEADER > MOST_OF_A_BODY:
        return False  # U8
    body = octets[header_of(kind):]
    if len(body) < FIXED_FIELDS[kind]:
        return False  # U7
    return kind not in WITH_ELEMENTS or elements_of(body[FIXED_FIELDS[kind]:]) is not None


def has_right_addresses(octets: bytes, kind: int, bssid: bytes) -> bool:
    """U6."""
    own = (bssid, BROADCAST) if kind == PROBE_REQUEST else (bssid,)
    transmitter = octets[10:16]
    if octets[4:10] not in own or is_group(transmitter) or transmitter == bssid:
        return False
    return kind in CLASS_3 or octets[16:22] in own


# --- The wire -------------------------------------------------------------------------------------------------------

SNAP = bytes.fromhex("aaaa03000000")  # RFC 1042
LEAST_TYPE = 0x0600
MOST_AFTER_A_TYPE = 2296
LEAST_LENGTH, MOST_LENGTH = 3, 1500


class Unit(NamedTuple):
    """One MSDU with its addresses, and the clock at which it came."""

    destination: bytes
    source: bytes
    body: bytes
    clock: int


def body_from_wire(octets: bytes) -> Optional[bytes]:
    """The body on the air of an Ethernet frame, or None where it is unread ("The wire")."""
    if len(octets) < 14:
        return None
    field = int.from_bytes(octets[12:14], "big")
    payload = octets[14:]
    if field >= LEAST_TYPE:
        return SNAP + octets[12:] if len(payload) <= MOST_AFTER_A_TYPE else None
    if LEAST_LENGTH <= field <= MOST_LENGTH and len(payload) >= field:
        return payload[:field]  # what follows is padding
    return None


def wired_form(unit: Unit) -> Optional[bytes]:
    """The Ethernet frame of a unit, or None where it has none."""
    body = unit.body
    addresses = unit.destination + unit.source
    if len(body) >= 8 and body.startswith(SNAP) and int.from_bytes(body[6:8], "big") >= LEAST_TYPE:
        return addresses + body[6:]
    if LEAST_LENGTH <= len(body) <= MOST_LENGTH:
        return addresses + len(body).to_bytes(2, "big") + body
    return None


# --- A network ------------------------------------------------------------------------------------------------------

ESS = short(1)  # Capability Information: ESS alone
LAST_IDENTIFIER = 2007

# Reasons (9.4.1.7) and statuses (9.4.1.9).
REASON_CLASS_2, REASON_CLASS_3 = 6, 7
SUCCESS, REFUSED, ALGORITHM, SEQUENCE, TOO_MANY, RATES = 0, 1, 13, 14, 17, 18


class Station:
    """A row of the table. A station that is authenticated only has the identifier 0."""

    def __init__(self, address: bytes) -> None:
        self.address = address
        self.leave()

    def leave(self) -> None:
        """It is authenticated only, and its identifier is free."""
        self.identifier = 0
        self.listen = 0
        self.dozes = False

    def is_associated(self) -> bool:
        return self.identifier != 0


class Network:
    """One network, alone: what it keeps, and what it does for each event ("A network")."""

    def __init__(self, settings: Settings) -> None:
        self.settings = settings
        self.stations: dict = {}  # address to Station, in the order in which they first authenticated
        self.kept: list = []  # units, in order of arrival
        self.clock = 0
        self.sequence = 0
        self.lost = 0
        self.unread = 0
        self.events = 0
        self.air: list = []
        self.wire: list = []

    # Events

    def take(self, event: Event) -> None:
        """Do what one line of a trace says, if it is for this network."""
        if event.letter == b"T":
            self.events += 1
            self.begin_interval()
        elif event.letter == b"A" and self.hears(event.octets):
            self.events += 1
            self.take_from_air(event.octets)
        elif event.letter == b"W" and event.bssid == self.settings.bssid:
            self.events += 1
            self.take_from_wire(event.octets)

    def hears(self, octets: bytes) -> bool:
        return len(octets) >= 10 and octets[4:10] in (self.settings.bssid, BROADCAST)

    def take_from_air(self, octets: bytes) -> None:
        if not is_read(octets, self.settings.bssid):
            self.unread += 1
            return
        kind, address = octets[0], octets[10:16]
        body = octets[header_of(kind):]
        if kind == PROBE_REQUEST:
            self.answer_probe(address, body)
        elif kind == AUTHENTICATION:
            self.answer_authentication(address, body)
        elif kind == DEAUTHENTICATION:
            self.remove(address)
        elif self.has_state_for(kind, address):
            self.take_of_known(kind, self.stations[address], octets, body)

    def take_from_wire(self, octets: bytes) -> None:
        body = body_from_wire(octets)
        if body is None:
            self.unread += 1
        else:
            self.deliver_on_air(Unit(octets[0:6], octets[6:12], body, self.clock))

    # What is sent

    def send(self, kind: int, flags: int, receiver: bytes, address_3: bytes, body: bytes) -> None:
        """A frame with Duration 0, fragment number 0 and the next sequence number ("What is sent")."""
        header = bytes([kind, flags, 0, 0]) + receiver + self.settings.bssid + address_3
        self.air.append(header + short(self.sequence << 4) + body)
        self.sequence = (self.sequence + 1) % 4096

    def send_management(self, kind: int, receiver: bytes, body: bytes) -> None:
        self.send(kind, 0, receiver, self.settings.bssid, body)

    def send_unit(self, unit: Unit, more_data: bool = False) -> None:
        """9.3.2.1: from the access point, Address 1 is the destination and Address 3 the source."""
        self.send(DATA, FROM_DS | (MORE_DATA if more_data else 0), unit.destination, unit.source, unit.body)

    # Probing and beacons

    def answer_probe(self, address: bytes, body: bytes) -> None:
        """11.1.4.3.4: the wildcard SSID, which is empty, or this network's."""
        if elements_of(body).get(SSID) in (b"", self.settings.ssid):
            self.send_management(PROBE_RESPONSE, address, self.description(b""))

    def description(self, tim: bytes) -> bytes:
        """The body of a probe response (9.3.3.11), or with a TIM that of a beacon (9.3.3.3)."""
        settings = self.settings
        timestamp = self.clock * settings.interval * 1024
        fixed = timestamp.to_bytes(8, "little") + short(settings.interval) + ESS
        channel = element(DSSS_PARAMETER_SET, bytes([settings.channel]))
        return fixed + element(SSID, settings.ssid) + self.first_rates() + channel + tim + self.other_rates()

    def first_rates(self) -> bytes:
        return element(SUPPORTED_RATES, self.settings.rates[:8])

    def other_rates(self) -> bytes:
        others = self.settings.rates[8:]
        return element(EXTENDED_SUPPORTED_RATES, others) if others else b""

    def begin_interval(self) -> None:
        """11.1.3.2 and 11.2.3.3: what is too old, the beacon, and after a DTIM the units for the group."""
        if self.settings.aging:
            self.lose_what_is_too_old()
        self.clock += 1
        period = self.settings.dtim
        count = (period - (self.clock - 1) % period) % period
        group = [unit for unit in self.kept if is_group(unit.destination)]
        self.send_management(BEACON, BROADCAST, self.description(self.tim(count, bool(group))))
        if count == 0:
            self.kept = [unit for unit in self.kept if not is_group(unit.destination)]
            for place, unit in enumerate(group, start=1):
                self.send_unit(unit, more_data=place < len(group))

    def lose_what_is_too_old(self) -> None:
        """A unit is lost where the clock is greater than its own by more than the listen interval (9.4.1.6)."""
        before = len(self.kept)
        self.kept = [unit for unit in self.kept if not self.is_too_old(unit)]
        self.lost += before - len(self.kept)

    def is_too_old(self, unit: Unit) -> bool:
        if is_group(unit.destination):
            return False
        return self.clock - unit.clock > self.stations[unit.destination].listen

    def tim(self, count: int, group_is_kept: bool) -> bytes:
        """9.4.2.6, with the part of the virtual bitmap that is sent."""
        bitmap = bytearray(LAST_IDENTIFIER // 8 + 1)
        for destination in {unit.destination for unit in self.kept if not is_group(unit.destination)}:
            identifier = self.stations[destination].identifier
            bitmap[identifier // 8] |= 1 << identifier % 8
        used = [place for place, octet in enumerate(bitmap) if octet != 0]
        first = used[0] // 2 * 2 if used else 0  # the greatest even place before which all octets are 0
        last = used[-1] if used else 0
        control = first // 2 << 1 | (1 if count == 0 and group_is_kept else 0)
        return element(TIM, bytes([count, self.settings.dtim, control]) + bytes(bitmap[first:last + 1]))

    # Stations that come and go

    def has_state_for(self, kind: int, address: bytes) -> bool:
        """11.3.3: whether a station's state allows this class of request; if not, it is told so."""
        station = self.stations.get(address)
        reason = short(REASON_CLASS_2 if kind in CLASS_2 else REASON_CLASS_3)
        if station is None:
            self.send_management(DEAUTHENTICATION, address, reason)
            return False
        if kind in CLASS_3 and not station.is_associated():
            self.send_management(DISASSOCIATION, address, reason)
            return False
        return True

    def take_of_known(self, kind: int, station: Station, octets: bytes, body: bytes) -> None:
        """A request of class 2 or 3 of a station that may make it."""
        if kind == DISASSOCIATION:
            self.drop_units_for(station.address)
            station.leave()
        elif kind in CLASS_2:
            self.answer_association(kind, station, body)
        elif kind == PS_POLL:
            self.answer_poll(station, number_of(octets[2:4]) & 0x3FFF)
        else:
            self.set_mode(station, octets[1] & POWER_MANAGEMENT != 0)
            if kind == DATA:
                self.deliver(Unit(octets[16:22], station.address, body, self.clock))

    def answer_authentication(self, address: bytes, body: bytes) -> None:
        """11.3.4: Open System alone; the answer is always the second frame of the exchange."""
        algorithm, sequence = number_of(body[0:2]), number_of(body[2:4])
        status = SUCCESS
        if algorithm != 0:
            status = ALGORITHM
        elif sequence != 1:
            status = SEQUENCE
        elif address not in self.stations and len(self.stations) >= self.settings.max_known:
            status = REFUSED
        elif address in self.stations:
            self.drop_units_for(address)
            self.stations[address].leave()
        else:
            self.stations[address] = Station(address)
        self.send_management(AUTHENTICATION, address, short(algorithm) + short(2) + short(status))

    def answer_association(self, kind: int, station: Station, body: bytes) -> None:
        """11.3.5: an association and a reassociation are served alike."""
        status = self.association_status(station, elements_of(body[FIXED_FIELDS[kind]:]))
        written = 0
        if status == SUCCESS:
            station.identifier = station.identifier or self.free_identifier()
            station.listen = number_of(body[2:4])
            station.dozes = False
            self.drop_units_for(station.address)
            written = station.identifier | 0xC000
        answer = ASSOCIATION_RESPONSE if kind == ASSOCIATION_REQUEST else REASSOCIATION_RESPONSE
        fixed = ESS + short(status) + short(written)
        self.send_management(answer, station.address, fixed + self.first_rates() + self.other_rates())

    def association_status(self, station: Station, elements: dict) -> int:
        """9.4.1.9."""
        if elements.get(SSID) != self.settings.ssid:
            return REFUSED
        offered = elements.get(SUPPORTED_RATES, b"") + elements.get(EXTENDED_SUPPORTED_RATES, b"")
        speeds = {rate & 0x7F for rate in offered}
        if any(rate & 0x80 and rate & 0x7F not in speeds for rate in self.settings.rates):
            return RATES
        associated = sum(1 for each in self.stations.values() if each.is_associated())
        if not station.is_associated() and associated >= self.settings.max_stations:
            return TOO_MANY
        return SUCCESS

    def free_identifier(self) -> int:
        """9.4.1.8: the least that is free; one is, since no more than 2007 stations are associated."""
        used = {each.identifier for each in self.stations.values()}
        return next(each for each in range(1, LAST_IDENTIFIER + 1) if each not in used)

    def remove(self, address: bytes) -> None:
        """11.3.4.5: a deauthentication takes a known station out of the table."""
        if self.stations.pop(address, None) is not None:
            self.drop_units_for(address)

    def drop_units_for(self, address: bytes) -> None:
        """Units of a station that leaves or comes anew are kept no more, and don't count as lost."""
        self.kept = [unit for unit in self.kept if unit.destination != address]

    # Units

    def set_mode(self, station: Station, dozes: bool) -> None:
        """11.2.3: one that dozed and is active now is sent all that was kept for it."""
        dozed, station.dozes = station.dozes, dozes
        if dozed and not dozes:
            units = self.units_for(station.address)
            self.drop_units_for(station.address)
            for unit in units:
                self.send_unit(unit)

    def units_for(self, address: bytes) -> list:
        return [unit for unit in self.kept if unit.destination == address]

    def deliver(self, unit: Unit) -> None:
        """A unit of an associated station: on the air, on the wire, or both ("Units")."""
        if not self.settings.relay:
            self.put_on_wire(unit)
            return
        self.deliver_on_air(unit)
        station = self.stations.get(unit.destination)
        if is_group(unit.destination) or station is None or not station.is_associated():
            self.put_on_wire(unit)

    def deliver_on_air(self, unit: Unit) -> None:
        """The column "On the air" of the table."""
        if is_group(unit.destination):
            waits = any(each.dozes for each in self.stations.values())
            waits = waits or any(is_group(each.destination) for each in self.kept)
        else:
            station = self.stations.get(unit.destination)
            if station is None or not station.is_associated():
                return
            waits = station.dozes
        if not waits:
            self.send_unit(unit)
        elif len(self.kept) < self.settings.quota:
            self.kept.append(unit)
        else:
            self.lost += 1

    def put_on_wire(self, unit: Unit) -> None:
        frame = wired_form(unit)
        if frame is None:
            self.lost += 1
        else:
            self.wire.append(frame)

    def answer_poll(self, station: Station, identifier: int) -> None:
        """11.2.3.6: the unit that was kept first, and whether there are more."""
        units = self.units_for(station.address)
        if station.dozes and identifier == station.identifier and units:
            self.kept.remove(units[0])
            self.send_unit(units[0], more_data=len(units) > 1)


# --- Report ---------------------------------------------------------------------------------------------------------


def written(address: bytes) -> str:
    return address.hex(":")


def station_line(network: Network, station: Station) -> str:
    if not station.is_associated():
        return f"station {written(station.address)} authenticated"
    mode = "doze" if station.dozes else "active"
    kept = len(network.units_for(station.address))
    return (f"station {written(station.address)} associated aid {station.identifier} listen {station.listen} "
            f"{mode} kept {kept}")


def report_of(network: Network, with_frames: bool = True) -> list:
    """The lines of one network ("Report"); without frames those that `I` of a live run asks for."""
    settings = network.settings
    lines = [f"network {written(settings.bssid)} ssid {settings.ssid.hex()}"]
    lines.append(f"events {network.events} clock {network.clock} unread {network.unread} lost {network.lost} "
                 f"kept {len(network.kept)}")
    lines.extend(station_line(network, station) for station in network.stations.values())
    if with_frames:
        lines.extend(f"air {frame.hex()}" for frame in network.air)
        lines.extend(f"wire {frame.hex()}" for frame in network.wire)
    lines.append("end")
    return lines


def text_of(lines: list) -> bytes:
    return "".join(line + "\n" for line in lines).encode("ascii")


def answer_of(config: bytes, trace: bytes) -> Answer:
    """What `apctl run CONFIG TRACE` answers. Each network takes the whole trace, alone."""
    try:
        networks = networks_of(config)
        events = events_of(trace, {network.settings.bssid for network in networks})
    except Fault as fault:
        return Answer(STATUS_OF_A_FAULT, b"", f"{fault}\n".encode("ascii"))
    lines = []
    for network in networks:
        for event in events:
            if network.events == network.settings.max_events:
                break  # a full history takes nothing more
            network.take(event)
        lines.extend(report_of(network))
    return Answer(0, text_of(lines), b"")


# --- Lines as they come ---------------------------------------------------------------------------------------------

LONGEST_LINE = 65_536


def frames_for(network: Network, event: Event) -> list:
    """What one network sends for one line; there is no history."""
    network.air, network.wire = [], []
    network.take(event)
    bssid = written(network.settings.bssid)
    lines = [f"air {bssid} {frame.hex()}" for frame in network.air]
    return lines + [f"wire {bssid} {frame.hex()}" for frame in network.wire]


def live_line(networks: list, number: int, line: bytes) -> list:
    """The answer to one line of a live run."""
    try:
        if len(line) > LONGEST_LINE:
            raise Fault("L5")
        event = event_of(line, {network.settings.bssid for network in networks}, alone=(b"T", b"I"))
    except Fault as fault:
        return [f"fault {fault} line {number}"]
    if event is None:
        return []
    if event.letter == b"I":
        return [each for network in networks for each in report_of(network, with_frames=False)]
    return [each for network in networks for each in frames_for(network, event)]


def live_answer_of(config: bytes, lines: bytes) -> Answer:
    """What `apctl live CONFIG` answers to all of `lines`, until its standard input ends."""
    try:
        networks = networks_of(config)
    except Fault as fault:
        return Answer(STATUS_OF_A_FAULT, b"", f"{fault}\n".encode("ascii"))
    out = [f"ok {len(networks)}"]
    for number, line in enumerate(lines_of(lines), start=1):
        out.extend(live_line(networks, number, line))
    for network in networks:
        out.extend(report_of(network, with_frames=False))
    return Answer(0, text_of(out), b"")


def main() -> int:
    """Writes the report or the line of the fault, and answers the status."""
    parser = argparse.ArgumentParser(description=__doc__, formatter_class=argparse.RawDescriptionHelpFormatter)
    parser.add_argument("config", metavar="CONFIG", type=argparse.FileType("rb"), help="the configuration's file")
    parser.add_argument("trace", metavar="TRACE", type=argparse.FileType("rb"), help="the trace's file")
    asked = parser.parse_args()
    answer = answer_of(asked.config.read(), asked.trace.read())
    sys.stdout.buffer.write(answer.out)
    sys.stderr.buffer.write(answer.fault)
    return answer.status


if __name__ == "__main__":
    sys.exit(main())
