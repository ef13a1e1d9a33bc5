"""A slow model of docs/PROTOCOL.md and docs/FORMATS.md: of a configuration and a trace, what the program has to write,
octet for octet; and of a configuration and records, what `apctl live --octets` has to write ("Lines as they come").

bench/stations, bench/limits and bench/fuzz hold the program against it. It follows the sentences of these pages one
by one, and shares nothing with the program. What is read of a string of octets, or of a wired frame, stands in
tools/lib/reading.py, which the tools for captures follow too.
"""
import json
import os
import re
import sys
from collections import deque
from dataclasses import dataclass, field, replace
from typing import NamedTuple, Optional

from lines import TICK, Line, element

sys.path.append(os.path.join(os.path.dirname(os.path.realpath(__file__)), "..", "tools", "lib"))
from frames import (ASSOCIATION_REQUEST, AUTHENTICATION, BROADCAST, DEAUTHENTICATION,  # noqa: E402
                    DISASSOCIATION, EXTENDED_SUPPORTED_RATES, HEADER_LEN, PROBE_REQUEST, REASSOCIATION_REQUEST,
                    SUPPORTED_RATES, TIME_UNIT, address_text, elements, first_of, is_group, number)
from reading import FIXED_LEN, MODE, POLL, hears, request_of, unit_from_wire, wired_form  # noqa: E402
from records import NOBODY, cut, parts, record  # noqa: E402

MOST_LINES, MOST_OCTETS, MOST_AID = 1_000_000, 4096, 2007
MOST_NETWORKS_OF_VERSION_1 = 8
CLASS_TWO = {ASSOCIATION_REQUEST, REASSOCIATION_REQUEST, DISASSOCIATION}
CLASS_THREE = {POLL, MODE}
GROUP = None
ESS = bytes.fromhex("0100")
MORE_DATA = 0x20
ADDRESS = re.compile(rb"[0-9a-fA-F]{2}(?::[0-9a-fA-F]{2}){5}")
DIGITS = re.compile(rb"(?:[0-9a-fA-F]{2})*")
MOST_LINE = 65_536
TABLES = "tables"
# Records with the fault of a line. Those of digits and of an address (L2, L3) have none; no network has a group address.
FAULTY = {"L1": record(b"X"), "L4": record(b"W", BROADCAST), "L5": record(b"A", NOBODY, bytes(MOST_OCTETS + 1))}


@dataclass
class NetworkConfig:
    """The keys of a network in a configuration; its address and rates are octets."""

    bssid: bytes
    ssid: str = "lab"
    rates: bytes = bytes.fromhex("82840b16")
    dtim: int = 1
    max_stations: int = 8
    max_known: int = 16
    quota: int = 8
    max_events: int = 1_000_000
    relay: bool = True
    aging: bool = False

    def text(self, version):
        """Its table in the configuration's text. `ssid` has no U+007F, which JSON leaves as it is and TOML doesn't."""
        numbers = ("dtim", "max_stations", "max_known", "quota", "max_events")
        options = ("relay", "aging") if version == 2 else ()
        return "\n".join(["[[network]]", f'bssid = "{address_text(self.bssid)}"',
                          f"ssid = {json.dumps(self.ssid, ensure_ascii=False)}", f'rates = "{self.rates.hex()}"',
                          *(f"{name} = {getattr(self, name)}" for name in numbers),
                          *(f"{name} = {json.dumps(getattr(self, name))}" for name in options)]) + "\n"

    def needs_version_2(self):
        """Whether version 1 can't say what it is."""
        return not self.relay or self.aging


@dataclass
class RadioConfig:
    """A configuration without a fault."""

    networks: list = field(default_factory=list)
    channel: int = 6
    interval: int = 100
    queue: int = 64

    def text(self):
        """The configuration's text, of version 1 where that can say it."""
        many = len(self.networks) > MOST_NETWORKS_OF_VERSION_1
        version = 2 if many or any(network.needs_version_2() for network in self.networks) else 1
        head = f"version = {version}\nchannel = {self.channel}\ninterval = {self.interval}\nqueue = {self.queue}\n"
        return head + "".join(network.text(version) for network in self.networks)


class Kept(NamedTuple):
    """A unit that is kept, and the clock at which it came."""

    unit: object
    clock: int


@dataclass
class Station:
    """A station that is known: it is associated where it has an identifier."""

    aid: Optional[int] = None
    listen: int = 0
    doze: bool = False


def little(value, size=2):
    """A number as it is sent, low octet first."""
    return value.to_bytes(size, "little")


def tim(count, period, group, aids):
    """The TIM of the stations with these identifiers: the part of the bitmap from the greatest even place before which
    all octets are 0, to the last octet that isn't."""
    bitmap = bytearray(MOST_AID // 8 + 1)
    for aid in aids:
        bitmap[aid // 8] |= 1 << aid % 8
    used = [place for place, octet in enumerate(bitmap) if octet]
    first, last = (used[0] & ~1, used[-1]) if used else (0, 0)
    return element(5, bytes([count, period, first | group]) + bitmap[first:last + 1])


class Network:
    """A network by the rules. `take` takes a line where it is for it; `section` is what the report has of it."""

    def __init__(self, radio, config):
        self.radio, self.config = radio, config
        self.bssid, self.name = config.bssid, config.ssid.encode()
        self.basic = {rate & 0x7F for rate in config.rates if rate & 0x80}
        self.stations, self.aids = {}, set()
        self.kept, self.kept_len = {}, 0
        self.events = self.clock = self.unread = self.lost = 0
        self.air, self.wire = [], []
        self.serve = {
            PROBE_REQUEST: self.probe, AUTHENTICATION: self.authenticate, ASSOCIATION_REQUEST: self.associate,
            REASSOCIATION_REQUEST: self.associate, DISASSOCIATION: self.disassociate,
            DEAUTHENTICATION: self.deauthenticate, POLL: self.poll, MODE: self.mode,
        }

    def take(self, line):
        """Takes a line, unless it isn't for this network or the history is full."""
        if line.word == "A" and not hears(self.bssid, line.octets) or line.word == "W" and line.bssid != self.bssid:
            return
        if self.events == self.config.max_events:
            return
        self.events += 1
        if line.word == "A":
            self.hear(line.octets)
        elif line.word == "W":
            self.wired(line.octets)
        else:
            self.tick()

    def hear(self, octets):
        """Serves the request of a string of octets, or answers that its class isn't the station's."""
        asked = request_of(self.bssid, octets)
        if asked is None:
            self.unread += 1
            return
        station = self.stations.get(asked.station)
        reason = 7 if asked.kind in CLASS_THREE else 6
        if station is None and asked.kind in CLASS_TWO | CLASS_THREE:
            self.manage(DEAUTHENTICATION, asked.station, little(reason))
        elif asked.kind in CLASS_THREE and station.aid is None:
            self.manage(DISASSOCIATION, asked.station, little(reason))
        else:
            self.serve[asked.kind](asked, station, octets[HEADER_LEN:])

    def send(self, control, flags, to, third, body):
        """Sends a frame. Each frame is sent as it is made, so its sequence number is how many were sent before."""
        sequence = little(len(self.air) % 4096 << 4)
        self.air.append(bytes([control, flags, 0, 0]) + to + self.bssid + third + sequence + body)

    def manage(self, subtype, to, body):
        """Sends a management frame."""
        self.send(subtype << 4, 0, to, self.bssid, body)

    def rates(self):
        """The elements of the rates: the first eight, and the others."""
        first, others = self.config.rates[:8], self.config.rates[8:]
        return element(SUPPORTED_RATES, first), element(EXTENDED_SUPPORTED_RATES, others) if others else b""

    def advertisement(self, bits=b""):
        """The body of a probe response, or with a TIM that of a beacon."""
        timestamp = self.clock * self.radio.interval * TIME_UNIT
        first, others = self.rates()
        return (little(timestamp, 8) + little(self.radio.interval) + ESS + element(0, self.name) + first
                + element(3, bytes([self.radio.channel])) + bits + others)

    def probe(self, asked, _station, _body):
        """Answers a probe request for the wildcard SSID or the network's."""
        if asked.names in (b"", self.name):
            self.manage(5, asked.station, self.advertisement())

    def authenticate(self, asked, station, body):
        """Answers an authentication. A known station keeps its place, and is authenticated only."""
        algorithm, step = number(body[:2]), number(body[2:4])
        status = 0
        if algorithm != 0:
            status = 13
        elif step != 1:
            status = 14
        elif station is None and len(self.stations) == self.config.max_known:
            status = 1
        if status == 0:
            self.release(asked.station)
            self.stations[asked.station] = Station()
        self.manage(AUTHENTICATION, asked.station, little(algorithm) + little(2) + little(status))

    def release(self, address):
        """Frees the identifier of a station, and drops what is kept for it."""
        if address in self.stations:
            self.aids.discard(self.stations[address].aid)
            self.drop(address)

    def drop(self, whom):
        """Takes out all units that are kept for a station or the group, and answers them in order."""
        units = [kept.unit for kept in self.kept.pop(whom, ())]
        self.kept_len -= len(units)
        return units

    def associate(self, asked, station, body):
        """Answers an association request or a reassociation request."""
        status = self.association_status(asked, station, elements(body[FIXED_LEN[asked.kind]:]))
        if status == 0:
            if station.aid is None:
                station.aid = next(aid for aid in range(1, MOST_AID + 1) if aid not in self.aids)
                self.aids.add(station.aid)
            station.listen, station.doze = asked.listen, False
            self.drop(asked.station)
        first, others = self.rates()
        aid = 0xC000 | station.aid if status == 0 else 0
        self.manage(asked.kind + 1, asked.station, ESS + little(status) + little(aid) + first + others)

    def association_status(self, asked, station, listed):
        """The first status that applies."""
        both = [first_of(listed, identifier) or b"" for identifier in (SUPPORTED_RATES, EXTENDED_SUPPORTED_RATES)]
        if asked.names != self.name:
            return 1
        if not self.basic <= {rate & 0x7F for octets in both for rate in octets}:
            return 18
        if station.aid is None and len(self.aids) == self.config.max_stations:
            return 17
        return 0

    def disassociate(self, asked, station, _body):
        """An associated station is authenticated only."""
        self.release(asked.station)
        station.aid, station.doze = None, False

    def deauthenticate(self, asked, _station, _body):
        """A known station is unknown."""
        self.release(asked.station)
        self.stations.pop(asked.station, None)

    def mode(self, asked, station, _body):
        """Sets the mode of a station: one that wakes gets its units. Then its own unit, if any, is delivered."""
        wakes = station.doze and not asked.doze
        station.doze = asked.doze
        if wakes:
            for unit in self.drop(asked.station):
                self.send_unit(unit, False)
        if asked.unit is not None:
            to_the_air = self.config.relay and self.deliver(asked.unit)
            if not to_the_air or is_group(asked.unit.destination):
                self.send_wired(asked.unit)

    def send_unit(self, unit, more):
        """Sends a unit on the air; `more` tells that another follows."""
        self.send(0x08, 0x02 | (MORE_DATA if more else 0), unit.destination, unit.source, unit.body)

    def send_wired(self, unit):
        """Sends a unit on the wire, where it has a wired form."""
        frame = wired_form(unit)
        if frame is None:
            self.lost += 1
        else:
            self.wire.append(frame)

    def deliver(self, unit):
        """Delivers a unit on the air: sent, kept or lost. Whether its destination is there at all."""
        station = self.stations.get(unit.destination)
        if is_group(unit.destination):
            whom = GROUP
            waits = GROUP in self.kept or any(other.doze for other in self.stations.values())
        elif station is not None and station.aid is not None:
            whom, waits = unit.destination, station.doze
        else:
            return False
        if not waits:
            self.send_unit(unit, False)
        elif self.kept_len == self.config.quota:
            self.lost += 1
        else:
            self.kept.setdefault(whom, deque()).append(Kept(unit, self.clock))
            self.kept_len += 1
        return True

    def poll(self, asked, station, _body):
        """A station that dozes and names its own identifier gets its oldest unit."""
        units = self.kept.get(asked.station)
        if units and station.doze and asked.aid == station.aid:
            unit = units.popleft().unit
            self.kept_len -= 1
            if not units:
                del self.kept[asked.station]
            self.send_unit(unit, bool(units))

    def wired(self, octets):
        """Delivers a unit from the wire."""
        unit = unit_from_wire(octets)
        if unit is None:
            self.unread += 1
        else:
            self.deliver(unit)

    def age(self):
        """Each unit is lost that is kept for a station for more beacon intervals than its listen interval."""
        for whom in [whom for whom in self.kept if whom is not GROUP]:
            units = self.kept[whom]
            while units and self.clock - units[0].clock > self.stations[whom].listen:
                units.popleft()
                self.kept_len -= 1
                self.lost += 1
            if not units:
                del self.kept[whom]

    def tick(self):
        """A beacon, and after a DTIM's the units for the group."""
        if self.config.aging:
            self.age()
        self.clock += 1
        period = self.config.dtim
        count = (period - (self.clock - 1) % period) % period
        aids = [self.stations[whom].aid for whom in self.kept if whom is not GROUP]
        bits = tim(count, period, count == 0 and GROUP in self.kept, aids)
        self.manage(8, BROADCAST, self.advertisement(bits))
        if count == 0:
            units = self.drop(GROUP)
            for place, unit in enumerate(units, 1):
                self.send_unit(unit, place < len(units))

    def table(self):
        """The lines of the report before those of its frames."""
        yield f"network {address_text(self.bssid)} ssid {self.name.hex()}"
        yield f"events {self.events} clock {self.clock} unread {self.unread} lost {self.lost} kept {self.kept_len}"
        for address, station in self.stations.items():
            shown = f"station {address_text(address)}"
            if station.aid is None:
                yield f"{shown} authenticated"
            else:
                mode, kept = "doze" if station.doze else "active", len(self.kept.get(address, ()))
                yield f"{shown} associated aid {station.aid} listen {station.listen} {mode} kept {kept}"

    def section(self):
        """The lines of the report."""
        yield from self.table()
        yield from (f"air {frame.hex()}" for frame in self.air)
        yield from (f"wire {frame.hex()}" for frame in self.wire)
        yield "end"


class Radio:
    """The networks of a configuration."""

    def __init__(self, config):
        self.networks = [Network(config, network) for network in config.networks]

    def take(self, line):
        """Each network takes a line that is for it."""
        for network in self.networks:
            network.take(line)

    def report(self):
        """The lines of the report."""
        for network in self.networks:
            yield from network.section()


class TraceFault(Exception):
    """The first fault of a trace: the line that tells of it."""


class Answer(NamedTuple):
    """What a run answers: its exit status, and what it writes on standard output and on standard error."""

    status: int
    stdout: bytes
    stderr: bytes


def ended_lines(text):
    """The lines of a text, without what ends them."""
    ended = text.split(b"\n")
    last = ended.pop()
    return [line.removesuffix(b"\r") for line in ended] + ([last] if last else [])


def read_trace(config, text):
    """The lines of a trace text, without those that are skipped. TraceFault with the first fault."""
    read = []
    for place, line in enumerate(ended_lines(text), 1):
        if place > MOST_LINES:
            raise TraceFault(f"fault L5 line {place}")
        line = line.rstrip(b" ")
        if line and not line.startswith(b"#"):
            try:
                read.append(line_of(config, line))
            except TraceFault as fault:
                raise TraceFault(f"fault {fault} line {place}") from None
    return read


def line_of(config, text):
    """A line of a trace. TraceFault with the code of its first fault."""
    word, _, rest = text.partition(b" ")
    if word == b"T" and not rest:
        return TICK
    if word == b"A":
        return Line("A", octets_of(rest))
    if word != b"W":
        raise TraceFault("L1")
    address, _, rest = rest.lstrip(b" ").partition(b" ")
    if not ADDRESS.fullmatch(address):
        raise TraceFault("L3")
    bssid = bytes.fromhex(address.replace(b":", b"").decode())
    if all(network.bssid != bssid for network in config.networks):
        raise TraceFault("L4")
    return Line("W", octets_of(rest), bssid)


def octets_of(text):
    """The octets of hexadecimal digits with spaces among them. TraceFault with the code of the first fault."""
    digits = text.replace(b" ", b"")
    if not DIGITS.fullmatch(digits):
        raise TraceFault("L2")
    if len(digits) > 2 * MOST_OCTETS:
        raise TraceFault("L5")
    return bytes.fromhex(digits.decode())


def answer_of(config, text):
    """What the program has to answer to a trace text."""
    try:
        lines = read_trace(config, text)
    except TraceFault as fault:
        return Answer(1, b"", f"{fault}\n".encode())
    radio = Radio(config)
    for line in lines:
        radio.take(line)
    return Answer(0, "".join(f"{line}\n" for line in radio.report()).encode(), b"")


class AccessPoint:
    """The networks of a configuration, of which none bounds its history, and what they answer in records."""

    def __init__(self, config):
        endless = [replace(network, max_events=None) for network in config.networks]
        self.networks = Radio(replace(config, networks=endless)).networks

    def answer(self, asked):
        """The answer to a line or to the question for the tables."""
        return self.tables() if asked is TABLES else self.sent(asked)

    def sent(self, line):
        """What the networks send for a line, in order of place: on the air, and then on the wire."""
        for network in self.networks:
            air, wire = len(network.air), len(network.wire)
            network.take(line)
            yield from (record(b"A", network.bssid, frame) for frame in network.air[air:])
            yield from (record(b"W", network.bssid, frame) for frame in network.wire[wire:])

    def tables(self):
        """The lines of the report but for the frames."""
        for network in self.networks:
            yield from map(told, network.table())
            yield told("end")


def told(line):
    """The record of a line for people."""
    return record(b"N", NOBODY, f"{line}\n".encode())


def answers_to(config, octets):
    """What the program has to write to octets that come in, as records."""
    point = AccessPoint(config)
    whole, rest = cut(octets)
    said = [record(b"O", NOBODY[1:] + bytes([len(config.networks)]))]
    for place, one in enumerate(whole, 1):
        try:
            said += point.answer(asked_by(config, *parts(one)))
        except TraceFault as fault:
            said.append(told(f"fault {fault} record {place}"))
    if rest:
        said.append(told(f"fault L2 record {len(whole) + 1}"))
    return b"".join([*said, *point.tables()])


def asked_by(config, kind, bssid, octets):
    """What a record says. TraceFault with the code of its first fault."""
    if kind in (b"T", b"I") and bssid == NOBODY and not octets:
        return TICK if kind == b"T" else TABLES
    if kind != b"W" and (kind != b"A" or bssid != NOBODY):
        raise TraceFault("L1")
    if kind == b"W" and all(network.bssid != bssid for network in config.networks):
        raise TraceFault("L4")
    if len(octets) > MOST_OCTETS:
        raise TraceFault("L5")
    return Line("A", octets) if kind == b"A" else Line("W", octets, bssid)


def pairs_of(config, text):
    """The lines of a trace text of which a record says the same, each with an end, and that record."""
    for line in ended_lines(text):
        said = record_of(config, line) if len(line) <= MOST_LINE else None
        if said:
            # with a CR, since the line may have one of its own before it
            yield line + b"\r\n", said


def record_of(config, line):
    """The record that says what a line says, taken without what ends it; None where there is no such."""
    content = line.rstrip(b" ")
    if content == b"I":
        return record(b"I")
    if not content or content.startswith(b"#"):
        return None
    try:
        read = line_of(config, content)
    except TraceFault as fault:
        return FAULTY.get(str(fault))
    return record(read.word.encode(), read.bssid or NOBODY, read.octets)
