"""Stations that are made up: each sends and hears frames by a monitor of its radio, and dozes as no Linux station can
be told to. The air has to know their addresses (tools/guest/air, `has`), and acknowledges for them."""
import ctypes
import random
import selectors
import socket
import struct
import time
from collections.abc import Callable
from dataclasses import dataclass, field

from frames import (ASSOCIATION_REQUEST, ASSOCIATION_RESPONSE, AUTHENTICATION, BEACON, BEACON_FIXED_LEN, DATA,
                    DEAUTHENTICATION, DISASSOCIATION, MANAGEMENT, TIM, Frame, address_of, elements, first_of, is_group,
                    number, tim_bits)
from radiotap import captured
from stations import Failed, Radio, run
from writing import elements_of

EVERY_PROTOCOL = 3  # linux/if_ether.h: ETH_P_ALL
# From Linux's asm-generic/socket.h; Python has no name for it.
SO_RCVBUFFORCE, ROOM = 33, 4 << 20
LONGEST_PACKET = 4096
# A radiotap header: the rate in units of 500 kb/s, TX flags, and how often the radio tries again.
HEADER = struct.Struct("<BBHIBxHB")
PRESENT, RETRIES = 1 << 2 | 1 << 15 | 1 << 17, 7
SLOWEST, FASTEST = 2, 108
TO_NETWORK, DOZES = 0x01, 0x10
NULL_CONTROL, DATA_CONTROL, POLL_CONTROL = 0x48, 0x08, 0xA4
ALL_RATES = bytes.fromhex("82840b160c1218243048606c")
CAPABILITY, OPEN, FIRST_OF_OPEN, LEAVING = 0x0001, 0, 1, 3
IDENTIFIER_BITS = 0x3FFF
# Instructions of the kernel's packet filter (linux/filter.h).
LOAD_OCTET, TO_INDEX, LOAD_WORD_AT, LOAD_HALF_AT, LOAD_OCTET_AT = 0x30, 0x07, 0x40, 0x48, 0x50
IS_EQUAL, HAS_BITS, ANSWER, TAKE, LEAVE = 0x15, 0x45, 0x06, 0xFFFF, 0
INSTRUCTION, SO_ATTACH_FILTER = struct.Struct("@HBBI"), 26
SECONDS_TO_ANSWER, TRIES_TO_JOIN = 2.0, 3
LLC = bytes.fromhex("aaaa030000000800")
IP = struct.Struct(">BBHHHBBH4s4s")
UDP = struct.Struct(">HHHH")
STAMP_LEN, VERSION_AND_LENGTH, DATAGRAM, HOPS = 8, 0x45, 17, 64
NEVER = float("inf")


def check_sum(octets: bytes) -> int:
    """That of an IPv4 header."""
    total = sum(struct.unpack(f">{len(octets) // 2}H", octets))
    while total >> 16:
        total = (total & 0xFFFF) + (total >> 16)
    return total ^ 0xFFFF


def let_through(taken: socket.socket, bssid: bytes, hardware: bytes) -> None:
    """From now on a socket takes only frames of a network that are for a station or for a group. Each comes behind a
    radiotap header of less than 256 octets."""
    (network, of_network), (station, of_station) = (struct.unpack(">IH", address) for address in (bssid, hardware))
    words = ((LOAD_OCTET, 0, 0, 2), (TO_INDEX, 0, 0, 0),
             (LOAD_WORD_AT, 0, 0, 10), (IS_EQUAL, 0, 9, network),
             (LOAD_HALF_AT, 0, 0, 14), (IS_EQUAL, 0, 7, of_network),
             (LOAD_OCTET_AT, 0, 0, 4), (HAS_BITS, 4, 0, 1),
             (LOAD_WORD_AT, 0, 0, 4), (IS_EQUAL, 0, 3, station), (LOAD_HALF_AT, 0, 0, 8), (IS_EQUAL, 0, 1, of_station),
             (ANSWER, 0, 0, TAKE), (ANSWER, 0, 0, LEAVE))
    octets = ctypes.create_string_buffer(b"".join(INSTRUCTION.pack(*word) for word in words))
    taken.setsockopt(socket.SOL_SOCKET, SO_ATTACH_FILTER, struct.pack("@HP", len(words), ctypes.addressof(octets)))


def datagram(sender: str, to: str, port: int, payload: bytes) -> bytes:
    """The body of a Data frame that carries an IPv4 datagram."""
    addresses = socket.inet_aton(sender), socket.inet_aton(to)
    length = UDP.size + len(payload)
    header = IP.pack(VERSION_AND_LENGTH, 0, IP.size + length, 0, 0, HOPS, DATAGRAM, 0, *addresses)
    header = header[:10] + check_sum(header).to_bytes(2, "big") + header[12:]
    return LLC + header + UDP.pack(port, port, length, 0) + payload


def stamp_of(body: bytes, port: int) -> int | None:
    """When a datagram was sent that a Data frame carries to a port, as the program `stamped` says; None of others."""
    start = len(LLC) + IP.size
    if not body.startswith(LLC + bytes([VERSION_AND_LENGTH])) or len(body) < start + UDP.size + STAMP_LEN:
        return None
    if body[len(LLC) + 9] != DATAGRAM or UDP.unpack_from(body, start)[1] != port:
        return None
    return int.from_bytes(body[start + UDP.size:start + UDP.size + STAMP_LEN], "big")


class Habit:
    """What a station does by itself; this one stays awake."""

    # When it acts next, by the monotonic clock.
    due = NEVER

    def begin(self, station: "MadeUp") -> None:
        """It begins."""

    def act(self, station: "MadeUp") -> None:
        """The moment has come."""

    def hears_beacon(self, station: "MadeUp", has_units: bool) -> None:
        """It hears a beacon of its network, which says whether units are kept for it."""

    def hears_unit(self, station: "MadeUp", has_more: bool) -> None:
        """It hears a unit for itself, which says whether more are kept."""


class Polls(Habit):
    """Looks at every so manieth beacon, and polls for each unit that is kept."""

    def __init__(self, interval: int) -> None:
        self.interval = interval
        self.heard = 0

    def begin(self, station: "MadeUp") -> None:
        station.say(True)

    def hears_beacon(self, station: "MadeUp", has_units: bool) -> None:
        self.heard += 1
        if self.heard % self.interval == 0 and has_units:
            station.poll()

    def hears_unit(self, station: "MadeUp", has_more: bool) -> None:
        if has_more:
            station.poll()


class Wakes(Habit):
    """Looks at every so manieth beacon, wakes where units are kept, and dozes again once none came for some seconds."""

    def __init__(self, interval: int, stays: float = 0.02) -> None:
        self.interval, self.stays = interval, stays
        self.heard = 0

    def begin(self, station: "MadeUp") -> None:
        station.say(True)

    def hears_beacon(self, station: "MadeUp", has_units: bool) -> None:
        self.heard += 1
        if self.heard % self.interval == 0 and has_units and self.due == NEVER:
            station.say(False)
            self.due = time.monotonic() + self.stays

    def hears_unit(self, station: "MadeUp", has_more: bool) -> None:
        if self.due != NEVER:
            self.due = time.monotonic() + self.stays

    def act(self, station: "MadeUp") -> None:
        station.say(True)
        self.due = NEVER


class WakesOnce(Habit):
    """Dozes, whatever beacons say, and wakes at a moment."""

    def __init__(self, moment: float) -> None:
        self.due = moment

    def begin(self, station: "MadeUp") -> None:
        station.say(True)

    def act(self, station: "MadeUp") -> None:
        station.say(False)
        self.due = NEVER


class DozesAtUnit(Habit):
    """Stays awake, and dozes for so many seconds as soon as it hears a unit, once each time that it is told to."""

    def __init__(self, seconds: float) -> None:
        self.seconds = seconds
        self.is_told = False

    def hears_unit(self, station: "MadeUp", has_more: bool) -> None:
        if self.is_told:
            station.say(True)
            self.is_told, self.due = False, time.monotonic() + self.seconds

    def act(self, station: "MadeUp") -> None:
        station.say(False)
        self.due = NEVER


class Turns(Habit):
    """Dozes or wakes at moments that are given, whatever beacons say: each with whether it dozes then."""

    def __init__(self, *turns: tuple[float, bool]) -> None:
        self.turns = list(turns)

    def begin(self, station: "MadeUp") -> None:
        self.due = self.turns[0][0] if self.turns else NEVER

    def act(self, station: "MadeUp") -> None:
        _, dozes = self.turns.pop(0)
        station.say(dozes)
        self.begin(station)


class Naps(Habit):
    """Dozes and wakes at moments that are drawn, whatever beacons say; each time lasts so many seconds. With `to` it
    says so by datagrams to a host, given by its addresses and a port, and else by Null frames."""

    def __init__(self, seed: int, shortest: float, longest: float, to: tuple[str, str, int] | None = None) -> None:
        self.draws = random.Random(seed)
        self.shortest, self.longest, self.to = shortest, longest, to
        self.dozes = False
        self.said = 0

    def begin(self, station: "MadeUp") -> None:
        self.due = time.monotonic() + self.draws.uniform(0, self.longest)

    def act(self, station: "MadeUp") -> None:
        self.dozes = not self.dozes
        if self.to is None:
            station.say(self.dozes)
        else:
            station.send_datagram(*self.to, self.dozes)
        self.said += 1
        self.due = time.monotonic() + self.draws.uniform(self.shortest, self.longest)


class Flipped(Habit):
    """Sleeps, while somebody else says for it each so many seconds that it wakes or dozes, in turn."""

    def __init__(self, seconds: float, send: Callable[[bytes], None]) -> None:
        self.seconds, self.send = seconds, send
        self.dozes = True

    def begin(self, station: "MadeUp") -> None:
        self.due = time.monotonic()

    def act(self, station: "MadeUp") -> None:
        self.dozes = not self.dozes
        flags = TO_NETWORK | (DOZES if self.dozes else 0)
        self.send(station.header(NULL_CONTROL, flags, station.bssid))
        self.due += self.seconds


@dataclass
class MadeUp:
    """A station of its own kind, on a radio with this number."""

    radio: Radio
    radio_number: int
    hardware: str
    address: str
    frequency: int
    port: int
    habit: Habit = field(default_factory=Habit)
    # When each unit was sent and when it came, in nanoseconds of the monotonic clock.
    units: list[tuple[int, int]] = field(default_factory=list)
    identifier: int = 0
    bssid: bytes = b""
    answer: Frame | None = None
    was_sent_away: bool = False
    next_number: int = 0
    last_number: int | None = None
    rate: int = FASTEST
    # Whether it takes units for groups too.
    takes_groups: bool = False

    @property
    def interface(self) -> str:
        """Its monitor."""
        return f"made{self.radio_number}"

    def create(self) -> None:
        """Makes its monitor."""
        run("ip", "link", "set", self.radio.interface, "down")
        run("iw", "phy", self.radio.phy, "interface", "add", self.interface, "type", "monitor", "flags", "control")
        run("ip", "link", "set", self.interface, "up")
        run("iw", "dev", self.interface, "set", "freq", str(self.frequency))
        self.socket = socket.socket(socket.AF_PACKET, socket.SOCK_RAW, socket.htons(EVERY_PROTOCOL))
        self.socket.setsockopt(socket.SOL_SOCKET, SO_RCVBUFFORCE, ROOM)
        self.socket.setblocking(False)
        self.socket.bind((self.interface, 0))

    def delete(self) -> None:
        """Takes its monitor away."""
        self.socket.close()
        run("iw", "dev", self.interface, "del")

    def join(self, bssid: str, ssid: str, listen_interval: int = 1, rates: bytes = ALL_RATES) -> None:
        """Joins a network, by these rates."""
        self.bssid, self.was_sent_away = address_of(bssid), False
        let_through(self.socket, self.bssid, address_of(self.hardware))
        self.rate = max(octet & 0x7F for octet in rates)
        authentication = struct.pack("<HHH", OPEN, FIRST_OF_OPEN, 0)
        self.ask(AUTHENTICATION, authentication, AUTHENTICATION)
        request = struct.pack("<HH", CAPABILITY, listen_interval) + elements_of(ssid.encode(), rates)
        body = self.ask(ASSOCIATION_REQUEST, request, ASSOCIATION_RESPONSE).body
        status = number(body[2:4])
        if status:
            raise Failed(f"{self.hardware} isn't accepted: status {status}")
        self.identifier = number(body[4:6]) & IDENTIFIER_BITS

    def ask(self, subtype: int, body: bytes, answers: int) -> Frame:
        """Sends a management frame until it is answered by one of this subtype."""
        for _ in range(TRIES_TO_JOIN):
            self.answer = None
            self.send_management(subtype, body)
            until = time.monotonic() + SECONDS_TO_ANSWER
            while time.monotonic() < until:
                play([self], min(until, time.monotonic() + 0.01))
                if self.answer is not None and self.answer.subtype == answers:
                    return self.answer
        raise Failed(f"{self.hardware}: no answer of subtype {answers} came")

    def leave(self) -> None:
        """Leaves its network."""
        self.send_management(DEAUTHENTICATION, LEAVING.to_bytes(2, "little"))

    def send_management(self, subtype: int, body: bytes) -> None:
        """Sends a management frame to the network."""
        self.send(self.header(subtype << 4, 0, self.bssid) + body, SLOWEST)

    def say(self, dozes: bool) -> None:
        """Says by a Null frame whether it dozes."""
        flags = TO_NETWORK | (DOZES if dozes else 0)
        self.send(self.header(NULL_CONTROL, flags, self.bssid), self.rate)

    def send_datagram(self, hardware: str, address: str, port: int, dozes: bool) -> None:
        """Sends a datagram, stamped by the program `stamped`, and says by it whether the station dozes."""
        flags = TO_NETWORK | (DOZES if dozes else 0)
        stamp = time.monotonic_ns().to_bytes(STAMP_LEN, "big")
        header = self.header(DATA_CONTROL, flags, address_of(hardware))
        self.send(header + datagram(self.address, address, port, stamp), self.rate)

    def poll(self) -> None:
        """Asks for one unit."""
        self.send(poll_of(self.bssid, self.hardware, self.identifier), SLOWEST)

    def header(self, control: int, flags: int, third: bytes) -> bytes:
        """The header of its next frame to the network."""
        self.next_number = (self.next_number + 1) % 4096
        addresses = self.bssid + address_of(self.hardware) + third
        return bytes([control, flags, 0, 0]) + addresses + (self.next_number << 4).to_bytes(2, "little")

    def send(self, frame: bytes, rate: int) -> None:
        """Sends a frame at a rate in units of 500 kb/s."""
        self.socket.send(HEADER.pack(0, 0, HEADER.size, PRESENT, rate, 0, RETRIES) + frame)

    def hear(self) -> None:
        """Takes what came."""
        while True:
            try:
                packet = self.socket.recv(LONGEST_PACKET)
            except BlockingIOError:
                return
            self.take(packet, time.monotonic_ns())

    def take(self, packet: bytes, now: int) -> None:
        """Takes one packet of its monitor, where it is from the network, and for it or for all."""
        start = number(packet[2:4])
        receiver = packet[start + 4:start + 10]
        if packet[start + 10:start + 16] != self.bssid or receiver != address_of(self.hardware) \
                and not is_group(receiver):
            return
        found = captured(packet)
        if found is None or found.was_sent or found.is_damaged:
            return
        frame = Frame(found.frame)
        if frame.is_management(BEACON):
            self.take_beacon(frame)
        elif frame.type == MANAGEMENT and receiver == address_of(self.hardware):
            self.answer = frame
            self.was_sent_away |= frame.subtype in (DEAUTHENTICATION, DISASSOCIATION)
        elif frame.type == DATA and (self.takes_groups or receiver == address_of(self.hardware)):
            self.take_unit(frame, now)

    def take_beacon(self, beacon: Frame) -> None:
        """Looks at a beacon's TIM."""
        tim = first_of(elements(beacon.body[BEACON_FIXED_LEN:]) or [], TIM)
        if tim and len(tim) > 3:
            self.habit.hears_beacon(self, self.identifier in tim_bits(tim)[3])

    def take_unit(self, frame: Frame, now: int) -> None:
        """Takes a frame of data, where it isn't the last one sent again."""
        if frame.retry and frame.sequence_control == self.last_number:
            return
        self.last_number = frame.sequence_control
        stamp = stamp_of(frame.body, self.port)
        if stamp is not None:
            self.units.append((stamp, now))
        self.habit.hears_unit(self, frame.more_data)


def poll_of(bssid: bytes, hardware: str, identifier: int) -> bytes:
    """A PS-Poll by an identifier."""
    return bytes([POLL_CONTROL, DOZES]) + (identifier | 0xC000).to_bytes(2, "little") + bssid + address_of(hardware)


def play(stations: list[MadeUp], until: float) -> None:
    """Lets stations hear and act up to a moment of the monotonic clock."""
    with selectors.DefaultSelector() as selector:
        for station in stations:
            selector.register(station.socket, selectors.EVENT_READ, station)
        while (now := time.monotonic()) < until:
            next_due = min(station.habit.due for station in stations)
            for key, _ in selector.select(max(0.0, min(until, next_due) - now)):
                key.data.hear()
            for station in stations:
                if station.habit.due <= time.monotonic():
                    station.habit.act(station)
