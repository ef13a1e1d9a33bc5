"""Strangers, who send frames of made-up addresses without an end, and newcomers, who want to join all the same."""
import random
import socket
import struct
import threading
import time
from collections.abc import Iterator
from contextlib import contextmanager
from dataclasses import dataclass

from airing import Air
from frames import ASSOCIATION_REQUEST, ASSOCIATION_RESPONSE, AUTHENTICATION, Frame, address_of, number
from made_up import (ALL_RATES, CAPABILITY, DATA_CONTROL, EVERY_PROTOCOL, FASTEST, FIRST_OF_OPEN, HEADER, LLC,
                     LONGEST_PACKET, OPEN, PRESENT, RETRIES, SLOWEST, TO_NETWORK, let_through)
from radiotap import captured
from stations import Failed
from writing import elements_of

NEWCOMERS, ENOUGH = 20, 19
TO_JOIN, TO_ASK_AGAIN, BEFORE_THE_FIRST, BETWEEN = 1.0, 0.2, 1.0, 0.1
ASKS_TO_AUTHENTICATE = struct.pack("<HHH", OPEN, FIRST_OF_OPEN, 0)
OF_STRANGERS, OF_NEWCOMERS = b"\x02\xee", b"\x02\xdd"  # how their addresses begin


def is_stranger(address: bytes) -> bool:
    """Whether an address is one of these strangers or newcomers."""
    return address.startswith((OF_STRANGERS, OF_NEWCOMERS))


@dataclass(frozen=True)
class Strangers:
    """What strangers send to a network, so often in a second, at a rate in units of 500 kb/s. Each frame is of another
    address; `first` is the number of the first newcomer beside them."""

    what: str
    a_second: int
    rate: int
    control: bytes
    body: bytes
    first: int

    @contextmanager
    def sending(self, interface: str, bssid: bytes) -> Iterator[None]:
        """Meanwhile they send."""
        ends = threading.Event()
        thread = threading.Thread(target=self.send, args=(interface, bssid, ends), daemon=True)
        thread.start()
        try:
            yield
        finally:
            ends.set()
            thread.join()

    def send(self, interface: str, bssid: bytes, ends: threading.Event) -> None:
        """Sends at even times, until this ends. What was late is sent at once."""
        draw, begun, place = random.Random(self.first), time.monotonic(), 0
        header = HEADER.pack(0, 0, HEADER.size, PRESENT, self.rate, 0, 0) + self.control + bytes(2) + bssid
        with socket.socket(socket.AF_PACKET, socket.SOCK_RAW, 0) as sending:
            sending.bind((interface, 0))
            while not ends.wait(max(0.0, begun + place / self.a_second - time.monotonic())):
                sender = OF_STRANGERS + draw.randbytes(4)
                sending.send(header + sender + bssid + (place % 4096 << 4).to_bytes(2, "little") + self.body)
                place += 1


FLOODS = (Strangers("frames of data", 1000, FASTEST, bytes([DATA_CONTROL, TO_NETWORK]), LLC, 1),
          Strangers("authentications", 300, SLOWEST, bytes([AUTHENTICATION << 4, 0]), ASKS_TO_AUTHENTICATE, 101))


class Newcomer:
    """One that joins by a monitor interface, of a radio that has its address."""

    def __init__(self, interface: str, bssid: bytes, address: bytes) -> None:
        self.bssid, self.address, self.sent = bssid, address, 0
        self.air = socket.socket(socket.AF_PACKET, socket.SOCK_RAW, socket.htons(EVERY_PROTOCOL))
        self.air.bind((interface, 0))
        let_through(self.air, bssid, address)

    def join(self, ssid: str) -> float | None:
        """Joins; after how many seconds it was in, or None where it wasn't in time."""
        begun = time.monotonic()
        until = begun + TO_JOIN
        request = struct.pack("<HH", CAPABILITY, 1) + elements_of(ssid.encode(), ALL_RATES)
        try:
            is_in = self.is_accepted(AUTHENTICATION, ASKS_TO_AUTHENTICATE, AUTHENTICATION, 4, until) \
                and self.is_accepted(ASSOCIATION_REQUEST, request, ASSOCIATION_RESPONSE, 2, until)
        finally:
            self.air.close()
        return time.monotonic() - begun if is_in else None

    def is_accepted(self, asks: int, body: bytes, answers: int, status_at: int, until: float) -> bool:
        """Asks again and again until it is answered with status 0; whether that is so in time."""
        while (now := time.monotonic()) < until:
            self.sent += 1
            header = bytes([asks << 4, 0, 0, 0]) + self.bssid + self.address + self.bssid
            self.air.send(HEADER.pack(0, 0, HEADER.size, PRESENT, SLOWEST, 0, RETRIES) + header
                          + (self.sent << 4).to_bytes(2, "little") + body)
            if self.hears(answers, status_at, min(until, now + TO_ASK_AGAIN)):
                return True
        return False

    def hears(self, answers: int, status_at: int, until: float) -> bool:
        """Whether an answer with status 0 comes by this time."""
        while (now := time.monotonic()) < until:
            self.air.settimeout(until - now)
            try:
                found = captured(self.air.recv(LONGEST_PACKET))
            except TimeoutError:
                return False
            frame = Frame(found.frame) if found and not found.was_sent and not found.is_damaged else None
            if frame and frame.is_management(answers) and frame.receiver == self.address \
                    and number(frame.body[status_at:status_at + 2]) == 0:
                return True
        return False


def newcomers_join(air: Air, radio: int, interface: str, bssid: str, ssid: str, strangers: Strangers,
                   flooded: str | None = None) -> str:
    """While strangers send to a network, or to another one that is named, newcomers join it one after another by the
    same radio: enough are in in time."""
    times: list[float | None] = []
    with strangers.sending(interface, address_of(flooded or bssid)):
        time.sleep(BEFORE_THE_FIRST)
        for place in range(strangers.first, strangers.first + NEWCOMERS):
            address = f"{OF_NEWCOMERS.hex(':')}:00:00:00:{place:02x}"
            air.give(radio, address)
            times.append(Newcomer(interface, address_of(bssid), address_of(address)).join(ssid))
            time.sleep(BETWEEN)
    joined = sorted(seconds for seconds in times if seconds is not None)
    told = f"{len(joined)} of {NEWCOMERS} within a second" + (f", the last after {joined[-1]:.2f} s" if joined else "")
    if len(joined) < ENOUGH:
        raise Failed(told)
    return told
