"""Networks that are full: made-up stations join them by frames of a radio beside, and what the parts of an access point
then hold in memory."""
import socket
import struct
import time
from contextlib import suppress
from dataclasses import dataclass

from frames import ASSOCIATION_RESPONSE, Frame, address_of
from radiotap import captured
from stations import read

# Before a frame that is sent by a monitor interface: a radiotap header without fields.
NO_FIELDS = bytes([0, 0, 8, 0, 0, 0, 0, 0])
AUTHENTICATION, ASSOCIATION_REQUEST, DATA, NULL = b"\xb0\0", b"\0\0", b"\x08\x01", b"\x48\x11"
OPEN_SYSTEM = struct.pack("<HHH", 0, 1, 0)
CAPABILITY_AND_INTERVAL, RATES = struct.pack("<HH", 1, 10), bytes([1, 4, 0x82, 0x84, 0x0B, 0x16])
UNIT_OCTETS = 1400
KIB = 1024
SO_RCVBUFFORCE = 33  # which Python has no name for
EVERY_PROTOCOL, LONGEST, HEARD_OCTETS = 3, 4096, 64 << 20
STATUS = slice(26, 28)  # of an association response
ANSWER_SECONDS = 0.5


@dataclass(frozen=True)
class Network:
    """A network's addresses, as text and as octets, and its name."""

    bssid: str
    ssid: str

    @property
    def octets(self) -> bytes:
        """The BSSID on the air."""
        return address_of(self.bssid)

    def station(self, number: int) -> bytes:
        """The address of a made-up station of it."""
        return b"\x02\xcd" + self.octets[5:] + b"\0" + number.to_bytes(2, "big")

    def number(self, station: bytes) -> int:
        """The number of a made-up station of it."""
        return int.from_bytes(station[4:], "big")


class Crowd:
    """Made-up stations, whose frames a monitor interface sends; by it they hear whether they were associated."""

    def __init__(self, interface: str, networks: list[Network]) -> None:
        self.networks = {network.octets: network for network in networks}
        self.joined: dict[Network, set[int]] = {network: set() for network in networks}
        self.sequence_number = 0
        self.air = socket.socket(socket.AF_PACKET, socket.SOCK_RAW, 0)
        self.air.setsockopt(socket.SOL_SOCKET, SO_RCVBUFFORCE, HEARD_OCTETS)
        self.air.bind((interface, EVERY_PROTOCOL))

    def send(self, kind: bytes, network: Network, station: bytes, third: bytes, body: bytes) -> None:
        """Sends a frame of a station to its network."""
        self.sequence_number = (self.sequence_number + 1) % 4096
        self.air.send(NO_FIELDS + kind + bytes(2) + network.octets + station + third
                          + struct.pack("<H", self.sequence_number << 4) + body)

    def join(self, numbers: range) -> None:
        """Those of these stations of each network that aren't associated authenticate, and ask to be associated."""
        for number in numbers:
            joining = [network for network, joined in self.joined.items() if number not in joined]
            for network in joining:
                self.send(AUTHENTICATION, network, network.station(number), network.octets, OPEN_SYSTEM)
            for network in joining:
                ssid = network.ssid.encode()
                self.send(ASSOCIATION_REQUEST, network, network.station(number), network.octets,
                          CAPABILITY_AND_INTERVAL + bytes([0, len(ssid)]) + ssid + RATES)
            self.listen()
        time.sleep(ANSWER_SECONDS)
        self.listen()

    def listen(self) -> None:
        """Takes what was heard so far: which stations were associated."""
        with suppress(BlockingIOError):
            while True:
                self.hear(self.air.recv(LONGEST, socket.MSG_DONTWAIT))

    def hear(self, packet: bytes) -> None:
        """One packet of the monitor interface."""
        found = captured(packet)
        frame = Frame(found.frame) if found and not found.was_sent else None
        network = self.networks.get(frame.transmitter) if frame and frame.is_management(ASSOCIATION_RESPONSE) else None
        if network is not None and frame.octets[STATUS] == bytes(2):
            self.joined[network].add(network.number(frame.receiver))

    def keep(self, units: int) -> None:
        """A station of each network dozes, and so many units come for it from another one."""
        for network in self.joined:
            self.send(NULL, network, network.station(0), network.octets, b"")
        for _ in range(units):
            for network in self.joined:
                self.send(DATA, network, network.station(1), network.station(0), bytes(UNIT_OCTETS))


def memory_of(process: int) -> tuple[float, float]:
    """How many MB of memory a process had at most, and how many of addresses."""
    fields = dict(line.split(":", 1) for line in read(f"/proc/{process}/status").splitlines())
    return tuple(int(fields[name].split()[0]) / KIB for name in ("VmHWM", "VmPeak"))
