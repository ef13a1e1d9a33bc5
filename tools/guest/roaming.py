"""A site of two access points of three networks each: the wires of a network lead into one bridge of the kernel, where
its host is too. Stations roam between the two, and what that costs is measured."""
import os
import socket
import struct
import subprocess
import time
from dataclasses import dataclass, field

from dozing import Came, Receiving
from frames import address_of
from live.asking import ask
from live.faults import Fault
from parts import IN_REACH, OUT_OF_REACH, set_reach
from points import Hostapd, Own, Point, Served
from sharing import Flow
from stage import PCAP_HEADER, timed_packets
from stations import (Failed, Host, Station, join_bridge, know_each_other, load_radios, run, unload_radios, wait_for,
                      wait_until)

SSIDS = ("guest", "office", "devices")
GUEST = 0
# The two access points, and their channels: apart, so that nobody acknowledges for a station that is at the other.
HERE, THERE = 0, 1
CHANNELS, ONE_CHANNEL = (1, 6), (6, 6)
FREQUENCIES = "2412 2437"
# Three stations roam, one in each network, and one more is in the first.
ROAMING, STAYING = 3, 3
PORT, UPWARD_PORT, CALLING_PORT = 9000, 9001, 9002
OCTETS = 200
# So long before they send the senders are started, since starting a program takes the processor.
SECONDS_TO_START = 3.0
# After so long nothing holds any more that the access points remember of the roam before.
SECONDS_TO_FORGET = 12
SECONDS_TO_JOIN = 30
EVERY = 0.02
# By which an access point tells its wire of a station, behind the two addresses (docs/BRIDGE.md).
UPDATE = bytes.fromhex("00060001af810100")
SOURCE, BEHIND_ADDRESSES = slice(6, 12), slice(12, 20)
EVERYBODY = b"\xff" * 6
# A frame of a type for experiments (IEEE Std 802).
PLAIN = bytes.fromhex("88b5") + bytes(46)
STRANGER = "stranger"


class Watch:
    """What passes a port of a wire from now on with one of these addresses as its source."""

    def __init__(self, port: str, parts: list[Station], folder: str) -> None:
        self.path = os.path.join(folder, f"{port}-{time.monotonic_ns()}.pcap")
        sources = " or ".join(f"ether src {part.hardware_address()}" for part in parts)
        words = ["tcpdump", "-i", port, "-w", self.path, "-U", "-Z", "root", "--immediate-mode", sources]
        self.process = subprocess.Popen(words, stdin=subprocess.DEVNULL, stderr=subprocess.DEVNULL)
        wait_for("tcpdump", 20, lambda: os.path.exists(self.path) and os.path.getsize(self.path) >= PCAP_HEADER, EVERY)

    def end(self) -> list[tuple[int, bytes]]:
        """Ends it, and gives each frame with its time, in nanoseconds of the monotonic clock."""
        time.sleep(0.2)
        self.process.terminate()
        self.process.wait()
        ahead = time.time_ns() - time.monotonic_ns()
        return [(moment - ahead, frame) for moment, frame in timed_packets(self.path)]


def is_update(frame: bytes) -> bool:
    """Whether an access point tells its wire of a station by this frame."""
    return frame[BEHIND_ADDRESSES] == UPDATE


def first_after(frames: list[tuple[int, bytes]], moment: int, source: str) -> int:
    """When the first frame of this source passed after a moment; 0 where none did."""
    found = [at for at, frame in frames if at >= moment and frame[SOURCE] == address_of(source)]
    return min(found, default=0)


def longest_silence(came: Came, begin: float, end: float) -> float:
    """The longest time in milliseconds in which no unit came, of those that were sent between two moments."""
    moments = [begin * 1e9, *sorted(at for _, at in came.units if begin * 1e9 < at < end * 1e9), end * 1e9]
    return max(after - before for before, after in zip(moments, moments[1:])) / 1e6


def first_delay(came: Came, moment: int) -> float:
    """How many milliseconds after a moment the first unit came that wasn't there before; infinite where none did."""
    return min((at - moment for _, at in came.units if at >= moment), default=float("inf")) / 1e6


@dataclass(frozen=True)
class Kind:
    """What access points there are: hostapd's where there is no program."""

    name: str
    folder: str
    live: str = ""
    program: str | None = None
    bridge: str | None = None

    def make(self, phy: str, number: int, channel: int) -> Point:
        """One of them."""
        if self.program is None:
            return Hostapd(self.folder, phy, number, channel)
        return Own(self.folder, phy, self.live, self.program, self.bridge, number, channel)


@dataclass
class Site:
    """The two access points, with wires, hosts and stations."""

    folder: str
    points: list[Point] = field(default_factory=list)

    def set_up(self) -> None:
        """Loads the radios, and makes wires, hosts and stations."""
        radios = load_radios(2 + ROAMING + 1)
        self.phys = [radio.phy for radio in radios[:2]]
        for radio in radios[:2]:
            run("iw", "dev", radio.interface, "del")
        self.hosts = [Host(f"host{net}", "eth0", f"10.0.{net}.1", f"lan{net}") for net, _ in enumerate(SSIDS)]
        for net, host in enumerate(self.hosts):
            host.create()
            run("ip", "link", "add", f"site{net}", "type", "bridge")
            for number in (HERE, THERE):
                run("ip", "link", "add", wire(number, net), "type", "veth", "peer", "name", port(number, net))
                run("ip", "link", "set", wire(number, net), "addrgenmode", "none")
            join_bridge(f"site{net}", host.port, *(port(number, net) for number in (HERE, THERE)))
        run("ip", "link", "add", STRANGER, "type", "veth", "peer", "name", "lan-stranger")
        run("ip", "link", "set", STRANGER, "addrgenmode", "none")
        run("ip", "link", "set", STRANGER, "up")
        join_bridge(f"site{GUEST}", "lan-stranger")
        self.stations = [Station(f"sta{place}", radio.interface, f"10.0.{self.net_of(place)}.{10 + place}", radio.phy,
                                 FREQUENCIES) for place, radio in enumerate(radios[2:])]
        for station in self.stations:
            station.create()
            # It says nothing of its own: neither who has its address, nor which groups it hears.
            station.run("sh", "-c", "echo 1 >/proc/sys/net/ipv6/conf/all/disable_ipv6")

    def take_down(self) -> None:
        """Takes all of that away."""
        for part in (*self.stations, *self.hosts):
            part.delete()
        for net, _ in enumerate(SSIDS):
            run("ip", "link", "del", f"site{net}")
            for number in (HERE, THERE):
                run("ip", "link", "del", wire(number, net))
        run("ip", "link", "del", STRANGER)
        unload_radios()

    @staticmethod
    def net_of(place: int) -> int:
        """The network of the station at this place."""
        return GUEST if place == STAYING else place

    def begin(self, kind: Kind, channels: tuple[int, int], more: tuple[str, ...]) -> None:
        """Begins both access points, those of this program with more words."""
        self.points = [kind.make(phy, number, channel)
                       for number, (phy, channel) in enumerate(zip(self.phys, channels))]
        for number, point in enumerate(self.points):
            for net, _ in enumerate(SSIDS):
                run("ip", "link", "set", wire(number, net), "up")
            point.begin([Served(ssid, wire(number, net)) for net, ssid in enumerate(SSIDS)], more)

    def end(self) -> None:
        """The stations leave, the access points end, and all is as at first."""
        for part in (*self.stations, *self.hosts):
            part.end_all()
        for station in self.stations:
            station.stop()
        for number, point in enumerate(self.points):
            set_reach(point, IN_REACH)
            point.end()
            for net, _ in enumerate(SSIDS):
                run("ip", "link", "set", port(number, net), "up")
                run("bridge", "link", "set", "dev", port(number, net), "hairpin", "off")
        self.points = []

    def bssid(self, number: int, place: int) -> str:
        """The address of the network of the station at this place, at one of the access points."""
        return self.points[number].bssid(self.net_of(place))

    def join(self, number: int, *places: int) -> list[Station]:
        """Stations join this access point; the other knows nothing of them any more, and neither remembers them."""
        for place in places:
            station = self.stations[place]
            station.begin(SSIDS[self.net_of(place)])
            know_each_other(station, self.hosts[self.net_of(place)])
        for place in places:
            station = self.stations[place]
            station.joined(SECONDS_TO_JOIN)
            for word in ("BSS_EXPIRE_AGE 100000", "BSS_EXPIRE_COUNT 1000"):
                station.ask(word)
            self.see_both(place)
            if station.network() != self.bssid(number, place):
                self.roam(number, place)
        time.sleep(SECONDS_TO_FORGET)
        return [self.stations[place] for place in places]

    def see_both(self, place: int) -> None:
        """A station has seen its network at both access points."""
        def sees() -> bool:
            station.ask(f"SCAN TYPE=ONLY freq={FREQUENCIES.replace(' ', ',')}")
            time.sleep(0.5)
            found = station.ask("SCAN_RESULTS")
            return all(self.bssid(number, place) in found for number in (HERE, THERE))
        station = self.stations[place]
        wait_for(f"{station.name} sees both", SECONDS_TO_JOIN, sees)

    def tell_to_roam(self, number: int, *places: int) -> None:
        """Stations are told to go to this access point."""
        for place in places:
            said = self.stations[place].ask(f"ROAM {self.bssid(number, place)}")
            if not said.startswith("OK"):
                raise Failed(f"{self.stations[place].name}: ROAM: {said}")

    def roam(self, number: int, *places: int) -> None:
        """They are told so, and get there."""
        self.tell_to_roam(number, *places)
        self.are_at(number, *places)

    def are_at(self, number: int, *places: int) -> None:
        """They get to this access point."""
        for place in places:
            bssid = self.bssid(number, place)
            station = self.stations[place]
            wait_for(f"{station.name} joins {bssid}", SECONDS_TO_JOIN, lambda: station.network() == bssid, EVERY)

    def holders(self, place: int) -> list[int]:
        """The access points that have a station in their tables."""
        address = self.stations[place].hardware_address()
        return [number for number in (HERE, THERE) if self.has(number, self.net_of(place), address)]

    def has(self, number: int, net: int, address: str) -> bool:
        """Whether an access point has a station in the table of a network."""
        point = self.points[number]
        if isinstance(point, Hostapd):
            return address in run("iw", "dev", point.interface_of(net), "station", "dump")
        try:
            found = ask(point.phy, "status")["networks"][net]["stations"]
        except Fault as fault:
            raise Failed(str(fault)) from None
        return any(station["address"] == address and station["state"] == "associated" for station in found)

    def downward(self, place: int, sent: int) -> Receiving:
        """Units that the host of a station's network sends it are taken from now on."""
        return Receiving(self.stations[place], sent, port=PORT)

    def upward(self, place: int, sent: int) -> Receiving:
        """The same of those that the station sends its host."""
        return Receiving(self.hosts[self.net_of(place)], sent, port=UPWARD_PORT)

    def send_down(self, place: int, begin: float, rate: float, seconds: float) -> None:
        """The host of a station's network sends it units from a moment on."""
        host, station = self.hosts[self.net_of(place)], self.stations[place]
        Flow(rate, OCTETS, seconds).start(host, station.address, PORT, begin)

    def send_up(self, place: int, begin: float, rate: float, seconds: float) -> None:
        """The station sends its host units."""
        host, station = self.hosts[self.net_of(place)], self.stations[place]
        Flow(rate, OCTETS, seconds).start(station, host.address, UPWARD_PORT, begin)

    def switch_off(self, number: int) -> None:
        """An access point is off: nobody hears it, and its wires are down."""
        set_reach(self.points[number], OUT_OF_REACH)
        for net, _ in enumerate(SSIDS):
            run("ip", "link", "set", port(number, net), "down")

    def reflect(self) -> None:
        """The bridges send back all that comes from access points."""
        for number in (HERE, THERE):
            for net, _ in enumerate(SSIDS):
                run("bridge", "link", "set", "dev", port(number, net), "hairpin", "on")

    def claim(self, place: int, frame: bytes, every: float, until: float) -> int:
        """A stranger on the wire of the guests sends frames with a station's address as their source, up to a moment;
        answers how many."""
        source, count = address_of(self.stations[place].hardware_address()), 0
        with socket.socket(socket.AF_PACKET, socket.SOCK_RAW) as sending:
            sending.bind((STRANGER, 0))
            begun = time.monotonic()
            while time.monotonic() < until:
                sending.send(EVERYBODY + source + frame + struct.pack(">I", count if frame == PLAIN else 0))
                count += 1
                wait_until(begun + count * every)
        return count

    def lines(self, number: int, place: int, text: str) -> int:
        """How often an access point told something of a station."""
        address = self.stations[place].hardware_address()
        return sum(address in line and text in line for line in self.points[number].told().splitlines())


def wire(number: int, net: int) -> str:
    """The wire of an access point's network, which is that access point's alone."""
    return f"wire{number}-{net}"


def port(number: int, net: int) -> str:
    """Its other end, which is in the bridge of the network."""
    return f"port{number}-{net}"
