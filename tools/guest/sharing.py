"""The stage on which networks of one radio share the air: who is there, what goes on, and what is measured of it."""
import math
import os
import random
import socket
import struct
import subprocess
import time
from dataclasses import dataclass, field

from paths import HERE
from airing import Air
from frames import Frame, address_of
from points import Point, Served
from radiotap import captured
from stage import PCAP_HEADER, Observer, timed_packets
from stations import Failed, Host, Station, know_each_other, load_radios, run, unload_radios, wait_for

FREQUENCY, PORT = 2437, 9000
# The radios' numbers: the access point, one that hears all and sends as a stranger, then a station of each network.
AP_RADIO, OBSERVER, FIRST = range(3)
OBSERVED = "obs0"
SSIDS = ("guest", "office", "devices")
RADIOS = FIRST + len(SSIDS)
SLOWEST = 1.0
# Before a frame that another radio sends, a radiotap header: at 1 Mb/s.
SENDING_HEADER = struct.pack("<BBHIBxH", 0, 0, 12, 1 << 2 | 1 << 15, 2, 0)
# A probe request to all, for any network, at 1, 2, 5.5 and 11 Mb/s.
PROBE_REQUEST, WILDCARD, BROADCAST = b"\x40\0\0\0", b"\0\0\1\4\x82\x84\x0b\x16", b"\xff" * 6
WARMING_PINGS, WARMING_SECONDS = 40, 0.05
SECONDS_OF_SILENCE = 8
# Of IPv4 and UDP.
HEADERS_LEN = 28


@dataclass
class Party:
    """A network's name, its station with the number of its radio, and the host at its wire."""

    ssid: str
    radio: int
    station: Station
    host: Host


@dataclass(frozen=True)
class Delays:
    """How many datagrams came, and how long each was on its way, in milliseconds."""

    times: list[float]

    def at(self, percent: float) -> float:
        """What so many percent didn't exceed."""
        ordered = sorted(self.times)
        return ordered[max(0, math.ceil(len(ordered) * percent / 100) - 1)] if ordered else math.inf


def start_stamped(part: Station | Host, *words: str) -> subprocess.Popen:
    """Starts the program `stamped` in a part, and waits until it is ready."""
    process = part.start(os.path.join(HERE, "stamped"), *words, output=subprocess.PIPE)
    said = process.stdout.readline().strip()
    if said != b"ready":
        said += process.communicate()[0]
        raise Failed(f"{part.name}: stamped {words[0]}: {said.decode()}")
    return process


class Receiving:
    """Datagrams that a part takes from now on, as many as these at most, with the program `stamped`."""

    def __init__(self, part: Station | Host, port: int, number: int, address: str | None = None) -> None:
        words = "receive", address or part.address, str(port), str(number), str(SECONDS_OF_SILENCE)
        self.process = start_stamped(part, *words)

    def expect_no_more(self) -> None:
        """Ends it, though fewer came."""
        self.process.terminate()

    def result(self) -> Delays:
        """What came, once it has ended."""
        return Delays([float(word) for word in self.process.communicate()[0].split()])


@dataclass(frozen=True)
class Flow:
    """Datagrams of so many octets each, so many a second, or with rate 0 as many as there is room for; so many go at a
    time."""

    rate: float
    octets: int
    seconds: float
    burst: int = 1

    def start(self, sender: Station | Host, to: str, port: int, begin: float) -> subprocess.Popen:
        """Lets a part send them from a moment on, for which it has to be ready; an address that ends in 255 is that of
        all."""
        words = ["--broadcast"] if to.endswith(".255") else []
        process = start_stamped(sender, "send", to, str(port), str(begin), str(self.seconds), str(self.rate),
                                str(self.octets - HEADERS_LEN), "--burst", str(self.burst), *words)
        if time.monotonic() > begin:
            raise Failed(f"{sender.name} was too late to send")
        return process


class Heard:
    """What another radio hears from now on, as far as a filter of tcpdump lets it through: the first octets of it."""

    def __init__(self, folder: str, only: str) -> None:
        self.path = os.path.join(folder, "heard.pcap")
        if os.path.exists(self.path):
            os.remove(self.path)
        # Each packet takes a place in the buffer as long as the longest that is asked for.
        words = ["tcpdump", "-i", OBSERVED, "-w", self.path, "-s", "512", "-B", "4096", "-U", "-Z", "root",
                 "--immediate-mode", only]
        self.process = subprocess.Popen(words, stdin=subprocess.DEVNULL, stderr=subprocess.DEVNULL)
        wait_for("tcpdump", 20, lambda: os.path.exists(self.path) and os.path.getsize(self.path) >= PCAP_HEADER, 0.05)

    def end(self) -> list[tuple[float, Frame]]:
        """The frames that it heard, each with its time in seconds."""
        time.sleep(0.2)
        self.process.terminate()
        self.process.wait()
        heard = ((moment, captured(packet)) for moment, packet in timed_packets(self.path))
        return [(moment / 1e9, Frame(packet.frame)) for moment, packet in heard if packet]


class Beacons:
    """The beacons that another radio hears from now on."""

    def __init__(self, folder: str) -> None:
        self.heard = Heard(folder, "wlan type mgt subtype beacon")
        self.begun = 0.0

    def begin(self) -> None:
        """What was heard before isn't looked at."""
        self.begun = time.time()

    def end(self, bssids: list[str]) -> float:
        """The longest time in milliseconds in which a network sent no beacon."""
        ended = time.time()
        heard = self.heard.end()
        return 1000 * max(longest_silence([moment for moment, frame in heard if frame.transmitter == address_of(bssid)],
                                          self.begun, ended) for bssid in bssids)


def longest_silence(moments: list[float], begun: float, ended: float) -> float:
    """The longest time between two of these moments, of which those count that lie between two others; what lies before
    the first of them and behind the last is counted too."""
    within = [begun, *(moment for moment in moments if begun < moment < ended), ended]
    return max(after - before for before, after in zip(within, within[1:]))


def probe(number: int, seconds: float) -> None:
    """Sends so many probe requests for any network within so many seconds, each of a sender that isn't there."""
    draw, begun = random.Random(number), time.monotonic()
    with socket.socket(socket.AF_PACKET, socket.SOCK_RAW, 0) as sending:
        sending.bind((OBSERVED, 0))
        for place in range(number):
            time.sleep(max(0.0, begun + place * seconds / number - time.monotonic()))
            sender = b"\x02\xcc" + draw.randbytes(4)
            sending.send(SENDING_HEADER + PROBE_REQUEST + BROADCAST + sender + BROADCAST
                         + (place % 4096 << 4).to_bytes(2, "little") + WILDCARD)


@dataclass
class Stage:
    """The air, stations and hosts: a network `guest`, one `office` and, where it is wanted, a third one."""

    air_program: str
    seed: int
    folder: str
    parties: list[Party] = field(default_factory=list)

    def set_up(self) -> None:
        """Loads the radios, lets the air carry, and makes stations and hosts."""
        radios = load_radios(RADIOS)
        self.air = Air(self.air_program, RADIOS, self.seed, OBSERVER, os.path.join(self.folder, "air"), is_first=True)
        self.phy = radios[AP_RADIO].phy
        run("iw", "dev", radios[AP_RADIO].interface, "del")
        Observer(radios[OBSERVER], FREQUENCY)
        for place, (ssid, radio) in enumerate(zip(SSIDS, radios[FIRST:]), 1):
            station = Station(f"sta{place}", radio.interface, f"10.0.{place}.10", radio.phy, FREQUENCY)
            host = Host(f"host{place}", "eth0", f"10.0.{place}.1", f"wire{place}")
            for part in (station, host):
                part.create()
            self.parties.append(Party(ssid, FIRST + place - 1, station, host))

    def take_down(self) -> None:
        """Takes stations, hosts, air and radios away."""
        for party in self.parties:
            party.station.delete()
            party.host.delete()
        self.air.end()
        unload_radios()

    def hear_at_most(self, rates: dict[int, float]) -> None:
        """From now on the station of a radio hears nothing that is sent to it faster than so many Mb/s; a station for
        which no rate is given hears nothing at all."""
        silent = [party.radio for party in self.parties if party.radio not in rates]
        self.air.lose(*(f"frames 100% from {AP_RADIO} to {radio} above {rate:g}" for radio, rate in rates.items()),
                      *(f"frames 100% to {radio}" for radio in silent))

    def begin(self, point: Point, discipline: str, number: int, rates: dict[int, float],
              more: tuple[str, ...] = ()) -> list[Party]:
        """Begins an access point of so many networks, on a radio that queues so; their stations join, then hear no
        faster than by these rates, and pings let the access point learn that."""
        parties = self.parties[:number]
        self.air.lose()
        self.air.queue_by(AP_RADIO, discipline)
        point.begin([Served(party.ssid, party.host.port) for party in parties], more)
        for place, party in enumerate(parties):
            party.station.begin(party.ssid, point.bssid(place))
        for place, party in enumerate(parties):
            party.station.joined(60, point.bssid(place))
            know_each_other(party.station, party.host)
        self.hear_at_most(rates)
        for ping in [party.host.ping(party.station.address, WARMING_PINGS, WARMING_SECONDS, 1372) for party in parties]:
            ping.result()
        return parties

    def end(self, point: Point) -> None:
        """The stations leave, the access point ends, and nothing is lost any more."""
        for party in self.parties:
            party.station.stop()
        self.air.lose()
        point.end()
        for party in self.parties:
            run("ip", "link", "set", party.host.port, "up")
            party.host.end_all()
