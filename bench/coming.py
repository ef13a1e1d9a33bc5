"""Lines as they come without end, as bench/living and bench/faces give them to `live`: probes that are answered, and
lines of all kinds in networks whose stations come and go, drawn with a seed."""
import heapq
import random
from functools import lru_cache
from itertools import count

from lines import (BROADCAST, HOST, air, association, authentication, data, deauthentication, disassociation, null, poll,
                   probe, typed, wired)
from records import as_record
from traces import PAYLOAD, SENDERS, address

LIMITS = {"dtim": 3, "max_stations": SENDERS, "max_known": SENDERS, "quota": 256}


@lru_cache(maxsize=None)
def text(make, *words):
    """The line that a function makes of these words, as text with its end."""
    return make(*words).text() + "\n"


def heard(frame, *words):
    """The line of a frame on the air that a function makes of these words."""
    return air(frame(*words))


class Members:
    """The stations of a network by their numbers, as far as drawing a line needs to know of them."""

    def __init__(self, network):
        self.network = network
        self.free = list(range(1, SENDERS + 1))
        self.identifiers = {}
        self.dozing = set()

    def air(self, frame, station, *more):
        """The line of a frame that a station sends to the network."""
        return text(heard, frame, self.network.bssid, address(self.network, station), *more)

    def joins(self, station):
        """A station authenticates and asks to associate."""
        self.identifiers[station] = heapq.heappop(self.free)
        yield self.air(authentication, station)
        yield self.air(association, station, self.network.ssid.encode())

    def leaves(self, station, frame):
        """A station leaves by one of two frames."""
        heapq.heappush(self.free, self.identifiers.pop(station))
        self.dozing.discard(station)
        yield self.air(frame, station)

    def turns(self, station):
        """A station says that it dozes, or wakes."""
        self.dozing ^= {station}
        yield self.air(null, station, station in self.dozing)

    def drawn(self, station, other, lot):
        """Lines of a station, by lot."""
        if station not in self.identifiers:
            yield from self.joins(station)
        elif lot < 2:
            yield from self.leaves(station, (deauthentication, disassociation)[lot])
        elif lot < 12:
            yield from self.turns(station)
        elif lot < 40:
            yield text(wired, self.network.bssid, address(self.network, station), HOST, PAYLOAD)
        elif lot < 43:
            yield text(wired, self.network.bssid, BROADCAST, HOST, PAYLOAD)
        elif lot < 63:
            yield self.air(poll, station, self.identifiers[station])
        else:
            to = (HOST, address(self.network, other), BROADCAST)[0 if lot < 83 else 1 if lot < 97 else 2]
            yield self.air(data, station, to, typed(PAYLOAD), station in self.dozing)


def mixed(networks, seed):
    """Lines of all kinds without end, drawn with a seed, of stations that come and go."""
    draw = random.Random(seed)
    members = [Members(network) for network in networks]
    while True:
        yield from draw.choice(members).drawn(draw.randrange(SENDERS), draw.randrange(SENDERS), draw.randrange(100))


def mixing(networks, seed):
    """The same; each 100th line begins a beacon interval."""
    lines = mixed(networks, seed)
    for number in count(1):
        yield "T\n" if number % 100 == 0 else next(lines)


def probing(networks, _seed):
    """Probes without end, each of which is answered."""
    for number in count():
        yield text(heard, probe, address(networks[0], number % 1024), b"")


@lru_cache(maxsize=None)
def said(line, octets):
    """What is written for a line with its end, as text or as the record that says the same."""
    return as_record(line.rstrip("\n")) if octets else line.encode()
