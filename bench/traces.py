"""Long traces that are drawn line by line. Whoever draws one lets the radio, a `model.Radio`, take each line before the
next is drawn: so a trace may look at what its networks know by now.

Stations are numbered from 0 as they join a network, so a station's association identifier is its number and 1, as long
as none leaves."""
import random

from lines import BROADCAST, HOST, TICK, air, association, authentication, data, null, poll, typed, wired
from model import NetworkConfig, RadioConfig

PAYLOAD = bytes([0x5A] * 16)
UNITS = 8
BEACONS = 50
SENDERS = 200


def radio_config(count, **limits):
    """A configuration of this many networks with these limits."""
    return RadioConfig([NetworkConfig(bytes([2, 0, 0, 0, 0, number]), **limits) for number in range(1, count + 1)])


def address(network, station):
    """The address of a station of a network."""
    return bytes([2, 0xAA, network.bssid[-1]]) + station.to_bytes(3, "big")


def joins(network, station):
    """A station authenticates and asks to associate."""
    yield air(authentication(network.bssid, address(network, station)))
    yield air(association(network.bssid, address(network, station), network.name))


def sets_mode(network, station, doze):
    """A station says whether it dozes."""
    return air(null(network.bssid, address(network, station), doze))


def polls(network, station):
    """A station asks for its oldest unit."""
    return air(poll(network.bssid, address(network, station), station + 1))


def sends(network, station, to):
    """A unit of a station, whose mode stays."""
    source = address(network, station)
    return air(data(network.bssid, source, to, typed(PAYLOAD), network.stations[source].doze))


def comes(network, to):
    """A unit from the wire."""
    return wired(network.bssid, to, payload=PAYLOAD)


def joining(networks, count):
    """Stations that join each network."""
    for network in networks:
        for station in range(count):
            yield from joins(network, station)


def dozing(networks, count):
    """Stations that doze, and get units from the wire."""
    yield from joining(networks, count)
    [network] = networks
    yield from (sets_mode(network, station, True) for station in range(count))
    yield from (comes(network, address(network, station)) for _ in range(UNITS) for station in range(count))


def waking(networks, count):
    """The same, and each polls once and wakes."""
    yield from dozing(networks, count)
    [network] = networks
    for station in range(count):
        yield polls(network, station)
        yield sets_mode(network, station, False)


def waiting(networks, count, beacons=BEACONS):
    """The same stations, and some beacon intervals in which their units wait."""
    yield from dozing(networks, count)
    yield from ticking(networks, beacons)


def ticking(_networks, count):
    """Beacon intervals."""
    yield from (TICK for _ in range(count))


def aging(networks, count):
    """This many lines: stations that doze and never poll, and units that come for them in turn; each 100th begins a
    beacon interval, so that units age where the network is so configured."""
    [network] = networks
    yield from joining(networks, SENDERS)
    yield from (sets_mode(network, station, True) for station in range(SENDERS))
    for number in range(3 * SENDERS, count):
        yield TICK if number % 100 == 0 else comes(network, address(network, number % SENDERS))


def passing(networks, count):
    """Units while nobody dozes, in turn: from the wire to a station and to all; of a station to the wire, to another
    and to all."""
    yield from joining(networks, SENDERS)
    [network] = networks
    for number in range(count):
        station, other = number % SENDERS, address(network, (number * 7 + 1) % SENDERS)
        kind = number % 5
        if kind < 2:
            yield comes(network, (address(network, station), BROADCAST)[kind])
        else:
            yield sends(network, station, (HOST, other, BROADCAST)[kind - 2])


def mixing(networks, count):
    """This many lines of all kinds, drawn with a fixed seed; each 100th begins a beacon interval."""
    yield from joining(networks, SENDERS)
    draw = random.Random(1)
    for number in range(2 * SENDERS * len(networks), count):
        if number % 100 == 0:
            yield TICK
        else:
            yield drawn(draw.choice(networks), draw.randrange(SENDERS), draw.randrange(SENDERS), draw.randrange(100))


def drawn(network, station, other, lot):
    """A line of a network, by lot: units between wire and stations, among stations and to all, polls, and changes of
    mode."""
    if lot < 30:
        return comes(network, address(network, station))
    if lot < 50:
        return sends(network, station, HOST)
    if lot < 65:
        return sends(network, station, address(network, other))
    if lot < 67:
        return sends(network, station, BROADCAST)
    if lot < 70:
        return comes(network, BROADCAST)
    if lot < 92:
        return polls(network, station)
    return sets_mode(network, station, not network.stations[address(network, station)].doze)
