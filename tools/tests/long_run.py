"""A long run of several networks, drawn from a seed: stations that come, go, roam, doze and poll, units between air and
wire, frames that aren't read, and beacon intervals between them."""
import random

from common import heard
from configurations import configuration, network

NAMES = ("guest", "office", "devices")
SETTINGS = {"max_stations": 20, "max_known": 40, "quota": 30, "max_events": 1000000}
UNIT = "aaaa030000000800 01"
TICKS, STATIONS, MOST_AID = 0.6, 9, 5


def bssid_of(place):
    """The address of a network, as digits."""
    return f"0200000001{place + 1:02x}"


def with_colons(digits):
    """An address as a text has it."""
    return ":".join(digits[at:at + 2] for at in range(0, 12, 2))


def config():
    """The configuration of three networks."""
    return configuration(*(network(with_colons(bssid_of(place)), name, dtim=place + 1, **SETTINGS)
                           for place, name in enumerate(NAMES)))


def lines_of(draw):
    """What happens next: one line, or those by which a station joins."""
    if draw.random() < TICKS:
        return ["T"]
    place = draw.randrange(len(NAMES))
    bssid, name = bssid_of(place), NAMES[place].encode().hex()
    sender, other = (f"02aa000000{draw.randrange(1, STATIONS + 1):02x}" for _ in range(2))
    to = {"receiver": bssid, "sender": sender}
    ssid = f"00{len(name) // 2:02x}{name}"
    associate = draw.choice([("00000000", "0100 0300"), ("20000000", f"0100 0300 {bssid_of(0)}")])
    destination = draw.choice([other, "ffffffffffff", "02bb00000001"])
    doze = draw.choice(["08010000", "08110000"])
    return draw.choice([
        [heard("b0000000", "0000 0100 0000", **to), heard(associate[0], f"{associate[1]} {ssid} 010482840b16", **to)],
        [heard(draw.choice(["48010000", "48110000"]), **to)],
        [f"A a400 {0xc000 | draw.randrange(1, MOST_AID + 1):04x} {bssid} {sender}"],
        [f"W {with_colons(bssid)} {draw.choice([other, 'ffffffffffff'])} 02bb00000001 0800 01"],
        [heard(doze, UNIT, third=destination, **to)], [heard("88010000", f"0000 {UNIT}", **to)],
        [heard("88010000", f"0000 {UNIT}", **to)],
        [heard(draw.choice(["a0000000", "c0000000"]), "0800", **to)] if draw.random() < 0.3 else ["T"],
        [heard("40000000", "0000 010402040b16", "ffffffffffff", sender)] if draw.random() < 0.3 else ["T"]])


def trace(count, seed=1):
    """So many lines."""
    draw, lines = random.Random(seed), []
    while len(lines) < count:
        lines += lines_of(draw)
    return "\n".join(lines[:count]) + "\n"
