"""A status document without an access point: three networks whose stations come, doze, send more and less and leave as
time goes, and the ten minutes before, for whoever wants to see the page. Nothing of it was measured."""
import math
import random
import time
from typing import Any, NamedTuple

from status.history import EACH_SECONDS, SPAN_SECONDS, History

BEFORE_SECONDS = 3600.0  # so long it seems to run already
STAY_SECONDS = 900.0  # after so long another station comes
INTERVAL = 0.1024
SEED = 80211
# How far a rate leaves its mean, and within how many seconds it comes back: together less than the mean itself.
WAVES = ((0.45, (240.0, 500.0)), (0.3, (60.0, 130.0)), (0.15, (16.0, 35.0)))


class Made(NamedTuple):
    """A network that is made up: its name, its places for stations, its wire, its share of the air, and how many
    seconds lie between two times at which it loses units."""

    name: str
    places: int
    wire: str | None
    share: float
    loses_each: float


NETWORKS = (Made("guests", 14, "wire-guests", 0.31, 410.0), Made("office", 9, "wire-office", 0.22, 170.0),
            Made("devices", 22, None, 0.04, math.inf))


def varied(seconds: float, seed: int) -> float:
    """What has come after so many seconds of something whose mean is 1 a second, and whose rate goes up and down. It
    never falls."""
    draw, sum_of_all = random.Random(seed), seconds
    for depth, bounds in WAVES:
        pace, phase = math.tau / draw.uniform(*bounds), draw.uniform(0, math.tau)
        sum_of_all += depth * (math.sin(pace * seconds + phase) - math.sin(phase)) / pace
    return sum_of_all


def station_of(place: int, number: int, seconds: float) -> tuple[int, dict[str, Any] | None]:
    """How many stations have joined at this place of a network, and the one that has it now; None where it left."""
    seed = SEED + 1000 * place + number
    draw = random.Random(seed)
    offset, rate, busy = draw.uniform(0, STAY_SECONDS), draw.choice((108, 96, 72, 22, 11)), draw.lognormvariate(8, 2)
    turn, since = divmod(seconds + offset, STAY_SECONDS)
    draw = random.Random(seed + 100_000 * int(turn))
    address = f"02:{draw.getrandbits(32).to_bytes(4, 'big').hex(':')}:{number:02x}"
    if since > STAY_SECONDS * draw.uniform(0.5, 1):
        return int(turn) + 1, None
    dozes = int(since / 7 + number) % 3 == 0
    sent = busy * varied(since, seed)
    to, back = int(sent), int(sent / 9)
    signal = round(-48 - number % 25 + 6 * math.sin(since / 50 + number))
    return int(turn) + 1, {
        "address": address, "state": "associated", "aid": number + 1, "dozes": dozes, "since": since,
        "heard": since % (20.0 if dozes else 0.7), "signal": signal, "rate_to": rate, "rate_from": rate,
        "octets_to": to, "octets_from": back, "frames_to": to // 900, "frames_from": back // 300,
        "kept": int(since) % 4 if dozes else 0}


def network_of(place: int, seconds: float) -> dict[str, Any]:
    """A network with its stations."""
    made = NETWORKS[place]
    found = [station_of(place, number, seconds) for number in range(made.places)]
    stations, joins = [station for _, station in found if station], sum(joined for joined, _ in found)
    intervals, left = int(seconds / INTERVAL), joins - len(stations)
    waiting, lost = int(seconds) % 3 * place, 3 * int(seconds / made.loses_each)
    leaves = {"said": left // 2, "silent": left - left // 2, "unassociated": 0, "kicked": 0, "moved": 0}
    return {"bssid": f"02:00:00:00:01:{place + 1:02x}", "ssid": made.name.encode().hex(), "wire": made.wire,
            "wire_down": None, "updates": joins if made.wire else 0,
            "air": {"weight": 1, "seconds": made.share * varied(seconds, SEED + place), "waiting": waiting,
                    "waiting_octets": 1200 * waiting, "most_waiting_octets": 2 << 20, "sent_again": int(seconds / 9),
                    "unacknowledged": int(seconds / 90), "unsent": {}},
            "quota": 256, "holder": None, "joins": joins, "leaves": leaves, "moved_in": 0, "moved_out": 0,
            "claims": 0, "max_stations": 64, "max_known": 256,
            "counts": {"events": intervals + int(340 * varied(seconds, SEED + place)), "clock": intervals,
                       "unread": int(seconds / 60), "lost": lost, "kept": sum(each["kept"] for each in stations)},
            "refusals": {"1": 3} if place == 0 else {}, "stations": stations}


def demo_of(started: float, now: float | None = None) -> dict[str, Any]:
    """The document at a time, of an access point that seems to run since an hour before the start."""
    seconds = (time.monotonic() if now is None else now) - started + BEFORE_SECONDS
    sent = int(seconds / INTERVAL) * len(NETWORKS)
    late = [[1, sent - sent // 20], *([bound, sent] for bound in (2, 5, 10, 20, 50, 100, 200))]
    return {"version": "a demonstration without a radio", "format": 1, "since": seconds, "phy": "no radio", "channel": 6,
            "faults": [], "beacons": {"sent": sent, "late_ms_mean": 0.4, "late_ms_worst": 7.9, "missed": 0,
                                      "late_seconds": 4e-4 * sent, "late_up_to_ms": late},
            "drops": {}, "left_out": {"the air: sent again, and taken before": int(seconds / 40)},
            "networks": [network_of(place, seconds) for place in range(len(NETWORKS))]}


def make_history(history: History, started: float) -> None:
    """Fills the ten minutes before the start, as all else is made up."""
    for age in range(int(SPAN_SECONDS), 0, -int(EACH_SECONDS)):
        history.take(demo_of(started, started - age), started - age)
