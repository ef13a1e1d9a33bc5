"""The stage on which stations doze: who is there, what is sent to them, and what is measured of it."""
import math
import os
import statistics
import time
from dataclasses import dataclass, field

from paths import LIVE
from airing import Air, Hostapd, Other, Own, PowerSave, live_with
from made_up import ALL_RATES, Habit, MadeUp, play
from sharing import Flow, start_stamped
from stage import HANDED_BACK_FROM, HANDED_BACK_TO, Observer
from stations import (Failed, Host, Radio, Station, know_each_other, load_radios, run, unload_radios, wait_for,
                      wait_until)

BSSID, SSID, FREQUENCY, PORT, UNCOUNTED = "02:00:00:00:01:01", "doze", 2437, 9000, 9001
# Another network: hostapd wants each bit of the first address in that of the others.
OTHER_BSSID, OTHER_SSID = "02:00:00:00:01:03", "beside"
# The radios' numbers: the access point, one that hears all and sends as a stranger, then stations.
AP_RADIO, OBSERVER, FIRST = 0, 1, 2
ADDRESS, EVERYBODY, HOST_ADDRESS = "10.0.1.{}", "10.0.1.255", "10.0.1.1"
OTHER_ADDRESS, OTHER_HOST_ADDRESS = "10.0.2.{}", "10.0.2.1"
# So long before they send the senders are started, since starting a program takes the processor.
SECONDS_TO_START = 2.0
WARMING_UNITS, WARMING_RATE = 60, 50
UNLIMITED, SECONDS_OF_SILENCE = 1_000_000, 8
MICROSECONDS_OF_TIME_UNIT, INTERVAL = 1024, 100


@dataclass
class Came:
    """Units that a station was sent and that came: of each when it was sent, and when it came, in nanoseconds."""

    sent: int
    units: list[tuple[int, int]] = field(default_factory=list)

    @property
    def stamps(self) -> set[int]:
        """By when it was sent each unit is known."""
        return {stamp for stamp, _ in self.units}

    def out_of_order(self) -> int:
        """How many came first behind one that was sent later."""
        seen: set[int] = set()
        count, latest = 0, 0
        for stamp, _ in self.units:
            count += stamp < latest and stamp not in seen
            seen.add(stamp)
            latest = max(latest, stamp)
        return count

    def delays(self, since: int = 0) -> list[float]:
        """How long each was on its way, in milliseconds: counted from a moment on where it was sent before."""
        first: dict[int, int] = {}
        for stamp, came in self.units:
            first.setdefault(stamp, came)
        return [(came - max(stamp, since)) / 1e6 for stamp, came in first.items()]


@dataclass
class Figures:
    """What came of one row: a cell of the table."""

    sent: int
    came: int
    twice: int
    out_of_order: int
    delays: list[float]
    # What the program counts as lost; None of hostapd.
    counted: int | None = None
    # How many may be lost besides, since the radio had them already.
    with_radio: int = 0
    # How many may come twice or out of order, where that isn't one in a thousand.
    most_odd: int | None = None
    # More that the row counts, in words, and what of that doesn't hold.
    more: str = ""
    more_misses: list[str] = field(default_factory=list)

    @classmethod
    def of(cls, parts: list[Came], since: int = 0) -> "Figures":
        """Those of several stations."""
        came = sum(len(part.stamps) for part in parts)
        return cls(sum(part.sent for part in parts), came, sum(len(part.units) for part in parts) - came,
                   sum(part.out_of_order() for part in parts),
                   [delay for part in parts for delay in part.delays(since)])

    def at(self, percent: float) -> float:
        """The delay that so many percent didn't exceed."""
        ordered = sorted(self.delays)
        return ordered[max(0, math.ceil(len(ordered) * percent / 100) - 1)] if ordered else math.nan

    def __str__(self) -> str:
        counted = f" ({self.counted} counted as lost)" if self.counted else ""
        median = statistics.median(self.delays) if self.delays else math.nan
        delays = ", ".join(f"{delay:.1f}" if delay < 10 else f"{delay:,.0f}"
                           for delay in (median, self.at(95), self.at(100)))
        return (f"{self.came:,} of {self.sent:,}{counted}; {self.twice}, {self.out_of_order}; {delays}"
                f"{f'; {self.more}' if self.more else ''}")

    def misses(self, slowest: float) -> list[str]:
        """What doesn't hold of the aims: none lost but what the program counted and what the radio had, at most one in
        a thousand twice or out of order, no delay above so many milliseconds, and what the row asks for besides."""
        lost = self.sent - self.came - (self.counted or 0) - self.with_radio
        odd = self.twice + self.out_of_order
        most_odd = self.sent / 1000 if self.most_odd is None else self.most_odd
        found = ((lost > 0, f"{lost} lost that the program didn't count"),
                 (odd > most_odd, f"{odd} twice or out of order"),
                 (self.at(100) > slowest, f"a delay of {self.at(100):,.0f} ms, not {slowest:,.0f}"))
        return [what for is_missed, what in found if is_missed] + self.more_misses


def intervals(number: int) -> float:
    """So many beacon intervals in milliseconds."""
    return number * INTERVAL * MICROSECONDS_OF_TIME_UNIT / 1000


class Receiving:
    """Datagrams that a Linux station takes from now on."""

    def __init__(self, station: Station | Host, sent: int, address: str = "0.0.0.0", port: int = PORT) -> None:
        self.sent = sent
        words = "receive", address, str(port), str(UNLIMITED), str(SECONDS_OF_SILENCE), "--stamps"
        self.process = start_stamped(station, *words)

    def result(self) -> Came:
        """What came, once it was told to end."""
        self.process.terminate()
        delays, _, stamps = self.process.communicate()[0].decode().partition("\n")
        units = [(int(stamp), int(stamp) + int(float(delay) * 1e6))
                 for stamp, delay in zip(stamps.split(), delays.split())]
        return Came(self.sent, units)


@dataclass
class Stage:
    """The air, the access point's radio, the hosts at the wires of its network and of another one, and the radios of
    stations. Those of the other network are made up, and stand in both lists."""

    air_program: str
    seed: int
    folder: str
    radios: list[Radio] = field(default_factory=list)
    linux: list[Station] = field(default_factory=list)
    made_up: list[MadeUp] = field(default_factory=list)
    of_other: list[MadeUp] = field(default_factory=list)

    def set_up(self, stations: int, sleepers: str) -> None:
        """Loads the radios, with so many for stations, and lets the air carry: each frame goes to all of them."""
        number = FIRST + stations
        self.radios = load_radios(number)
        self.air = Air(self.air_program, number, self.seed, OBSERVER, os.path.join(self.folder, "air"), is_first=True)
        self.air.let_sleepers(sleepers)
        self.phy = self.radios[AP_RADIO].phy
        run("iw", "dev", self.radios[AP_RADIO].interface, "del")
        Observer(self.radios[OBSERVER], FREQUENCY)
        self.host = Host("host1", "eth0", HOST_ADDRESS, "wire1")
        self.other_host = Host("host2", "eth0", OTHER_HOST_ADDRESS, "wire2")
        for host in (self.host, self.other_host):
            host.create()

    def take_down(self) -> None:
        """Takes hosts, air and radios away."""
        for host in (self.host, self.other_host):
            host.delete()
        self.air.end()
        unload_radios()

    def begin(self, point: Own | Hostapd, discipline: str) -> None:
        """Begins an access point, on a radio that queues so."""
        self.air.lose()
        self.air.queue_by(AP_RADIO, discipline)
        point.begin()

    def end(self, point: Own | Hostapd) -> str:
        """Stations go away, and the access point ends; what that tells."""
        for station in self.linux:
            station.delete()
            wait_for(f"{station.phy} comes back", 20, lambda station=station: os.path.isdir(
                f"/sys/class/ieee80211/{station.phy}"), 0.05)
        for made_up in self.made_up:
            made_up.delete()
        self.linux, self.made_up, self.of_other = [], [], []
        for host in (self.host, self.other_host):
            host.end_all()
        return point.end()

    def add_linux(self, number: int) -> list[Station]:
        """So many Linux stations join, beside those that are there."""
        first = len(self.linux) + len(self.made_up)
        added = [Station(f"sta{place}", radio.interface, ADDRESS.format(10 + place), radio.phy, FREQUENCY)
                 for place, radio in enumerate(self.radios[FIRST + first:FIRST + first + number], first)]
        self.linux += added
        for station in added:
            station.create()
            station.begin(SSID, BSSID)
        for station in added:
            station.joined(60, BSSID)
            know_each_other(station, self.host)
        return added

    def add_made_up(self, number: int, listen_interval: int = 1, rates: bytes = ALL_RATES,
                    to_other: bool = False) -> list[MadeUp]:
        """So many made-up stations join, beside those that are there: the network or the other one."""
        first = len(self.linux) + len(self.made_up)
        host, address = (self.other_host, OTHER_ADDRESS) if to_other else (self.host, ADDRESS)
        added = []
        for place in range(first, first + number):
            station = MadeUp(self.radios[FIRST + place], FIRST + place, f"02:00:00:00:03:{place:02x}",
                             address.format(10 + place), FREQUENCY, PORT)
            self.air.give(station.radio_number, station.hardware)
            station.create()
            self.made_up.append(station)
            added.append(station)
            network = (OTHER_BSSID, OTHER_SSID) if to_other else (BSSID, SSID)
            station.join(*network, listen_interval, rates)
            host.know(station.address, station.hardware)
        self.of_other += added if to_other else []
        return added

    def hear_at_most(self, rate: float, *radios: int) -> None:
        """From now on these radios hear nothing faster than so many Mb/s from the access point."""
        self.air.lose(*(f"frames 100% from {AP_RADIO} to {radio} above {rate:g}" for radio in radios))

    def warm(self) -> None:
        """Units that aren't counted let the access point learn how fast each station hears."""
        begin = time.monotonic() + SECONDS_TO_START
        seconds = WARMING_UNITS / WARMING_RATE
        for station in (*self.linux, *self.made_up):
            self.flow(station.address, begin, WARMING_RATE, 1400, seconds, UNCOUNTED)
        self.play(begin + seconds + 0.5)

    def flow(self, to: str, begin: float, rate: float, octets: int, seconds: float, port: int = PORT,
             burst: int = 1) -> None:
        """Lets the host of an address's network send units from a moment on, so many at a time."""
        is_of_other = any(station.address == to for station in self.of_other)
        Flow(rate, octets, seconds, burst).start(self.other_host if is_of_other else self.host, to, port, begin)

    def habits(self, habits: list[Habit]) -> None:
        """From now on the made-up stations have these habits."""
        for station, habit in zip(self.made_up, habits):
            station.habit = habit
            habit.begin(station)

    def play(self, until: float) -> None:
        """Goes on up to a moment; none of the stations that are made up may be sent away meanwhile."""
        if self.made_up:
            play(self.made_up, until)
        wait_until(until)
        gone = [station.hardware for station in self.made_up if station.was_sent_away]
        if gone:
            raise Failed(f"sent away: {', '.join(gone)}")


def most_handed_back(lines: list[str]) -> int:
    """The most units of a record that went back to the program together."""
    most = together = 0
    is_between = False
    for line in lines:
        if line.startswith((HANDED_BACK_FROM, HANDED_BACK_TO)):
            is_between, together = line.startswith(HANDED_BACK_FROM), 0
        elif is_between:
            together += line.startswith("W ")
            most = max(most, together)
    return most


def counted_as_lost(point: Own | Hostapd) -> int | None:
    """How many units the program counts as lost; None of hostapd, which counts none."""
    if not isinstance(point, Own):
        return None
    line = next(line for line in point.start.tables()[BSSID] if line.startswith("events "))
    words = line.split()
    return int(words[words.index("lost") + 1])


@dataclass(frozen=True)
class Column:
    """A column of the table: hostapd where there is no program. It makes access points, each with files of its own."""

    name: str
    folder: str
    program: str | None = None
    bridge: str | None = None

    def make(self, stage: Stage, power_save: PowerSave, has_other: bool) -> Own | Hostapd:
        """An access point of one network, or of this and another one."""
        other = Other(OTHER_BSSID, OTHER_SSID, stage.other_host) if has_other else None
        if self.program is None:
            return Hostapd(self.folder, stage.phy, BSSID, SSID, stage.host, power_save, other)
        live = live_with(self.folder, LIVE, self.bridge)
        return Own(self.folder, live, self.program, stage.phy, BSSID, SSID, stage.host, power_save, other=other)
