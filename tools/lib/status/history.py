"""What an access point did in the last ten minutes: of each network its share of the air, its rates, its stations and its
losses, and of each station that the status lists its rates, its signal and its kept units.

All of it is reckoned from status documents that are asked for again and again. It stands in memory alone: at most
MOST_POINTS numbers of a series, and no more stations than a document lists.
"""
import math
import threading
from array import array
from collections import deque
from collections.abc import Iterable, Iterator

from status.document import ASSOCIATED

SPAN_SECONDS = 600.0
EACH_SECONDS = 5.0
MOST_POINTS = int(SPAN_SECONDS / EACH_SECONDS) + 1
NETWORK_SERIES = ("air", "to", "from", "stations", "lost")
STATION_SERIES = ("to", "from", "signal", "kept")
PLACES = {"air": 4, "lost": 3}  # behind the point; other numbers are whole
UNKNOWN = math.nan


class Series:
    """Several series of one network or station, a number of each for each point since it was first seen, and the counts
    by which the next rates are reckoned."""

    def __init__(self, names: tuple[str, ...]) -> None:
        self.names = names
        self.numbers = array("f")
        self.counts: dict[str, float] = {}

    def append(self, numbers: Iterable[float | None]) -> None:
        """One more point, and none that is older than the span."""
        self.numbers.extend(UNKNOWN if number is None else number for number in numbers)
        del self.numbers[:max(0, len(self.numbers) - MOST_POINTS * len(self.names))]

    def rates(self, counts: dict[str, float], seconds: float | None) -> dict[str, float | None]:
        """How fast each count grew; None where that isn't known, as where it began anew."""
        before, self.counts = self.counts, counts
        return {name: (count - before[name]) / seconds if seconds and before.get(name, math.inf) <= count else None
                for name, count in counts.items()}

    def told(self, points: int) -> dict[str, list[float | None]]:
        """Each series by its name, with so many points, the newest last."""
        wide = len(self.names)
        numbers = self.numbers[max(0, len(self.numbers) - points * wide):]
        missing: list[float | None] = [None] * (points - len(numbers) // wide)
        return {name: missing + [rounded(name, number) for number in numbers[place::wide]]
                for place, name in enumerate(self.names)}


class History:
    """All series; several threads may ask for them while another one adds points."""

    def __init__(self) -> None:
        self.lock = threading.Lock()
        self.moments: deque[float] = deque(maxlen=MOST_POINTS)
        self.since: float | None = None  # for how long the program had run at the last point
        self.networks: dict[str, Series] = {}
        self.stations: dict[str, dict[str, Series]] = {}

    def take(self, told: dict | None, moment: float) -> None:
        """One more point at a moment: a status document, or None where none was told."""
        with self.lock:
            while self.moments and self.moments[0] < moment - SPAN_SECONDS:
                self.moments.popleft()
            self.moments.append(moment)
            if told is None:
                for series in self.all_series():
                    series.append([None] * len(series.names))
                return
            seconds = None if self.since is None or self.since >= told["since"] else told["since"] - self.since
            self.since = told["since"]
            networks = told["networks"]
            self.networks = {network["bssid"]: self.networks.get(network["bssid"], Series(NETWORK_SERIES))
                             for network in networks}
            self.stations = {network["bssid"]: self.take_stations(network, seconds) for network in networks}
            for network in networks:
                self.take_network(network, seconds)

    def all_series(self) -> Iterator[Series]:
        """Those of networks and stations."""
        yield from self.networks.values()
        for stations in self.stations.values():
            yield from stations.values()

    def take_stations(self, network: dict, seconds: float | None) -> dict[str, Series]:
        """The series of the network's stations that are there now."""
        before = self.stations.get(network["bssid"], {})
        found = {}
        for station in network["stations"]:
            if station["state"] == ASSOCIATED:
                address = station["address"]
                found[address] = series = before.get(address) or Series(STATION_SERIES)
                rates = series.rates({"to": station["octets_to"], "from": station["octets_from"]}, seconds)
                series.append((rates["to"], rates["from"], station["signal"], station["kept"]))
        return found

    def take_network(self, network: dict, seconds: float | None) -> None:
        """One more point of a network: its rates are the sums of its stations'."""
        series = self.networks[network["bssid"]]
        counts = {"air": network["air"]["seconds"]}
        if network["counts"]:
            counts["lost"] = network["counts"].get("lost", 0) + sum(network["air"]["unsent"].values())
        rates = series.rates(counts, seconds)
        stations = self.stations[network["bssid"]].values()
        associated = network.get("associated", len(stations))  # more than those that are listed
        sums = [None if seconds is None else sum_of(each.numbers[place - len(STATION_SERIES)] for each in stations)
                for place in range(2)]
        series.append((rates["air"], *sums, associated, rates.get("lost")))

    def document(self, moment: float) -> dict:
        """What is told of all networks: how long before this moment each point was, and the numbers of each series."""
        with self.lock:
            points = len(self.moments)
            networks: list[dict[str, object]] = [{"bssid": bssid, **series.told(points)}
                                                 for bssid, series in self.networks.items()]
            return {"seconds": self.ages(moment), "networks": networks}

    def of_station(self, bssid: str, address: str, moment: float) -> dict | None:
        """The same of one station, or None where it isn't there."""
        with self.lock:
            series = self.stations.get(bssid, {}).get(address)
            if series is None:
                return None
            return {"seconds": self.ages(moment), "bssid": bssid, "address": address, **series.told(len(self.moments))}

    def ages(self, moment: float) -> list[float]:
        """How long ago each point was."""
        return [round(moment - point, 1) for point in self.moments]


def sum_of(numbers: Iterable[float]) -> float | None:
    """The sum of the known ones; None where there are some, and none of them is known."""
    numbers = list(numbers)
    known = [number for number in numbers if not math.isnan(number)]
    return None if numbers and not known else sum(known)


def rounded(name: str, number: float) -> float | None:
    """A number of a series as it is told."""
    return None if math.isnan(number) else round(number, PLACES.get(name))
