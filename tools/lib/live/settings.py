"""What the bridge needs of a configuration, once the program has found no fault in it."""
import tomllib
from dataclasses import dataclass

from frames import address_of
from live.faults import Fault

BASIC = 0x80
JAPANESE_CHANNEL, JAPANESE_FREQUENCY = 14, 2484
MOST_EVENTS = 1_000_000
MOST_KNOWN = 10_000
MOST_STATIONS = 2007
QUOTA = 256


@dataclass(frozen=True)
class Network:
    """One network: its BSSID, its rates as the octets of its elements, how many stations it knows at most, how many
    events `run` takes of it, its SSID, how many stations are associated with it at most, how many units it keeps, and
    whether it sends on what its stations send to each other."""

    bssid: bytes
    rates: bytes
    max_known: int = MOST_KNOWN
    max_events: int = MOST_EVENTS
    ssid: bytes = b""
    max_stations: int = MOST_STATIONS
    quota: int = QUOTA
    relays: bool = True

    @property
    def sending_rate(self) -> int:
        """The rate of what is sent, in units of 500 kb/s: the lowest basic one, or the lowest where none is basic."""
        basic = [rate for rate in self.rates if rate & BASIC]
        return min(rate & ~BASIC for rate in basic or self.rates)


@dataclass(frozen=True)
class Settings:
    """The channel, the beacon interval in time units, and the networks in order."""

    channel: int
    interval: int
    networks: tuple[Network, ...]

    @property
    def frequency(self) -> int:
        """The channel's centre in MHz (IEEE Std 802.11-2016, 17.4.6.3 and annex E)."""
        return JAPANESE_FREQUENCY if self.channel == JAPANESE_CHANNEL else 2407 + 5 * self.channel

    @property
    def bssids(self) -> tuple[bytes, ...]:
        """The networks' BSSIDs in order."""
        return tuple(network.bssid for network in self.networks)


def read_settings(path: str) -> Settings:
    """Reads a configuration in which the program found no fault."""
    try:
        with open(path, "rb") as file:
            text = tomllib.load(file)
        networks = tuple(Network(address_of(table["bssid"]), bytes.fromhex(table["rates"]), table["max_known"],
                                 table["max_events"], table["ssid"].encode(), table["max_stations"],
                                 table["quota"], table.get("relay", True))
                         for table in text["network"])
        return Settings(text["channel"], text["interval"], networks)
    except (OSError, ValueError, KeyError, TypeError, AttributeError) as fault:
        raise Fault(f"{path}: not read as a configuration: {fault}") from None
