"""The networks that are meant: those of a configuration, or the one that a BSSID names."""
import tomllib
from dataclasses import dataclass
from typing import Any

import toml_text
from frames import BROADCAST, address_of, address_text
from texts import SEPARATOR, TextError, read_text
from writing import USUAL_RATES

ALL = "all"


class NoNetwork(Exception):
    """A word that names no network, or a configuration that has none."""


@dataclass(frozen=True)
class Network:
    """What a configuration says of a network, as far as its frames have it; the SSID is None where none was given."""

    bssid: bytes
    ssid: bytes | None
    rates: bytes = USUAL_RATES

    @property
    def name(self) -> str:
        """The network, for a person."""
        return f"{self.ssid.decode()} ({address_text(self.bssid)})" if self.ssid else address_text(self.bssid)


class Networks:
    """The networks of a configuration; none where there is no configuration."""

    def __init__(self, listed: list[Network]) -> None:
        self.listed = listed

    @classmethod
    def of(cls, path: str | None) -> "Networks":
        """Those of a file, which may have a line `---` and a trace too."""
        if path is None:
            return cls([])
        lines = read_text(path).split("\n")
        text = "\n".join(lines[:lines.index(SEPARATOR)] if SEPARATOR in lines else lines)
        try:
            return cls([network_of(table) for table in toml_text.loads(text)["network"]])
        except (tomllib.TOMLDecodeError, KeyError, TypeError, AttributeError, ValueError) as fault:
            raise TextError(f"{path}: no configuration with networks: {fault}") from None

    def named(self, word: str) -> Network:
        """The network of an SSID or a BSSID; `all` stands for any."""
        if word == ALL:
            return Network(BROADCAST, None)
        found = [network for network in self.listed if word.encode() == network.ssid]
        if len(found) > 1:
            raise NoNetwork(f"{len(found)} networks are called {word}: name one by its BSSID")
        if found:
            return found[0]
        try:
            bssid = address_of(word)
        except ValueError:
            raise NoNetwork(f"no network is called {word}{self.known()}") from None
        return next((network for network in self.listed if network.bssid == bssid), Network(bssid, None))

    def known(self) -> str:
        """What else could have been said."""
        if not self.listed:
            return ": without --config a BSSID names it, as 02:00:00:00:00:01"
        return f"; there are {', '.join(network.name for network in self.listed)}"


def network_of(table: dict[str, Any]) -> Network:
    """One network of a configuration."""
    return Network(address_of(table["bssid"]), table["ssid"].encode(), bytes.fromhex(table["rates"]))
