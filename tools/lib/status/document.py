"""The status document, as it is served: what `ask` tells, and what is added to it for whoever reads it."""
from collections.abc import Mapping
from types import MappingProxyType

PROVED = ("Proved of the program that make apctl builds: for the lines that it is given, less those that it tells as "
          "faults, it makes for each network exactly the frames, stations and counts that this network alone would "
          "have, and nothing that other networks hear, send or refuse changes them.")
NOT_PROVED = ("Not proved, only tested: the bridge between the radio, the wires and these lines, all that is timed or "
              "counted by it, and this page; and the networks are open, so whoever is near can hear and join them.")
ASSOCIATED = "associated"
NO_NAME, NOT_YET = "(no name)", "(name not told yet)"


class Untold(Exception):
    """The status can't be told, with the reason in words."""


def name_of(ssid: str | None) -> str:
    """What is shown of an SSID, which may hold any 32 octets and comes in hexadecimal: its text where it is valid
    UTF-8, else the digits. What would not be seen in a text, or turn the letters beside it around, is escaped."""
    if ssid is None:
        return NOT_YET
    octets = bytes.fromhex(ssid)
    try:
        text = octets.decode("utf-8")
    except UnicodeDecodeError:
        return f"hex {octets.hex()}"
    shown = printable(text)
    return (f'"{shown}"' if shown != shown.strip() else shown) or NO_NAME


def printable(text: str) -> str:
    """A text in which what would not be seen, or would move what is shown beside it, is escaped."""
    return "".join(letter if letter.isprintable() else escaped(letter) for letter in text)


def escaped(letter: str) -> str:
    """A letter that can't be shown, by its number."""
    number = ord(letter)
    return f"\\x{number:02x}" if number < 0x100 else f"\\u{{{number:x}}}"


def complete(told: dict, now: float, names: Mapping[str, str] = MappingProxyType({})) -> dict:
    """The document that is served: when it was told, of each network the name and how many stations it has, those
    that aren't listed among them, of each station the name that the operator gave it, and what is proved."""
    networks = [{"name": name_of(network["ssid"]), **counts_of(network["stations"]), **network,
                 "stations": [named(station, names) for station in network["stations"]]}
                for network in told["networks"]]
    return {"now": now, "proved": PROVED, "not_proved": NOT_PROVED, **told, "networks": networks}


def most_of_quota(network: dict) -> dict | None:
    """The station for which at least half of what the network may keep is kept, if there is one."""
    holder = network.get("holder")
    return holder if holder is not None and 2 * holder["kept"] >= network["quota"] else None


def counts_of(stations: list[dict]) -> dict:
    """How many stations a network has, where it lists all of them."""
    associated = [station for station in stations if station["state"] == ASSOCIATED]
    return {"known": len(stations), "associated": len(associated),
            "dozing": sum(station["dozes"] for station in associated)}


def named(station: dict, names: Mapping[str, str]) -> dict:
    """A station with its name, where it has one."""
    name = names.get(station["address"])
    return station if name is None else {**station, "name": name}
