"""From a hostapd.conf to a configuration of version 2."""
import json
from collections.abc import Iterator
from dataclasses import dataclass, field

from explaining.keys import NETWORK_LIMITS, RADIO_LIMITS
from explaining.values import address_fault
from hostapd import ENCRYPTS, UNKNOWN, left_out, line_for, megabits_of, rates_of, refused

MOST_NETWORKS, MOST_NAME = 16, 32
# What hostapd takes where nothing is said.
MOST_STATIONS, DTIM, INTERVAL = "2007", "2", "100"
SUPPORTED = {"b": "10 20 55 110", "g": "10 20 55 110 60 90 120 180 240 360 480 540"}
BASIC = {"b": "10 20", "g": "10 20 55 110"}
# What hostapd.conf says nothing of.
QUEUE, QUOTA, MOST_EVENTS, KNOWN_FOR_A_STATION = 64, 256, 1_000_000, 4
OF_RADIO = ("interface", "beacon_int", "channel", "hw_mode", "supported_rates", "basic_rates")
OF_NETWORK = ("ssid", "ssid2", "bssid", "bss", "max_num_sta", "dtim_period", "ap_isolate")


class Refused(Exception):
    """Lines that can't be followed, each by its number with the reason."""

    def __init__(self, findings: list[str]) -> None:
        super().__init__("\n".join(findings))
        self.findings = findings


@dataclass(frozen=True)
class Said:
    """One line of the file."""

    number: int
    key: str
    value: str


@dataclass
class Section:
    """One BSS: what begins it, and its keys."""

    begun: Said
    keys: dict[str, Said] = field(default_factory=dict)

    def value(self, key: str, otherwise: str) -> str:
        """What a key has, or what hostapd takes where it isn't there."""
        return self.keys[key].value if key in self.keys else otherwise


@dataclass
class Config:
    """What was read: the radio's keys, the sections, and what is told of lines that have no line here. With `is_open`
    lines that encrypt are left out."""

    name: str
    is_open: bool = False
    radio: dict[str, Said] = field(default_factory=dict)
    sections: list[Section] = field(default_factory=list)
    remarks: list[str] = field(default_factory=list)
    findings: list[str] = field(default_factory=list)

    def remark(self, said: Said, reason: str) -> None:
        """Tells why a line is left out."""
        self.remarks.append(f"{self.name}:{said.number}: `{said.key}` is left out: {reason}")

    def refuse(self, said: Said, reason: str) -> None:
        """Tells why a line is refused; its value may be a secret, and isn't told."""
        self.findings.append(f"{self.name}:{said.number}: `{said.key}`: {reason}")


def convert(name: str, text: str, is_open: bool = False) -> tuple[str, list[str]]:
    """The configuration for a hostapd.conf of this name, and what is told of lines that it left out. Refused where a
    line asks for what isn't here; with `is_open` not where it asks to encrypt."""
    config = Config(name, is_open)
    for said in lines_of(config, text):
        take(config, said)
    if not config.sections:
        config.findings.append(f"{name}: no line `interface=` begins a network")
    elif not config.findings and "channel" not in config.radio:
        config.findings.append(f"{name}: no line `channel=`: write one with a channel of 1 to 14")
    if len(config.sections) > MOST_NETWORKS:
        config.refuse(config.sections[MOST_NETWORKS].begun, f"there are at most {MOST_NETWORKS} networks")
    written = written_of(config) if not config.findings else ""
    if config.findings:
        raise Refused(config.findings)
    return written, config.remarks


def lines_of(config: Config, text: str) -> Iterator[Said]:
    """The lines with a key; a line that has none is refused, as hostapd refuses it."""
    for number, line in enumerate(text.split("\n"), 1):
        line = line.removesuffix("\r").lstrip(" \t")
        key, separator, value = line.partition("=")
        if not line or line.startswith("#"):
            continue
        if separator:
            yield Said(number, key, value if key == "ssid" else value.strip())
        else:
            config.findings.append(f"{config.name}:{number}: {line}: a line is a key, `=` and a value")


def take(config: Config, said: Said) -> None:
    """Takes one line: into the radio's keys or those of the newest section, or tells why not."""
    if said.key in ("interface", "bss"):
        config.sections.append(Section(said))
    reason = refused(said.key, said.value)
    if reason == ENCRYPTS and config.is_open:
        config.remark(said, f"{ENCRYPTS}, so anyone near may join this one and hear it")
        return
    if reason:
        config.refuse(said, reason)
        return
    if said.key in OF_RADIO or said.key in OF_NETWORK and config.sections:
        keys = config.radio if said.key in OF_RADIO else config.sections[-1].keys
        name = "ssid" if said.key == "ssid2" else said.key
        if name in keys and name != "interface":
            config.remark(keys[name], f"line {said.number} says it again")
        keys[name] = said
    reason = left_out(said.key, said.value)
    if reason:
        config.remark(said, reason)
    elif said.key not in OF_RADIO + OF_NETWORK:
        config.refuse(said, UNKNOWN)


def written_of(config: Config) -> str:
    """The configuration's text."""
    channel = config.radio["channel"].value
    interval = number_of(config, config.radio, "beacon_int", "interval", INTERVAL)
    lines = [f"# Made of {config.name}. hostapd.conf says nothing of queue, max_known, quota, max_events and aging.",
             "# aging = false: what is kept for a station that sleeps waits until it comes, or is forgotten.",
             "# With hostapd Linux drops it after two listen intervals, and ten seconds at least; `aging = true` would",
             "# drop it after one.",
             "version = 2", f"channel = {int(channel)}", f"interval = {interval}", f"queue = {QUEUE}"]
    rates = rates_for(config)
    bssids = addresses_of(config)
    for section, bssid in zip(config.sections, bssids):
        stations = number_of(config, section.keys, "max_num_sta", "max_stations", MOST_STATIONS)
        relay = line_for("ap_isolate", section.value("ap_isolate", "0"))
        lines += ["", f"# {section.begun.key}={section.begun.value}, line {section.begun.number}", "[[network]]",
                  f'bssid = "{bssid}"', f"ssid = {toml_text(name_of(config, section))}", f'rates = "{rates}"',
                  f"dtim = {number_of(config, section.keys, 'dtim_period', 'dtim', DTIM)}",
                  f"max_stations = {stations}",
                  f"max_known = {min(KNOWN_FOR_A_STATION * stations, NETWORK_LIMITS['max_known'][1])}",
                  f"quota = {QUOTA}", f"max_events = {MOST_EVENTS}", relay.text() if relay else "relay = true",
                  "aging = false"]
    return "\n".join(lines) + "\n"


def number_of(config: Config, keys: dict[str, Said], key: str, ours: str, otherwise: str) -> int:
    """A number within the limits of its line here; else its line is refused."""
    least, most = (RADIO_LIMITS | NETWORK_LIMITS)[ours]
    value = keys[key].value if key in keys else otherwise
    if value.isascii() and value.isdigit() and least <= int(value) <= most:
        return int(value)
    config.refuse(keys[key], f"`{ours}` is a whole number of {least} to {most}")
    return least


def rates_for(config: Config) -> str | None:
    """The digits of the rates; where the lines can't be written they are refused."""
    mode = config.radio["hw_mode"].value if "hw_mode" in config.radio else "b"
    supported = config.radio["supported_rates"].value if "supported_rates" in config.radio else SUPPORTED[mode]
    known = megabits_of(supported)
    basic = config.radio["basic_rates"].value if "basic_rates" in config.radio else " ".join(
        word for word in BASIC[mode].split() if int(word) / 10 in known) or None
    digits = rates_of(supported, basic)
    if digits is None:
        said = config.radio.get("supported_rates") or config.radio["basic_rates"]
        config.refuse(said, "rates are whole numbers of 500 kb/s up to 54 Mb/s, at most 16 and each once, and the "
                            "basic ones are among them")
    return digits


def addresses_of(config: Config) -> list[str]:
    """The address of each network; one is chosen where the file has none."""
    given = [section.value("bssid", "").lower() for section in config.sections]
    own = (f"02:00:00:00:00:{number:02x}" for number in range(1, 256))
    chosen = (address for address in own if address not in given)
    found = []
    for section, address in zip(config.sections, given):
        if not address:
            address = next(chosen)
            config.remarks.append(f"{config.name}:{section.begun.number}: {section.begun.value} has no `bssid=`: "
                                  f"{address} was written")
        elif address_fault(address) or int(address[:2], 16) & 1 or address in found:
            config.refuse(section.keys["bssid"], "each network has an address of its own, of one receiver")
        found.append(address)
    return found


def name_of(config: Config, section: Section) -> str:
    """The SSID of a network."""
    said = section.keys.get("ssid")
    if said is None:
        config.refuse(section.begun, "this network has no `ssid=`")
        return ""
    value = said.value
    if said.key == "ssid2":
        if len(value) < 2 or not (value.startswith('"') and value.endswith('"')):
            config.refuse(said, "write it as `ssid=`, in letters")
        value = value[1:-1]
    if not 1 <= len(value.encode()) <= MOST_NAME:
        config.refuse(said, f"an SSID has 1 to {MOST_NAME} octets")
    return value


def toml_text(text: str) -> str:
    """A text of TOML."""
    return json.dumps(text, ensure_ascii=False).replace("\x7f", "\\u007f")
