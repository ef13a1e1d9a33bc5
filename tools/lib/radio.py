"""A configuration: read for the networks' addresses, and a first one written from captured beacons."""
import json
from typing import NamedTuple

import standard_input
import toml_text
from frames import (BEACON, BEACON_FIXED_LEN, DSSS_PARAMETER_SET, EXTENDED_SUPPORTED_RATES, HT_OPERATION,
                    PROBE_RESPONSE, SSID, SUPPORTED_RATES, TIM, address_of, address_text, elements, first_of, number)

# The most networks of a configuration, by its version; those of an access point are as many as any version allows.
MOST_IN_VERSION = {1: 8, 2: 16}
MOST_NETWORKS = max(MOST_IN_VERSION.values())
MOST_CHANNEL, MOST_RATES, MOST_RATE, MOST_LINES = 14, 16, 108, 1_000_000
RADIO = """version = {version}
channel = {channel}
interval = {interval}
queue = 64
"""
NETWORK = """
[[network]]
bssid = "{bssid}"
ssid = {ssid}
rates = "{rates}"
dtim = {dtim}
max_stations = 100
max_known = 200
quota = 500
max_events = {max_events}
"""
# What version 2 asks for beside these, as version 1 has it.
OPTIONS = """relay = true
aging = false
"""


class ConfigError(Exception):
    """No configuration can be read, or written."""


class Network(NamedTuple):
    """What beacons say of a network; `ssid` is empty where they hide it, `channel` None where they don't tell it."""

    bssid: bytes
    ssid: bytes
    rates: bytes
    channel: int
    interval: int
    dtim: int
    beacons: int


def networks_of(path):
    """The addresses of the networks of a configuration, and its beacon interval."""
    try:
        with open(standard_input.path_of(path), encoding="utf-8", newline="") as file:
            config = toml_text.loads(file.read())
        return [address_of(network["bssid"]) for network in config["network"]], int(config["interval"])
    except (OSError, ValueError, KeyError, TypeError) as fault:
        raise ConfigError(f"{standard_input.name_of(path)}: no configuration with networks: {fault}") from None


def beaconing(frames):
    """The networks whose beacons are among these frames, by address: each as its first beacon says."""
    found, names = {}, {}
    for frame in frames:
        if frame.is_management(BEACON) or frame.is_management(PROBE_RESPONSE):
            body = frame.body
            listed = elements(body[BEACON_FIXED_LEN:])
            if listed is None or len(body) < BEACON_FIXED_LEN or len(frame.transmitter) < 6:
                continue
            names.setdefault(frame.transmitter, name_of(listed))
            names[frame.transmitter] = names[frame.transmitter] or name_of(listed)
            if frame.is_management(BEACON):
                before = found.get(frame.transmitter) or network(frame, listed)
                found[frame.transmitter] = before._replace(beacons=before.beacons + 1)
    return {bssid: seen._replace(ssid=names[bssid]) for bssid, seen in found.items()}


def name_of(listed):
    """The SSID among elements, or nothing where it is missing or hidden."""
    name = first_of(listed, SSID) or b""
    return name if any(name) else b""


def network(frame, listed):
    """What one beacon says."""
    rates = (first_of(listed, SUPPORTED_RATES) or b"") + (first_of(listed, EXTENDED_SUPPORTED_RATES) or b"")
    channel = first_of(listed, DSSS_PARAMETER_SET) or (first_of(listed, HT_OPERATION) or b"")[:1]
    tim = first_of(listed, TIM) or b""
    return Network(frame.transmitter, b"", fitting(rates), channel[0] if channel else None, number(frame.body[8:10]),
                   tim[1] if len(tim) > 1 else 1, 0)


def fitting(rates):
    """The rates that a configuration may have: each once, without the selectors of HT and later, which stand among
    them."""
    kept = {}
    for rate in rates:
        if 1 <= rate & 0x7F <= MOST_RATE:
            kept.setdefault(rate & 0x7F, rate)
    return bytes(kept.values())[:MOST_RATES]


def config_text(networks, channel, lines):
    """A configuration of these networks, at most `MOST_NETWORKS`, in order of address, for a trace of so many lines:
    of version 1 where that has as many networks."""
    networks = sorted(networks, key=lambda seen: seen.bssid)
    channel = channel or agreed(networks, "channel", "channels")
    if channel is None or not 1 <= channel <= MOST_CHANNEL:
        raise ConfigError(f"the channel is {channel or 'not told by the beacons'}, and a configuration has one of 1 to "
                          f"{MOST_CHANNEL}: choose one by --channel")
    version = next(version for version, most in MOST_IN_VERSION.items() if len(networks) <= most)
    text = RADIO.format(version=version, channel=channel, interval=agreed(networks, "interval", "beacon intervals"))
    for seen in networks:
        text += NETWORK.format(bssid=address_text(seen.bssid), ssid=ssid_text(seen), rates=rates_text(seen),
                               dtim=seen.dtim, max_events=min(max(lines, 1), MOST_LINES))
        text += OPTIONS * (version == 2)
    return text


def agreed(networks, field, many):
    """The value of a field that all of the radio's networks have."""
    values = {getattr(seen, field) for seen in networks}
    if len(values) > 1:
        raise ConfigError(f"the networks have different {many}, so they aren't of one radio: name those of one by "
                          f"--network\n{listing(networks)}")
    return values.pop()


def ssid_text(seen):
    """An SSID as a TOML string."""
    try:
        name = seen.ssid.decode("utf-8")
    except UnicodeDecodeError:
        raise ConfigError(f"the SSID of {address_text(seen.bssid)} is no UTF-8 ({seen.ssid.hex()}), and a "
                          "configuration has no other") from None
    if not 1 <= len(seen.ssid) <= 32:
        raise ConfigError(f"no captured frame of {address_text(seen.bssid)} tells its SSID: write a configuration by "
                          "hand, and give it by --networks-of")
    return json.dumps(name, ensure_ascii=False).replace("\x7f", "\\u007f")


def rates_text(seen):
    """Rates as digits."""
    if not seen.rates:
        raise ConfigError(f"the beacons of {address_text(seen.bssid)} tell no rates")
    return seen.rates.hex()


def listing(networks):
    """A line for each network that was seen."""
    return "\n".join(f"  {address_text(seen.bssid)} channel {seen.channel} interval {seen.interval} "
                     f"beacons {seen.beacons} ssid {seen.ssid.decode('utf-8', 'backslashreplace') or '(hidden)'}"
                     for seen in networks)
