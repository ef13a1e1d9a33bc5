"""The keys of a configuration, and those that people write for them (docs/FORMATS.md, "Configuration")."""
import difflib
import re

RADIO_KEYS = ("version", "channel", "interval", "queue", "network")
NETWORK_KEYS = ("bssid", "ssid", "rates", "dtim", "max_stations", "max_known", "quota", "max_events")
OPTIONS = ("relay", "aging")
LISTED = RADIO_KEYS + NETWORK_KEYS + OPTIONS
RADIO_LIMITS = {"version": (1, 2), "channel": (1, 14), "interval": (1, 65535), "queue": (1, 4096)}
NETWORK_LIMITS = {"dtim": (1, 255), "max_stations": (1, 2007), "max_known": (1, 10_000), "quota": (0, 100_000),
                  "max_events": (1, 1_000_000)}
SAMPLES = {"version": "2", "channel": "6", "interval": "100", "queue": "64", "bssid": '"02:00:00:00:00:01"',
           "ssid": '"lab"', "rates": '"82840b16"', "dtim": "1", "max_stations": "8", "max_known": "16", "quota": "8",
           "max_events": "100", "relay": "true", "aging": "false"}
TEXT_KEYS = ("bssid", "ssid", "rates")
# What other programs and people call them.
OTHER_NAMES = {
    "beacon_int": "interval", "beacon_interval": "interval", "beacon": "interval", "dtim_period": "dtim",
    "dtim_interval": "dtim", "dtim_count": "dtim", "supported_rates": "rates", "basic_rates": "rates", "rate": "rates",
    "max_num_sta": "max_stations", "max_sta": "max_stations", "stations": "max_stations", "max_assoc": "max_stations",
    "max_clients": "max_stations", "clients": "max_stations", "max_client": "max_stations", "max_users": "max_stations",
    "known": "max_known", "max_authenticated": "max_known", "essid": "ssid", "name": "ssid", "network_name": "ssid",
    "wifi_name": "ssid", "mac": "bssid", "mac_addr": "bssid", "mac_address": "bssid", "address": "bssid",
    "hwaddr": "bssid", "hw_addr": "bssid", "relaying": "relay", "forward": "relay", "forwarding": "relay",
    "intra_bss": "relay", "peer_to_peer": "relay", "ageing": "aging", "age": "aging", "age_out": "aging",
    "networks": "network", "bss": "network", "vap": "network", "chan": "channel", "freq": "channel",
    "frequency": "channel", "queue_length": "queue", "queue_len": "queue", "queue_size": "queue",
    "tx_queue_len": "queue", "events": "max_events", "history": "max_events", "max_history": "max_events",
    "buffer": "quota", "buffer_size": "quota", "max_kept": "quota", "max_queue": "queue", "bitrates": "rates",
    "data_rates": "rates", "mandatory_rates": "rates", "basic": "rates", "schema_version": "version",
    "config_version": "version", "format": "version", "bi": "interval"}
# Keys that say of stations the opposite of what `relay` says.
OPPOSITES = re.compile(r"(?:\w+_)?isolat(?:e|ed|ion)(?:_\w+)?|(?:no|not|disable|deny|block)_relay(?:ing)?|"
                       r"guest(?:_mode)?")
HIDING = ("hidden", "hide_ssid", "ssid_hidden", "hide", "broadcast_ssid")
ENCRYPTION = ("wpa", "psk", "pass", "key_mgmt", "rsn", "encrypt", "wep", "sae", "ieee80211w", "auth_algs", "security")
HOSTAPD = ("interface", "driver", "bridge", "hw_mode", "ctrl_interface", "wmm_enabled", "country_code", "ht_capab",
           "ieee80211n", "ieee80211ac", "ieee80211d", "logger_syslog", "macaddr_acl", "ignore_broadcast_ssid",
           "wpa_passphrase", "auth_algs", "wpa_key_mgmt", "beacon_int", "dtim_period", "max_num_sta",
           "supported_rates", "basic_rates", "ap_isolate")


def plain_key(key: str) -> str:
    """A key in small letters, with `_` between its words, however it is written."""
    return re.sub(r"(?<=[a-z0-9])(?=[A-Z])", "_", key.strip().strip("-")).lower().replace("-", "_").replace(" ", "_")


def called_elsewhere(key: str, allowed: tuple[str, ...]) -> str | None:
    """The key among these that is called so elsewhere, or is written with other capitals or marks between its words."""
    joined = plain_key(key).replace("_", "")
    return next((name for other, name in (*OTHER_NAMES.items(), *zip(allowed, allowed))
                 if other.replace("_", "") == joined and name in allowed), None)


def meant(key: str, allowed: tuple[str, ...]) -> str | None:
    """The key among these that this one was meant for, by what it is called elsewhere or by likeness."""
    close = difflib.get_close_matches(plain_key(key), allowed, 1, 0.65)
    within = next((word for word in reversed(re.split(r"[_.]", plain_key(key))) if word in allowed), None)
    return called_elsewhere(key, allowed) or (close[0] if close else within)


def is_of_encryption(key: str) -> bool:
    """Whether a key asks for encryption."""
    return any(part in key.lower() for part in ENCRYPTION)
