"""The lines of hostapd.conf: which line stands for one here, why others are left out, and which are refused, since a
network without them would be another one."""
import re
from collections.abc import Callable
from dataclasses import dataclass

import called
from explaining.values import rates_of_megabits

UNIT = 100  # hostapd's rates are in units of 100 kb/s
YES, NO = "true", "false"


@dataclass(frozen=True)
class Line:
    """A line of a configuration: a key and its value as TOML."""

    key: str
    value: str

    def text(self) -> str:
        """As it is written."""
        return f"{self.key} = {self.value}"


def line_for(key: str, value: str) -> Line | None:
    """The line of a configuration that stands for `key=value` of hostapd; None where none does."""
    value = value.strip().strip('"')
    if key in ("supported_rates", "basic_rates"):
        digits = rates_of(value)
        return Line("rates", f'"{digits}"') if digits else None
    if key == "ap_isolate":
        return Line("relay", {"0": YES, "1": NO, "false": YES, "true": NO}.get(value.lower(), NO))
    name = {"max_num_sta": "max_stations", "dtim_period": "dtim", "beacon_int": "interval"}.get(key)
    return Line(name, value) if name and value.isascii() and value.isdigit() else None


def megabits_of(value: str) -> list[float]:
    """The rates of a list in units of 100 kb/s, in Mb/s; none where it is none."""
    words = value.replace(",", " ").split()
    if not all(word.isascii() and word.isdigit() for word in words):
        return []
    return [int(word) * UNIT / 1000 for word in words]


def rates_of(value: str, basic: str | None = None) -> str | None:
    """A list of rates as the digits of `rates`, with these basic ones, or else the usual ones; None where one can't be
    written."""
    megabits = megabits_of(value)
    digits = rates_of_megabits(megabits)
    if digits is None or basic is None:
        return digits
    wanted = megabits_of(basic)
    if not wanted or not set(wanted) <= set(megabits):
        return None
    return bytes(round(2 * rate) | (0x80 if rate in wanted else 0) for rate in megabits).hex()


def exactly(*values: str) -> Callable[[str], bool]:
    """Whether a value is one of these."""
    return lambda value: value in values


def but(*values: str) -> Callable[[str], bool]:
    """Whether a value is none of these."""
    return lambda value: value not in values


def always(_: str) -> bool:
    """Any value."""
    return True


@dataclass(frozen=True)
class Rule:
    """Keys that match, where their value is one of those; and the reason that is told."""

    keys: re.Pattern[str]
    values: Callable[[str], bool]
    reason: str


def rule(keys: str, reason: str, values: Callable[[str], bool] = always) -> Rule:
    """A rule of keys as a regular expression."""
    return Rule(re.compile(keys), values, reason)


ENCRYPTS = "these networks don't encrypt"
# Without these a network would be another one than was asked for.
REFUSED = (
    rule("wpa|ieee80211w|ieee8021x|osen|wps_state", ENCRYPTS, but("0")),
    rule("wpa_.*|rsn_.*|sae_.*|owe_.*|wep_.*|eap_.*|fils_.*|pmk_.*|ocv|osen_.*|wps_.*|ieee80211w.*|group_mgmt_cipher|"
         "okc|auth_server_.*|radius_.*|own_ip_addr|nas_identifier|mobility_domain|r0kh|r1kh|r1_.*|ft_.*", ENCRYPTS),
    rule("auth_algs", "an authentication by a shared key isn't here: Open System alone", but("0", "1", "3")),
    rule("macaddr_acl|accept_mac_file|deny_mac_file", "who may join isn't chosen here: anyone may", but("0")),
    rule("ignore_broadcast_ssid", "a hidden SSID isn't here: every beacon has its name", but("0")),
    rule("hw_mode", "the program has the channels of 2.4 GHz alone, hw_mode=g or b", but("g", "b")),
    rule("channel", "a channel of 1 to 14 is chosen by its number: nothing is scanned",
         lambda value: not (value.isascii() and value.isdigit() and 1 <= int(value) <= 14)),
    rule("acs_.*|chanlist|freqlist", "nothing is scanned to choose a channel"),
    rule("dynamic_vlan|vlan_.*|per_sta_vif", "a station's VLAN isn't chosen here: each network has a wire of its own",
         but("0")),
    rule("wds_sta|wds_bridge|mesh|multi_ap", "frames of four addresses aren't here", but("0")),
    rule("require_ht|require_vht|require_he", "HT and later aren't here, so no station could join", but("0")),
    rule("acct_server_.*", "nobody's use is accounted for here"),
    rule("max_num_sta", "a network has room for 1 station or more", exactly("0")),
    rule("fragm_threshold", "frames aren't cut here", lambda value: value not in ("-1", "2346", "2347")),
)
LIVE = called.fellow("live")
# What a network does as well without, or says elsewhere.
LEFT_OUT = (
    rule("interface", f"the radio is named by `--phy` of {LIVE}; `iw dev` shows of which radio this interface is"),
    rule("bridge", "the wire is named in the file of wires: one end of a veth, whose other end is a port of this "
         f"bridge ({called.document('NETWORKS.md')})"),
    rule("driver", "there is one way to a radio, by its monitor interface"),
    rule("ctrl_interface.*", f"`{LIVE} status` and `kick` ask in its place"),
    rule("logger_.*|dump_file", "the log goes to standard error, or to the journal"),
    rule("country_code|country3", f"the country is told to {LIVE}, as `--country DE`"),
    rule("hw_mode", "all channels are those of 2.4 GHz; the rates were taken from it"),
    rule("auth_algs", "Open System is all that there is"),
    rule("wpa|ieee80211w|ieee8021x|osen|wps_state|macaddr_acl|ignore_broadcast_ssid|dynamic_vlan|wds_sta|mesh|multi_ap|"
         "per_sta_vif|require_ht|require_vht|require_he", "it asks for nothing"),
    rule("ap_max_inactivity", f"{LIVE} has it, as `--idle SECONDS`"),
    rule("skip_inactivity_poll|disassoc_low_ack|bss_load_.*|bss_transition|rrm_.*|time_.*", "it isn't here"),
    rule("wmm_.*|uapsd_.*|tx_queue_.*|qos_map_set", "QoS isn't here: data goes as best effort"),
    rule("ieee80211n|ieee80211ac|ieee80211ax|ieee80211be|ht_.*|vht_.*|he_.*|obss_interval",
         "HT and later aren't here: the fastest rate is 54 Mb/s"),
    rule("ieee80211d|ieee80211h|local_pwr_constraint|spectrum_mgmt_required",
         "no beacon has an element of the country"),
    rule("rts_threshold|fragm_threshold", "frames aren't cut, and no RTS is asked for"),
    rule("preamble|short_.*", "the kernel chooses the preamble"),
    rule("utf8_ssid", "an SSID is UTF-8 here"),
    rule("start_disabled|no_probe_resp_if_.*|max_listen_interval|broadcast_deauth|multicast_to_unicast|beacon_rate|"
         "rate_.*|use_driver_iface_addr|noscan", "it isn't here"),
)
UNKNOWN = "this tool doesn't know this key: take the line out where nothing is lost by that"


def refused(key: str, value: str) -> str | None:
    """Why a line is refused, or None."""
    return reason_of(REFUSED, key, value)


def left_out(key: str, value: str) -> str | None:
    """Why a line is left out, or None."""
    return reason_of(LEFT_OUT, key, value)


def reason_of(rules: tuple[Rule, ...], key: str, value: str) -> str | None:
    """The reason of the first rule that matches."""
    return next((found.reason for found in rules if found.keys.fullmatch(key) and found.values(value)), None)
