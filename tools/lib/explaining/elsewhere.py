"""Keys that a configuration doesn't have since what they say is said elsewhere, or isn't here: what a person writes in
their place."""
import re
from typing import NamedTuple

import called
from explaining.keys import HIDING, is_of_encryption
from hostapd import left_out, refused

LIVE = called.fellow("live")
ENCRYPTS = "these networks don't encrypt: leave it out"


class Elsewhere(NamedTuple):
    """Keys, in small letters and with `_` between their words, and what is told of them."""

    keys: re.Pattern[str]
    told: str


def elsewhere(keys: str, told: str) -> Elsewhere:
    """Keys as a regular expression."""
    return Elsewhere(re.compile(keys), told)


RULES = (
    elsewhere(r"country(?:_?code|3)?|reg_?dom(?:ain)?|regulatory(?:_domain)?|regdb",
              f"leave it out: the country is told to {LIVE}, as `--country DE`"),
    elsewhere(r"phy|radio\d?|interface|if(?:ace|name)|device|dev|adapter|nic|wlan\d?|wifi_device",
              f"leave it out: the radio is named by `--phy` of {LIVE}, as `--phy phy0` (`iw phy` lists them)"),
    elsewhere(r"vlan(?:_?id|_tag)?|vid|tag", "leave it out: each network has a wire of its own, which may be the "
              f"interface of a VLAN, as `--wire 02:00:00:00:00:01=eth0.7` of {LIVE}"),
    elsewhere(r"wires?|bridge|br(?:idge)?_?(?:name|if|interface|port)|ports?|uplink|backhaul|eth(?:ernet)?\d?|lan|wan",
              f"leave it out: a network's wire is named by `--wire` of {LIVE}, as `--wire 02:00:00:00:00:01=eth1`"),
    elsewhere(r"shares?|weight|air_?time(?:_?(?:weight|share|fairness))?|priority",
              f"leave it out: a network's share of the air is told to {LIVE}, as `--share 02:00:00:00:00:01=4`"),
    elsewhere(r"(?:max_)?(?:idle|inactivity)(?:_?(?:time|timeout|seconds|limit))?|(?:session|station|sta)_timeout",
              f"leave it out: after how long a silent station is asked is told to {LIVE}, as `--idle 300`"),
    elsewhere(r"status(?:_?(?:port|page|address))?|http(?:_?port)?|web(?:_?(?:port|ui))?|metrics(?:_?port)?|prometheus",
              f"leave it out: the page of the status is asked for by `--status PORT` of {LIVE}"),
    elsewhere(r"monitor(?:_?(?:interface|name))?",
              f"leave it out: the monitor interface is named by `--monitor` of {LIVE}"),
    elsewhere(r"pcap|capture|record(?:_?(?:file|to))?", f"leave it out: `--record FILE` of {LIVE} writes a record"),
    elsewhere(r"log(?:_?(?:level|file|to))?|syslog|debug|verbos(?:e|ity)|loglevel",
              "leave it out: the log goes to standard error, or to the journal"),
    elsewhere(r"(?:tx_?|transmit_?)?power(?:_?(?:dbm|level|limit))?|antenna(?:_?gain)?|[rt]xantenna|distance|"
              "coverage_?class", "leave it out: it is told to the kernel, as by `iw phy phy0 set txpower`"),
    elsewhere(r"(?:frequency_?)?band", "leave it out: all channels are those of 2.4 GHz"),
    elsewhere(r"(?:channel_?)?width|(?:channel_?)?bandwidth|ht_?mode|ht\d\d|noscan",
              "leave it out: a channel has 20 MHz here, and HT and later aren't here"),
    elsewhere(r"hw_?mode", "leave it out: all channels are those of 2.4 GHz, and `rates` says which rates a network "
                           "has"),
    elsewhere(r"(?:wireless_?|wifi_?|phy_?)?mode|standard|protocol|type|ieee80211\w*|80211\w*",
              "leave it out: each network is an access point's, of 2.4 GHz, and `rates` says which rates it has"),
    elsewhere(r"wmm|qos|uapsd|apsd", "leave it out: QoS isn't here"),
    elsewhere(r"ip(?:_?addr(?:ess)?|v[46]\w*)?|dhcp\w*|dns\w*|gateway|router|net_?mask|subnet|nat|firewall|routes?|mtu",
              f"leave it out: what stands behind a network's wire has that ({called.document('NETWORKS.md')})"),
    elsewhere(r"portal|captive(?:_?portal)?|splash|login",
              f"leave it out: {called.document('NETWORKS.md')} says how a captive portal stands behind a network"),
    elsewhere(r"enabled?|disabled?|active|up|state|start_disabled",
              "leave it out: each network that stands here is there; one that isn't to be is left out whole"),
    elsewhere(r"desc(?:ription)?|comments?|notes?|label|title|remarks?|author|date|_+comment",
              "write it as a remark: behind `#`"),
    elsewhere(r"mac_?(?:filter|list|acl|addr_?acl)|acl|(?:allow|deny|accept|black|white|block)_?(?:ed|list|mac\w*)?|"
              "macaddr_acl", "leave it out: who may join isn't chosen here, anyone may"),
    elsewhere(r"(?:rate|speed|bandwidth|download|upload|traffic)_?(?:limit|cap|shaping)|limit|max_?(?:rate|speed)",
              "leave it out: a network has no bound of its speed; its share of the air is told to "
              f"{LIVE}, as `--share 02:00:00:00:00:01=4`"),
    elsewhere(r"keys?|secret|psks?|eap\w*|radius\w*|(?:wifi_?|wpa_?)?pass\w*", ENCRYPTS),
    elsewhere("|".join((*HIDING, r"visible|broadcast|(?:show|announce|advertise)_?ssid|ignore_broadcast_ssid")),
              "leave it out: a hidden SSID isn't here, every beacon has its name"),
)


def told_elsewhere(key: str, value: str) -> str | None:
    """What is told of a key that no configuration has, by what it is for; None where that isn't known."""
    plain = key.strip().lower().replace("-", "_").replace(".", "_")
    rule = next((rule for rule in RULES if rule.keys.fullmatch(plain)), None)
    if rule:
        return rule.told
    if is_of_encryption(plain):
        return ENCRYPTS
    reason = left_out(plain, "") or refused(plain, value)
    return f"leave it out: {reason}" if reason else None
