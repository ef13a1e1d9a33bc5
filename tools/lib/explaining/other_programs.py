"""Texts of other programs, which were given as a configuration or as a trace: who writes such a text, and what makes
one of this program of it."""
import re
from collections.abc import Iterable
from typing import NamedTuple

import called
from explaining.configuration import Config
from explaining.keys import NETWORK_KEYS, OPTIONS, RADIO_KEYS, called_elsewhere, meant
from explaining.source import Finding, Source, quoted

OPENWRT = re.compile(r"\s*(?:package\s+\w+|config\s+[\w-]+(?:\s+'[^']*'|\s+[\w-]+)?|option\s+\w+\s+.*|list\s+\w+\s+.*)")
# A number, perhaps a time, and two addresses; or a heading of such a list.
LISTED = re.compile(r"\"?\s*\d+\"?[\s,]+\"?\d+[.:]\d[\d.:]*\"?[\s,]+\"?\S.*(?:802\.11|"
                    r"\u2192|->)|\"?No\.\"?[\s,]+\"?Time\b")
MARKUP = re.compile(r"<[?!/]?[A-Za-z][\w:-]*(?: +[\w:-]+=[\"'][^>]*| */?)>|<[?!]")
COMMAND = re.compile(r"(?:tools/|waltigon-)?frame +(?:probe|auth|(?:re)?join|disassoc|deauth|data|null|poll|wired)\b")
DUMP_HEAD = re.compile(r"(?:\d{4}-\d\d-\d\d )?\d\d:\d\d:\d\d\.\d{3,9} ")
ADDRESS = r"[0-9A-Fa-f]{2}(?::[0-9A-Fa-f]{2}){5}"
OF_ALL = ("version", "name", "address", "format", "type")  # keys that texts of many programs have
LEAST_LINES, LEAST_KEYS, MOST_BESIDE = 2, 2, 1
TABLE_MARKS = ("|", ",", ";", "\t")
# A line of a trace, or one of a configuration with one of its keys.
OWN = re.compile(r"(?:[AW] +[0-9A-Fa-f][0-9A-Fa-f: ]{9,}|T)|"
                 rf"(?:{'|'.join(RADIO_KEYS + NETWORK_KEYS + OPTIONS)}) = (?:[\"'\d]|true|false).*|\[\[network\]\]")


class Writer(NamedTuple):
    """Another program: a line that it alone writes, how many such lines its texts have at least, and what one is."""

    line: re.Pattern[str]
    least: int
    what: str


def writer(line: str, what: str, least: int = 1) -> Writer:
    """A program of which at least so many lines are like this."""
    return Writer(re.compile(line), least, what)


# Programs that are configured, and how their configurations look.
CONFIGURED = (
    writer(r"\[(?:connection|wifi|wifi-security|ipv[46])\]", "a connection of NetworkManager"),
    writer(r"network=\{", "a configuration of wpa_supplicant, which joins networks"),
    writer(r"/(?:interface|ip|system|caps-man)(?: .*)?|#.* by RouterOS .*", "a configuration of RouterOS (MikroTik)"),
    writer(r"dot11 ssid .*|interface Dot11Radio.*|!|wlan (?:ssid-profile|virtual-ap) .*|ap dot11 .*|\s+ssid-profile .*",
           "a configuration of a controller's or switch's command line, as Cisco's or Aruba's", 2),
    writer(r"set +[a-z][\w-]* +\S+ +\S.*", "commands `set` of another system's command line, as Juniper's", 2),
    writer(r"(?:wl|ath|ra|eth)\d+(?:[._]\d+)?_\w+=.*", "a list of variables (NVRAM) of a router, as DD-WRT has it", 2),
    writer(r"\[(?:General|Security|Match|Link|IPv4|IPv6|Network|Service|Unit|Settings)\]\r?",
           "a file of sections, as iwd and systemd have it"),
    writer(r"\s*[\w.-]+ = (?:\{|\[)\s*|\s*[\]}];\s*", "a text with braces and semicolons, as NixOS has it", 2),
)
# Programs that show or log something.
SHOWING = (
    writer(r"(?:NAME|IN-USE|DEVICE|SSID|BSSID)\s{2,}[A-Z-]+\s{2,}.*", "a table that nmcli prints"),
    writer(rf"BSS {ADDRESS}(?:\(on .*\))?.*|phy#\d+|\s*Interface \w+|Wiphy \w+|Station {ADDRESS} \(on .*\)",
           "what `iw` prints"),
    writer(r"wpa_state=[A-Z_0-9]+|bss_[a-z_]+\[\d+\]=.*|num_sta\[\d+\]=.*|state=[A-Z_]+",
           "what wpa_cli or hostapd_cli prints"),
    writer(r"\w+ +IEEE 802\.11\w*.*ESSID:.*|\s+Cell \d+ - Address: .*", "what iwconfig or iwlist prints"),
    writer(r"\d+: [\w.@-]+: <[A-Z,_-]+> .*", "what `ip` prints"),
    writer(r"BSSID, First time seen.*|Station MAC, First time seen.*", "a list of airodump-ng"),
    writer(rf"(?:.*: )?[\w.-]+: (?:STA {ADDRESS} .*|(?:AP|CTRL|WPS|DFS|ACS|MESH|P2P)-[A-Z-]+.*|interface state .*|"
           r"(?:SME: |Trying to|Associated with|Authentication with|WPA: ).*)|nl80211: .*",
           "a log of hostapd or wpa_supplicant"),
    writer(r"(?:[\d.]+: )?\w+(?: \(phy ?#?\d+\))?: (?:scan (?:started|finished|aborted).*|(?:new|del) station .*|"
           r"(?:auth|assoc) .*->.*|(?:connected to|disconnected) .*)", "what `iw event` prints"),
    writer(r"[A-Z][a-z]{2} [ \d]\d \d\d:\d\d:\d\d \S+ [\w@./-]+(?:\[\d+\])?: .*",
           "a log of the system, as `journalctl` prints it"),
    writer(r"(?:<\d>)?\[ *\d+\.\d+\] \D.*", "a log of the kernel, as `dmesg` prints it"),
    writer(r"(?:From|To|Cc|Subject|Date|Received|Message-ID|MIME-Version|Content-(?:Type|Transfer-Encoding)|"
           r"X-[\w-]+): .*", "the head of an e-mail", 2),
    writer(r" +% +Total +% +Received.*|curl: \(\d+\) .*|--\d{4}-\d\d-\d\d [\d:]+--  \S+|Resolving \S+ \(.*",
           "what curl or wget prints"),
    writer(r"HTTP/[\d.]+ \d{3}.*", "what a server of the web answers"),
    writer(r"[-dl](?:[r-][w-][xsS-]){2}[r-][w-][xtT-][.+]? +\d+ .*", "what `ls -l` prints"),
    writer(r"(?:(?:-?(?:ba|da|z|k)?sh|sudo|\S+): (?:line )?(?:\d+: )?)?(?:\S+: )?(?:command not found|No such file or "
           r"directory|Permission denied|Is a directory)(?:: \S+)?", "an error that a shell or a command tells"),
    writer(r"Traceback \(most recent call last\):|  File \".*\", line \d+.*", "an error of a program in Python"),
    writer(r"make(?:\[\d+\])?: .*", "what make prints"),
    writer(r"PING \S+ \(.*|\d+ bytes from \S+: .*", "what ping prints"),
    writer(r"[\w.@-]+: flags=\d+<.*|\w+ +Link encap:.*", "what ifconfig prints"),
    writer(r"commit [0-9a-f]{40}|On branch \S+|Author: .* <.*>", "what git prints"),
    writer(r"[\u25cf\u25cb\u00d7] [\w@.-]+\.service.*|     (?:Loaded|Active): .*", "what systemctl prints"),
    writer(r"tcpdump: .*|listening on \S+, link-type .*|\d+ packets (?:captured|received by filter).*",
           "what tcpdump says of itself"),
    writer(r"(?:[^\s:]*[A-Za-z][^\s:]*|standard input):\d+(?::\d+)?: .*|  +\| +\^+", "what tools/explain prints"),
    writer(r"[0-9a-f]{4,} {2,}(?:Frame Control|Duration|AID|Address \d|Sequence Control)(?:: .*)?",
           "what tools/frame prints of a frame, field by field"),
)
# Programs that show frames in words.
OF_FRAMES = (
    writer(r"(?:\s*[\d:.]+ )?(?:IP6? \S+ > \S+: .*|ARP, (?:Request|Reply) .*|.* BSSID:[0-9a-f:]{17} .*)",
           "what tcpdump prints of a frame"),
    writer(r"Frame \d+(?:: \d+ bytes on wire| \(\d+ bytes).*|"
           r"(?:Radiotap Header|IEEE 802\.11 [A-Z]).*, (?:Length|Flags).*",
           "what Wireshark and tshark print of a frame, field by field"),
    writer(r":[0-9A-Fa-f]{10,}|S[0-9][0-9A-Fa-f]{8,}|-----BEGIN [A-Z ]+-----|begin \d{3} \S+",
           "a text by which octets are sent (Intel HEX, S-records, PEM or uuencode)"),
    writer(r"(?:RadioTap|Dot11\w*|Ether|IP|LLC|SNAP|Raw)\(.*\)(?: ?/ ?\w+\(.*\))+", "what makes a frame in scapy"),
    writer(r"###\[ .* \]###|<(?:RadioTap|Dot11\w*|Ether|Raw)\b.*\|.*>|(?:RadioTap|Dot11\w*|Ether) / .*",
           "what scapy prints of a frame"),
)


def of_other_program(source: Source, number: int) -> Finding | None:
    """A text of another program, where this line belongs to no text of this one."""
    return of_uci(source, number) or of_openwrt(source, number) or of_configured(source, number) or \
        of_shown(source, number) or of_frames(source, number)


def whole_of(source: Source, number: int):
    """The place of a line."""
    return source.place(number, 1, len(source.line(number).rstrip()) or 1)


def writes(source: Source, number: int, writers: Iterable[Writer]) -> Writer | None:
    """The first of these programs whose lines stand in a text; where lines of this program stand there too, those in or
    beside this line alone."""
    lines = [line.rstrip() for line in source.lines]
    near = lines[max(0, number - 1 - MOST_BESIDE):number + MOST_BESIDE]
    is_mixed = any(map(OWN.fullmatch, lines))
    return next((one for one in writers if sum(bool(one.line.fullmatch(line)) for line in lines) >= one.least and (
        not is_mixed or any(map(one.line.fullmatch, near)))), None)


def of_configured(source: Source, number: int) -> Finding | None:
    """Another program's configuration."""
    found = writes(source, number, CONFIGURED)
    return found and Finding(f"this is {found.what}, and the program has its own keys, in TOML",
                             whole_of(source, number), own_sample())


def own_sample() -> str:
    """Where a configuration of this program is."""
    return f"{called.document('FORMATS.md')} has a configuration to copy"


def of_shown(source: Source, number: int) -> Finding | None:
    """What another program prints or logs."""
    found = writes(source, number, SHOWING)
    return found and Finding(f"this is {found.what}, and neither a configuration nor a trace", whole_of(source, number),
                             f"{own_sample()}, {called.document('FIRST_TRACE.md')} a trace")


def of_frames(source: Source, number: int) -> Finding | None:
    """Frames in words."""
    found = writes(source, number, OF_FRAMES)
    return found and Finding(f"this is {found.what}, and a trace has its octets", whole_of(source, number),
                             of_capture())


def of_capture() -> str:
    """What makes a trace of a capture."""
    return f"{called.fellow('trace-from-capture')} makes a trace of a capture, as `tcpdump -w` writes one"


def of_uci(source: Source, number: int) -> Finding | None:
    """What `uci show` of OpenWrt prints."""
    line = re.compile(r"(?P<command>(?:uci +(?:-q +)?)?(?:set|add_list) +)?"
                      rf"(?:wireless\.[\w@\[\].-]+|network\.(?!.*\b(?:{'|'.join(NETWORK_KEYS)}) *=)[\w@\[\].-]+)=.*")
    found = next((match for text in source.lines if (match := line.fullmatch(text.rstrip()))), None)
    if found is None:
        return None
    what = "a command of `uci` of OpenWrt" if found["command"] else "what `uci show` of OpenWrt prints"
    return Finding(f"this is {what}, and the program has its own keys, in TOML",
                   whole_of(source, number), from_openwrt())


def of_openwrt(source: Source, number: int) -> Finding | None:
    """A file of OpenWrt: a section, and an option of it."""
    if not OPENWRT.fullmatch(source.line(number).rstrip()) or not re.search(r"^config\s+\w", source.text, re.M) or \
            not re.search(r"^\s+(?:option|list)\s", source.text, re.M):
        return None
    return Finding("this is a configuration of OpenWrt, and the program has its own keys, in TOML",
                   whole_of(source, number), from_openwrt())


def from_openwrt() -> str:
    """What makes a configuration of one of OpenWrt."""
    return ("OpenWrt makes a configuration of hostapd of it, /var/run/hostapd-phy0.conf, and "
            f"{called.fellow('config-from-hostapd')} reads that")


def without_keys(source: Source, number: int) -> Finding | None:
    """A text that can't be a configuration: it has several lines, and none of them is one of the program's keys."""
    keys = "|".join(RADIO_KEYS + NETWORK_KEYS)
    lines = [line for line in source.lines if line.strip()]
    if len(lines) < LEAST_LINES or re.search(rf"(?i)\b(?:{keys})\b[\"']?\s*[=:]|\[\[? *network", source.text):
        return None
    table = next((mark for mark in TABLE_MARKS if sum(mark in line for line in lines) == len(lines)), None)
    if table and re.search(rf"(?i)\b(?:{keys})\b", source.text):
        return Finding(f"this is a table, with {quoted(table)} between its values, and a configuration has a line for "
                       "each key", whole_of(source, number), own_sample())
    if sum(bool(MARKUP.match(line.strip())) for line in lines) >= LEAST_LINES:
        return Finding("this is XML or HTML, and a configuration is TOML", whole_of(source, number), own_sample())
    return of_no_key(source, number)


def without_listed(config: Config) -> Finding | None:
    """A text of TOML that can't be a configuration: it has keys or tables, and none of them is one of the program's."""
    of_networks = config.networks or config.single
    inside = [part for table in (config.at_top, *(table.entries for table in config.strange))
              for entry in table for part in entry.key]
    own = sum(called_elsewhere(part, RADIO_KEYS + NETWORK_KEYS + OPTIONS) is not None for part in inside
              if part not in OF_ALL)
    if of_networks or not config.top and not config.strange or any(meant(key, RADIO_KEYS) for key in config.top) or \
            own >= LEAST_KEYS:
        return None
    return of_no_key(config.source, 1)


def of_no_key(source: Source, number: int) -> Finding:
    """What is said of a text that has none of the program's keys."""
    return Finding("this text is no configuration of the program: none of its keys stands in it",
                   whole_of(source, number), own_sample())


def without_words(source: Source, number: int) -> Finding | None:
    """A text that can't be a trace: it has several lines, and none of them begins with a word of a trace."""
    lines = [line for line in source.lines if line.strip() and line[0] != "#"]
    if len(lines) < LEAST_LINES or any(re.match(r"\s*[AWTawt]\b", line) for line in lines):
        return None
    return Finding("this text is no trace: none of its lines begins with `A`, `W` or `T`", whole_of(source, number),
                   f"{called.document('FIRST_TRACE.md')} has a trace to copy; {of_capture()}")


def of_listing(source: Source, number: int) -> Finding | None:
    """A line of a list of frames, as Wireshark, tshark and tcpdump print it or export it, or of XML; or a command of
    tools."""
    line, whole = source.line(number).rstrip(), whole_of(source, number)
    capture = f"{called.fellow('trace-from-capture')} makes a trace of the capture itself"
    if DUMP_HEAD.match(line):
        return Finding("this is what tcpdump prints of a frame, and no line of a trace", whole, of_capture())
    if LISTED.match(line):
        return Finding("this is a line of a list of frames, as Wireshark and tshark show it: it has no octets of the "
                       "frame", whole, capture)
    if MARKUP.match(line) and not re.match(r"(?:<[^<>]*>)+(?:[AW] +[0-9A-Fa-f]|T *<)", line):
        return Finding("this is XML or HTML, and a trace has a line of its own for each frame", whole, capture)
    if COMMAND.match(line):
        return Finding("this is a command, and a trace has the line that it writes", whole,
                       f"write what {called.fellow('frame')} answers")
    return None
