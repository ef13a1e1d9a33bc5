"""What a fault C2 to C13 of a configuration comes of: the key, its place, what was expected there and what to write."""
import os
import re
from dataclasses import replace

import called
from explaining import values
from explaining.answers import Fault
from explaining.configuration import Config, NetworkTable, number_of
from explaining.cut_short import cut_short, usual_value
from explaining.in_remarks import header_in_remark, key_in_remark, of_header
from explaining.keys import LISTED, NETWORK_KEYS, NETWORK_LIMITS, OPTIONS, RADIO_KEYS, RADIO_LIMITS, SAMPLES, meant
from explaining.numbers_meant import number_finding
from explaining.rates_meant import rates_fault, rates_in
from explaining.same_again import MOST_NAMED, QUOTED
from explaining.source import Finding, Place, Source, is_odd_blank, odd_blank, quoted
from explaining.toml_scan import Entry, NoToml, Value
from explaining.unlisted import line_with, unlisted_findings
from radio import MOST_IN_VERSION, MOST_NETWORKS

BEGIN_NETWORK = "write a line `[[network]]`, and the network's keys below it"
# Which keys a fault is of.
KEYS_OF = {"C2": ("version",), "C4": ("channel",), "C5": ("interval",), "C6": ("queue",), "C8": ("bssid",),
           "C9": ("ssid",), "C10": ("rates",), "C11": tuple(NETWORK_LIMITS), "C13": OPTIONS}
# What finds a fault in the form of the text that a key has.
FORMS = {"C8": values.address_fault, "C10": rates_fault}


def explain(source: Source, fault: Fault) -> list[Finding]:
    """The reasons for a fault C2 to C13; none where nothing was found."""
    try:
        config = Config(source)
    except NoToml:
        return []
    first = dotted_key(config, fault) or unseen(config, fault)
    if first:
        return [first]
    whole = {"C2": version_findings, "C3": unlisted_findings, "C7": network_findings}
    if fault.code in whole:
        return whole[fault.code](config)
    if fault.code in ("C4", "C5", "C6"):
        key = {"C4": "channel", "C5": "interval", "C6": "queue"}[fault.code]
        return number_findings(config, config.top, key, RADIO_LIMITS[key], "above the first `[[network]]`")
    if fault.network is None or fault.network >= len(config.networks):
        return []
    network = config.networks[fault.network]
    parts = {"C8": bssid_findings, "C9": ssid_findings, "C10": rates_findings, "C11": limit_findings,
             "C12": known_findings, "C13": option_findings}
    part = parts.get(fault.code)
    if part is None:
        return []
    later = [finding for other in config.networks[fault.network + 1:] for finding in part(config, other)]
    return [with_later(finding, later) for finding in part(config, network)]


def with_later(finding: Finding, later: list[Finding]) -> Finding:
    """A finding with the lines of later networks of which the same is to be said."""
    numbers = [str(other.place.source.first + other.place.line - 1) for other in later
               if other.place and QUOTED.sub("`", other.text) == QUOTED.sub("`", finding.text)]
    more = f" and {len(numbers) - MOST_NAMED} more" * (len(numbers) > MOST_NAMED)
    also = f"; so in line{'s' * (len(numbers) > 1)} {', '.join(numbers[:MOST_NAMED])}{more}" if numbers else ""
    return replace(finding, text=finding.text + also)


def limit_findings(config: Config, network: NetworkTable) -> list[Finding]:
    """C11."""
    return list(dict.fromkeys(finding for key, limits in NETWORK_LIMITS.items() for finding in number_findings(
        config, network.entries, key, limits, in_network(config, network))))


def entries_of(config: Config, fault: Fault) -> list[Entry]:
    """The keys that a fault is of, of the radio or of the network that it names."""
    network = fault.network if fault.network is not None and fault.network < len(config.networks) else None
    entries = config.top if network is None else config.networks[network].entries
    return [entries[key] for key in KEYS_OF.get(fault.code, ()) if key in entries]


def unseen(config: Config, fault: Fault) -> Finding | None:
    """A character that isn't seen, or looks like a space, within an address or rates."""
    value = next((entry.value for entry in entries_of(config, fault) if fault.code in FORMS), None)
    if value is None or value.text is None or not any(map(is_odd_blank, value.text)):
        return None
    place, plain = config.place(value), "".join(letter for letter in value.text if not is_odd_blank(letter)).strip()
    found = odd_blank(config.source, place.line, place.column, place.column + place.length - 2)
    is_whole = not FORMS[fault.code](plain)
    return replace(found, advice=f"leave it out: write `{KEYS_OF[fault.code][0]} = \"{plain}\"`") \
        if found and is_whole else found


def dotted_key(config: Config, fault: Fault) -> Finding | None:
    """A key that the fault is of with a dot and a name behind it, which makes it a table."""
    found = next((entry for entry in entries_of(config, fault) if len(entry.key) > 1), None)
    if found is None:
        return None
    return Finding(f"`{'.'.join(found.key)}` is no key: `{found.key[0]}` alone is one", config.place(found),
                   f"write {line_with(config, found, found.key[0])}: no dot and no name stand behind a key")


def dotted_keys(config: Config, dotted: list[Entry]) -> Finding:
    """Keys with a name and a dot before them, as lists of properties have them."""
    first, others = dotted[0], len(dotted) - 1
    also = f"; so in {others} more line{'s' * (others > 1)}" if others else ""
    return Finding(f"`{'.'.join(first.key)}` is no key: `{first.key[-1]}` alone is one{also}", config.place(first),
                   f"write {line_with(config, first, first.key[-1])}: no dots and no name stand before a key")


def in_network(config: Config, network: NetworkTable) -> str:
    """How a person finds a network."""
    line = config.source.first + config.place(network).line - 1
    return f"in the network {config.networks.index(network)}, which begins in line {line}"


def missing(config: Config, entries: dict[str, Entry], key: str, where: str, at: Place | None) -> Finding:
    """A key that isn't there; perhaps it stands elsewhere or under another name, or the text ends before it."""
    write = f"write `{key} = {usual_value(config, entries, key)}` {where}"
    listed = RADIO_KEYS + NETWORK_KEYS + OPTIONS
    others = [entry for name, entry in entries.items() if name not in listed and meant(name, (key,))]
    if others:
        return Finding(f"`{'.'.join(others[0].key)}` is no key; `{key}` may be meant, and is missing",
                       config.place(others[0]), f"write {line_with(config, others[0], key)}")
    table = next((table for table in config.strange for entry in table.entries if entry.key == (key,)), None)
    if table:
        return Finding(f"`{key}` stands below `[{'.'.join(table.name)}]`, a table that isn't there, and not at the top",
                       config.place(table), "leave this line out: the keys of the radio stand at the top")
    hidden = key_in_remark(config.source, key, where, *lines_of(config, entries))
    if hidden and not entries and entries is not config.top:
        return Finding("all keys of this network stand behind `#`, as remarks, and its `[[network]]` doesn't", at,
                       "write `#[[network]]` where the network isn't to be, or the keys without `#`")
    if hidden:
        return hidden
    below = next((network.entries[key] for network in config.networks if key in network.entries), None)
    if key in RADIO_KEYS and below:
        return Finding(f"`{key}` belongs above the first `[[network]]`: below it, it is a key of that network",
                       config.place(below), f"move this line above `[[network]]`, and `{key}` is one of the radio")
    return cut_short(config, entries) or Finding(f"the key `{key}` is missing {where}", at, write)


def lines_of(config: Config, entries: dict[str, Entry]) -> tuple[int, int]:
    """The lines of the radio's keys or of a network's, up to the next network."""
    begins = [1, *(config.place(network).line for network in config.networks), len(config.source.lines) + 1]
    place = next((place for place, network in enumerate(config.networks, 1) if network.entries is entries), 0)
    return begins[place], begins[place + 1]


def wrong_kind(config: Config, entry: Entry, key: str, wanted: str, write: str) -> Finding:
    """A value of another type."""
    kind = values.KINDS[entry.value.kind]
    return Finding(f"`{key}` is {wanted}, and this is {kind}", config.place(entry.value), f"write `{key} = {write}`")


def number_findings(config: Config, entries: dict[str, Entry], key: str, limits: tuple[int, int],
                    where: str) -> list[Finding]:
    """What is wrong with a number: it isn't there, is none, or isn't within its limits."""
    (least, most), entry = limits, entries.get(key)
    if entry is None:
        return [missing(config, entries, key, where, None)]
    value, number = entry.value, entry.value.integer
    hint = {"channel": values.channel_hint, "interval": values.interval_hint}.get(key)
    if number is None:
        return [no_number(config, value, key, limits)]
    if least <= number <= most:
        return []
    advice = hint(number) if hint else None
    if key not in ("channel", "interval") and number > most:
        advice = f"write `{key} = {most}`, the most that there is"
    if key in ("queue", *NETWORK_LIMITS) and key != "dtim" and number in (0, -1):
        advice = f"there is always a bound: `{key} = {most}` is the most, and `{key} = {SAMPLES[key]}` a usual one"
    return [Finding(f"`{key}` is {number}, and may be {least} to {most}", config.place(value),
                    advice or f"write a number of {least} to {most}, as `{key} = {SAMPLES[key]}`")]


def no_number(config: Config, value: Value, key: str, limits: tuple[int, int]) -> Finding:
    """A value of another type where a whole number within these limits stands."""
    written, place = config.source.text[value.begin:value.end], config.place(value)
    inside = [item.integer for item in value.items if item.integer is not None]
    if value.kind == "array" and inside and len(inside) == len(value.items):
        return Finding(f"`{key}` is one whole number of {limits[0]} to {limits[1]}, and this is an array", place,
                       f"write `{key} = {inside[0]}`" + (", or another one of them" if len(inside) > 1 else ""))
    if value.kind not in ("text", "number"):
        return Finding(f"`{key}` is a whole number of {limits[0]} to {limits[1]}, and this is "
                       f"{values.KINDS[value.kind]}", place, f"write `{key} = {SAMPLES[key]}`")
    said = number_finding(place, written, key, limits)
    is_kind = said.text.startswith((f"`{key}` is a whole", "a number has"))
    return replace(said, text=f"`{key}` is a whole number of {limits[0]} to {limits[1]}, and this is "
                   f"{values.KINDS[value.kind]}") if is_kind else said


def version_findings(config: Config) -> list[Finding]:
    """C2."""
    entry = config.top.get("version")
    if entry is None:
        if not config.top and not config.networks and not config.single and not config.strange:
            emptied = f"; `> {config.source.name}` empties a file before it is read" * is_empty_file(config.source)
            return [Finding("the configuration is empty", config.source.place(1), "it begins with `version = 2` ("
                            f"{called.document('FORMATS.md')}, \"Configuration\"){emptied}")]
        dotted = [entry for entry in config.at_top if len(entry.key) > 1 and entry.key[-1] in LISTED]
        return [dotted_keys(config, dotted) if dotted else
                missing(config, config.top, "version", "at the top", config.source.place(1))]
    if entry.value.kind != "integer":
        digits = str(entry.value.worth)
        return [wrong_kind(config, entry, "version", "the whole number 1 or "
                                                     "2", digits if digits in ("1", "2") else "2")]
    if entry.value.worth in (1, 2):
        return []
    return [Finding(f"there is no version {entry.value.worth}", config.place(entry.value),
                    "write `version = 2`, or 1 where networks have no `relay` and `aging`")]


def is_empty_file(source: Source) -> bool:
    """Whether a text is that of a file without an octet."""
    return not source.octets and os.path.isfile(source.name)


def network_findings(config: Config) -> list[Finding]:
    """C7."""
    entry = config.top.get("network")
    if config.single is not None:
        name, is_named = ".".join(config.single.name), len(config.single.name) > 1
        return [Finding(f"`{'[' * (1 + config.single.is_of_array)}{name}{']' * (1 + config.single.is_of_array)}` is "
                        "one table, and networks are an array of tables",
                        config.place(config.single), "write `[[network]]`"
                        + (": a network has its name as `ssid`" if is_named else ""))]
    if entry and len(entry.key) > 1:
        return [Finding("this makes `network` one table, and networks are an array of tables", config.place(entry),
                        f"write a line `[[network]]`, and below it `{'.'.join(entry.key[1:])}`")]
    if entry and entry.value.kind == "text":
        return [Finding("`network` is an array of tables, and this is a text; OpenWrt's `network` names the interface "
                        "of a wire", config.place(entry.value), "leave this line out: the wire is named by `--wire` of "
                        f"{called.fellow('live')}; a network begins with a line `[[network]]`")]
    if entry and entry.value.kind != "array":
        return [Finding(f"`network` is an array of tables, and this is {values.KINDS[entry.value.kind]}",
                        config.place(entry.value), BEGIN_NETWORK)]
    if entry:
        odd = next((item for item in entry.value.items if item.kind != "table"), None)
        if odd:
            return [Finding(f"each network is a table, and this is {values.KINDS[odd.kind]}", config.place(odd),
                            BEGIN_NETWORK)]
    count, most = len(config.networks), MOST_IN_VERSION.get(config.version or 0, 0)
    hidden = header_in_remark(config.source, 1, len(config.source.lines) + 1) if not count else None
    if hidden:
        return [of_header(hidden)]
    if not count:
        return [no_network(config, entry)]
    if count <= most:
        return []
    advice = f"a radio has at most {MOST_NETWORKS} networks: leave some out"
    if config.version == 1:
        advice = "leave some out" + (f", or write `version = 2`, which has up to {MOST_NETWORKS}, with `relay` and "
                                     "`aging` in each" if count <= MOST_NETWORKS else f": {advice}")
    return [Finding(f"{count} networks, and version {config.version} has at most {most}: this is the first too many",
                    config.place(config.networks[most]), advice)]


def no_network(config: Config, entry: Entry | None) -> Finding:
    """A text without a network, which perhaps ends before the first one."""
    last = max(config.top.values(), key=lambda entry: entry.begin, default=None)
    if entry is None and last and not config.source.text[last.value.end:]:
        return Finding("there is no network: the text ends here, without a line end, and may not have been written or "
                       "copied to its end", config.place(last), BEGIN_NETWORK)
    return Finding("there is no network", config.place(entry) if entry else None, BEGIN_NETWORK)


def text_of(config: Config, network: NetworkTable, key: str) -> tuple[Value, str] | Finding:
    """The value of a key that is a text, and its characters; or what is wrong."""
    entry = network.entries.get(key)
    if entry is None:
        return missing(config, network.entries, key, in_network(config, network), config.place(network))
    text = entry.value.text
    written = values.text_in(entry.value, config.source.text[entry.value.begin:entry.value.end], key) or SAMPLES[key]
    return wrong_kind(config, entry, key, "a text", written) if text is None else (entry.value, text)


def bssid_findings(config: Config, network: NetworkTable) -> list[Finding]:
    """C8."""
    found = text_of(config, network, "bssid")
    if isinstance(found, Finding):
        return [found]
    value, bssid = found
    name = network.entries.get("ssid")
    fault = values.bssid_fault(bssid, name.value.text if name else None)
    if fault:
        text, span, mended = fault
        return [Finding(text, config.within(value, span), f"write `bssid = \"{mended}\"`" if mended else
                        "write all six, as `bssid = \"02:00:00:00:00:01\"`")]
    if int(bssid[:2], 16) & 1:
        return [Finding(f"this is a group address, since its first octet, {bssid[:2]}, is odd; a network's is of one "
                        "receiver", config.within(value, (0, 2)),
                        f"write `bssid = \"{values.single_address(bssid)}\"`")]
    for place, other in enumerate(config.networks[:config.networks.index(network)]):
        entry = other.entries.get("bssid")
        if entry and str(entry.value.worth).lower() == bssid.lower():
            line = config.source.first + config.place(entry).line - 1
            return [Finding(f"the network {place} has this address already, in line {line}", config.place(value),
                            "give each network an address of its own")]
    return []


def ssid_findings(config: Config, network: NetworkTable) -> list[Finding]:
    """C9."""
    entry = network.entries.get("ssid")
    if entry and entry.value.kind in ("integer", "truth", "number"):
        written = config.source.text[entry.value.begin:entry.value.end]
        finding = wrong_kind(config, entry, "ssid", "a text, which stands in quotes",
                             f'"{values.letters_of(written) or values.letters_in(written) or written}"')
        if values.letters_in(written):
            finding = replace(finding, advice=f"{finding.advice}: a report has an SSID in hexadecimal, as `{written}`")
        return [finding]
    found = text_of(config, network, "ssid")
    if isinstance(found, Finding):
        return [found]
    value, name = found
    length = len(name.encode())
    if not length:
        return [Finding("an SSID has 1 to 32 octets, and this is empty: no network here can hide its name, and each "
                        "beacon has it", config.place(value),
                        'write the name that stations ask for, as `ssid = "lab"`')]
    if length <= values.MOST_NAME:
        return []
    letters = f" ({len(name)} characters, some of several octets)" if len(name) < length else ""
    short = name.encode()[:values.MOST_NAME].decode("utf-8", "ignore")
    return [Finding(f"an SSID has at most 32 octets, and this has {length}{letters}", config.place(value),
                    f"the first 32 are {quoted(short)}")]


def rates_findings(config: Config, network: NetworkTable) -> list[Finding]:
    """C10."""
    entry = network.entries.get("rates")
    if entry and entry.value.kind in ("array", "integer", "number"):
        written = config.source.text[entry.value.begin:entry.value.end]
        return [wrong_kind(config, entry, "rates", "a text of hexadecimal digits, two for each rate in units of 500 "
                           "kb/s", f'"{rates_in(entry.value, written) or "82840b16"}"')]
    found = text_of(config, network, "rates")
    if isinstance(found, Finding):
        return [found]
    value, digits = found
    fault = rates_fault(digits)
    if not fault:
        return []
    written = config.source.text[value.begin:value.end]
    plain = re.sub(r"\\x([0-9A-Fa-f]{2})", r"\1", written.strip("\"'"))
    if "\\x" in written and not rates_fault(plain):
        return [Finding("octets are written with `\\x`, as in a program's source, and `rates` has their digits alone",
                        config.place(value), f"write `rates = \"{plain}\"`")]
    text, span, mended = fault
    advice = f"write `rates = \"{mended}\"`" if mended else \
        "two digits for each rate in units of 500 kb/s, 80 more for a basic one, as 82 for 1 Mb/s"
    return [Finding(text, config.within(value, span), advice)]


def known_findings(config: Config, network: NetworkTable) -> list[Finding]:
    """C12."""
    entry, other = network.entries.get("max_known"), network.entries.get("max_stations")
    known, stations = number_of(entry), number_of(other)
    if entry is None or known is None or stations is None or known >= stations:
        return []
    return [Finding(f"`max_known` is {known} and `max_stations` {stations}: each station that is associated is known "
                    "too", config.place(entry.value),
                    f"write `max_known = {stations}` or more; where the two changed places write `max_stations = "
                    f"{known}` and `max_known = {stations}`")]


def option_findings(config: Config, network: NetworkTable) -> list[Finding]:
    """C13."""
    findings = []
    for key in OPTIONS:
        entry = network.entries.get(key)
        if entry is None:
            findings.append(missing(config, network.entries, key, in_network(config, network), config.place(network)))
        elif entry.value.kind != "truth":
            is_time = re.fullmatch(r"\d+ ?[a-zA-Z]+", str(entry.value.worth))
            seconds = key == "aging" and ((entry.value.integer or 0) > 1 or is_time is not None)
            write = "true" if seconds else values.truth_of(str(entry.value.worth)) or SAMPLES[key]
            finding = wrong_kind(config, entry, key, "`true` or `false`, without quotes", write)
            findings.append(replace(finding, advice=f"{finding.advice}: a unit is kept as long as its station's listen "
                                    "interval says") if seconds else finding)
    return list(dict.fromkeys(findings))
