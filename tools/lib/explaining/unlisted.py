"""C3: keys that a configuration doesn't have, what each is meant for, and where that is said."""
import re
from dataclasses import replace

from explaining.configuration import Config
from explaining.elsewhere import told_elsewhere
from explaining.in_remarks import header_in_remark, of_header
from explaining.keys import (LISTED, NETWORK_KEYS, OPPOSITES, OPTIONS, RADIO_KEYS, TEXT_KEYS, called_elsewhere, meant,
                             plain_key)
from explaining.source import Finding, Source
from explaining.toml_scan import Entry, Table
from explaining.values import channel_of_frequency, truth_of
from hostapd import NO, YES, Line, line_for

LEAST_OF_NETWORK = 3  # keys of a network at the top, by which its header is missing
MOST_KEYS_SHOWN, MOST_VALUE, MOST_LINES = 3, 60, 8
NUMBERED = re.compile(r" \(this is network \d+\)")


def unlisted_findings(config: Config) -> list[Finding]:
    """C3: the keys that aren't listed, and where they stand."""
    allowed = NETWORK_KEYS + (OPTIONS if config.version == 2 else ())
    found = [(entry.begin, unlisted(config, entry, RADIO_KEYS, allowed, None))
             for key, entry in config.top.items() if key not in RADIO_KEYS]
    found += [(table.begin, strange_table(config, table)) for table in config.strange]
    if config.single is None:
        found += [(entry.begin, unlisted(config, entry, allowed, RADIO_KEYS, place))
                  for place, network in enumerate(config.networks)
                  for key, entry in network.entries.items() if key not in allowed]
    again = next((entry for network in config.networks for key, entry in network.entries.items() if key == "version"),
                 None)
    if again and "version" in config.top:
        return [Finding("a second configuration begins here, behind the first", config.place(again),
                        "leave one of them out; of another network its keys alone stand below a `[[network]]`")]
    first = min((entry.begin for key, entry in config.top.items() if key in NETWORK_KEYS + OPTIONS), default=None)
    hidden = header_in_remark(config.source, 1, config.source.at(first, first + 1).line) if first is not None else None
    if hidden:
        return [of_header(hidden)]
    is_whole = len([key for key in config.top if key in NETWORK_KEYS + OPTIONS]) >= LEAST_OF_NETWORK
    if first is not None and config.single is None and (not config.networks or is_whole):
        return [without_header(config)]
    findings = told_once([finding for _, finding in sorted(found, key=lambda pair: pair[0])])
    more = len(findings) - MOST_KEYS_SHOWN
    return findings[:MOST_KEYS_SHOWN] + ([Finding(f"and {more} more keys that aren't listed")] if more > 0 else [])


def without_header(config: Config) -> Finding:
    """The keys of a network in a text without a network."""
    listed = sorted((entry for key, entry in config.top.items() if key in NETWORK_KEYS + OPTIONS),
                    key=lambda entry: entry.begin)
    keys = ", ".join(f"`{entry.key[0]}`" for entry in listed[:MOST_KEYS_SHOWN])
    more = f" and {len(listed) - MOST_KEYS_SHOWN} more" * (len(listed) > MOST_KEYS_SHOWN)
    return Finding(f"the line `[[network]]` is missing, with which a network begins: {keys}{more} stand at the top, "
                   "and are no keys of the radio", config.place(listed[0]),
                   f"write `[[network]]` in a line before `{listed[0].key[0]}`" if len(listed) > 1 else
                   "write it below the `[[network]]` that it is of")


def told_once(findings: list[Finding]) -> list[Finding]:
    """Findings of which the same is said once, with the lines of the others behind it."""
    groups: dict[tuple[str, str | None], list[Finding]] = {}
    for finding in findings:
        groups.setdefault((NUMBERED.sub("", finding.text), finding.advice), []).append(finding)
    return [replace(group[0], text=group[0].text + also_in(group[1:])) for group in groups.values()]


def also_in(findings: list[Finding]) -> str:
    """The lines of other findings, the first few of them."""
    numbers = [str(finding.place.source.first + finding.place.line - 1) for finding in findings if finding.place]
    more = f" and {len(numbers) - MOST_LINES} more" if len(numbers) > MOST_LINES else ""
    return f"; so in line{'s' * (len(numbers) > 1)} {', '.join(numbers[:MOST_LINES])}{more}" if numbers else ""


def strange_table(config: Config, table: Table) -> Finding:
    """A table that isn't `network`."""
    of_network = sum(called_elsewhere(entry.key[0], NETWORK_KEYS + OPTIONS) is not None for entry in table.entries)
    name = f"{'[' * (1 + table.is_of_array)}{'.'.join(table.name)}{']' * (1 + table.is_of_array)}"
    if meant(table.name[0], ("network",)) or of_network > 1:
        return Finding(f"there is no table `{'.'.join(table.name)}`: a network begins with a line `[[network]]`",
                       config.place(table), f"write `[[network]]` for `{name}`" +
                       (": a network has its name as `ssid`" if of_network > 1 else ""))
    has_own = any(called_elsewhere(entry.key[0], LISTED) for entry in table.entries)
    return Finding(f"there is no table "
                   f"`{'.'.join(table.name)}`", config.place(table), "the keys of the radio stand at the "
                   "top, each network's below its `[[network]]`: leave this line out" if has_own else
                   "leave it out with its keys: a configuration has the radio's keys at the top, and `[[network]]` "
                   "alone")


def unlisted(config: Config, entry: Entry, here: tuple[str, ...], there: tuple[str, ...],
             network: int | None) -> Finding:
    """A key that isn't one of those listed here; perhaps one of those that belong elsewhere."""
    key, place = entry.key[0], config.place(entry)
    where = "of the radio" if network is None else f"of a network (this is network {network})"
    text = f"`{key}` is no key {where}"
    if key in OPTIONS and network is not None:
        return Finding(f"`relay` and `aging` are keys of version 2, and this text is of version "
                       f"{config.version}", place,
                       "write `version = 2`, and `relay` and `aging` in each network")
    last = entry.key[-1]
    if len(entry.key) > 1 and last in here:
        written = config.source.text[entry.value.begin:entry.value.end]
        return Finding(f"`{'.'.join(entry.key)}` is no key "
                       f"{where}", place, f"write `{last} = {written}`: no dots and no "
                       "name stand before a key")
    if key in there or network is None and key in OPTIONS:
        return Finding(text, place, of_place(config, key, network))
    return Finding(text, place, instead(config, entry, here, there, network))


def of_place(config: Config, key: str, network: int | None) -> str:
    """Where a key belongs that stands at the top and is a network's, or the other way round."""
    if network is not None:
        has = config.top.get(key)
        return "write it above the first `[[network]]`, as a key of the radio" if has is None else \
            f"leave it out: the networks of a radio have one `{key}`, which line " \
            f"{config.source.first + config.place(has).line - 1} says"
    having = sum(key in other.entries for other in config.networks)
    if config.networks and having == len(config.networks):
        return f"leave it out: each network has its own `{key}`, below its `[[network]]`"
    return "write it below the `[[network]]` that it is of" if having or len(config.networks) < 2 else \
        "write it below each `[[network]]`: each network has its own"


def instead(config: Config, entry: Entry, here: tuple[str, ...], there: tuple[str, ...], network: int | None) -> str:
    """What to write in the place of a key that no configuration has."""
    key = entry.key[0]
    stands = opposite(entry) or line_for(key, str(entry.value.worth))
    if stands and stands.key in here + there + OPTIONS:
        return of_hostapd(config, stands, network)
    like = called_elsewhere(key, here)
    if like == "network" and entry.value.kind not in ("array", "table"):
        return "leave it out: each network begins with a line `[[network]]`, and their number is not said"
    told = None if like else told_elsewhere(key, str(entry.value.worth))
    if told:
        return told
    like = like or meant(key, here)
    if like:
        is_there = like in (config.top if network is None else config.networks[network].entries)
        return f"write `{like}`, which is there already: leave this out" if is_there else \
            f"write {line_with(config, entry, like)}"
    away = called_elsewhere(key, there)
    if away:
        return f"write {line_with(config, entry, away)} " + (
            "above the first `[[network]]`" if network is not None else "below the `[[network]]` that it is of")
    return f"leave it out: the keys are {', '.join(here)}; a remark begins with `#`"


def line_with(config: Config, entry: Entry, key: str) -> str:
    """A key with the value that another one has, where it is of the kind that the key takes; else the key alone."""
    value, written = entry.value, config.source.text[entry.value.begin:entry.value.end]
    wanted = "text" if key in TEXT_KEYS else "truth" if key in OPTIONS else "integer"
    channel = channel_of_frequency(float(value.worth)) if key == "channel" and \
        isinstance(value.worth, (int, float)) and not isinstance(value.worth, bool) else None
    if channel:
        return f"`channel = {channel}`"
    return f"`{key} = {written}`" if value.kind == wanted and len(written) <= MOST_VALUE else f"`{key}`"


def strange_key(source: Source, number: int, key: str, value: str) -> Finding | None:
    """A key that no configuration has and that is said elsewhere, before a value that is none of TOML."""
    told = None if key in LISTED or called_elsewhere(key, LISTED) else told_elsewhere(key, value)
    if told is None:
        return None
    return Finding(f"`{key}` is no key of a configuration",
                   source.place(number, source.line(number).find(key) + 1, len(key)), told)


def opposite(entry: Entry) -> Line | None:
    """The line of `relay` that a key stands for which keeps stations apart; None for another key."""
    return opposite_line(entry.key[0], str(entry.value.worth))


def opposite_line(key: str, value: str) -> Line | None:
    """The same of a key and a value as they are written."""
    is_apart = truth_of(value.strip("\"'"))
    return Line("relay", NO if is_apart != NO else YES) if OPPOSITES.fullmatch(plain_key(key)) else None


def of_hostapd(config: Config, line: Line, network: int | None) -> str:
    """What to write for a line of hostapd, and where."""
    of_radio = line.key in RADIO_KEYS
    entries = [config.top] if of_radio else [config.networks[network].entries] if network is not None else \
        [other.entries for other in config.networks]
    if line.key in OPTIONS and config.version == 1:
        return f"write `version = 2`, and `{line.text()}` in each network that it is for; both options stand in each"
    if entries and all(line.key in found for found in entries):
        return f"write `{line.text()}` in place of the line with `{line.key}` that is there, and leave this one out"
    if of_radio == (network is None):
        return f"write `{line.text()}`"
    return f"write `{line.text()}` " + ("above the first `[[network]]`" if of_radio else
                                        "below the `[[network]]` that it is of")
