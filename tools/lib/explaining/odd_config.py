"""What is odd in a configuration that has no fault."""
import html
import re
from collections.abc import Collection

from explaining import values
from explaining.configuration import Config, NetworkTable, number_of
from explaining.names import encoded_twice
from explaining.rates_meant import without_header
from explaining.source import LOOK_ALIKES, Finding, Source, plain_text, quoted
from explaining.toml_scan import NoToml
from frames import TIME_UNIT

QUOTE_PAIRS = ('""', "''", "``", "\u201c\u201d", "\u2018\u2019", "\u201e\u201c", "\u00ab\u00bb")
STATIONS_HAVE = values.UNITS | {44, 66}  # 22 and 33 Mb/s, of some stations of 802.11b, among them
NO_ADDRESS = "00:00:00:00:00:00"
JAPANESE_CHANNEL = 14
LEAST_INTERVAL, MOST_INTERVAL = 15, 1000  # hostapd has none below 15
MOST_DTIM, MOST_WAIT = 30, 10_000_000  # microseconds for which units for the group may wait unnoticed


def odd(source: Source | None, asked: Collection[bytes] = (), served: Collection[bytes] = ()) -> list[Finding]:
    """What is odd in a configuration: networks that stations can't tell apart, and networks without a basic rate.
    `asked` are names that stations ask for and no network has, of which it is told where they do; `served` are those
    that they ask for and a network has."""
    try:
        config = Config(source) if source else None
    except (NoToml, RecursionError):
        return []
    return [*of_radio(config), *of_addresses(config), *of_names(config), *of_blanks(config, asked),
            *of_strange_names(config, served), *of_strange_rates(config), *of_rates(config)] \
        if config else []


def of_radio(config: Config) -> list[Finding]:
    """A channel that few stations look at, and a beacon interval that fills the air or that stations don't wait for."""
    channel, interval = (number_of(config.top.get(key)) for key in ("channel", "interval"))
    findings = []
    if channel == JAPANESE_CHANNEL:
        findings.append(Finding("channel 14 is there in Japan alone, for 11 Mb/s and less: stations elsewhere don't "
                                "look at it", config.place(config.top["channel"].value),
                                "write one of 1 to 11, as `channel = 6`"))
    long = [(network, dtim) for network in config.networks
            if (dtim := number_of(network.entries.get("dtim"))) is not None
            and interval is not None and (dtim > MOST_DTIM or dtim * interval * TIME_UNIT > MOST_WAIT)]
    if long and interval is not None and interval < LEAST_INTERVAL <= long[0][1]:
        return findings + [of_exchanged(config, interval, *long[0])]
    findings += [of_dtim(config, interval, network, dtim) for network, dtim in long[:1] if interval is not None]
    if interval is not None and not LEAST_INTERVAL <= interval <= MOST_INTERVAL:
        why = "beacons fill the air" if interval < LEAST_INTERVAL else "stations that look for networks wait less"
        findings.append(Finding(f"a beacon each {milliseconds(interval)} ms: {why}",
                                config.place(config.top["interval"].value), "the usual one is `interval = 100`, 102.4 "
                                "ms"))
    return findings


def milliseconds(interval: int) -> str:
    """A beacon interval in milliseconds, to four digits."""
    length = interval * TIME_UNIT / 1000
    return f"{length:,.0f}" if length >= 1000 else f"{length:.4g}"


def of_exchanged(config: Config, interval: int, network: NetworkTable, dtim: int) -> Finding:
    """A beacon interval that is as short as a DTIM period, and a DTIM period as long as an interval."""
    return Finding(f"a beacon each {milliseconds(interval)} ms, of which each {dtim}th is a DTIM: "
                   f"`interval` and `dtim` may have each other's value", config.place(config.top["interval"].value),
                   f"write `interval = {dtim}`, and in the networks `dtim = {interval}`")


def of_dtim(config: Config, interval: int, network: NetworkTable, dtim: int) -> Finding:
    """A DTIM period for which units for the group wait long."""
    return Finding(f"units for the group wait up to {dtim * interval * TIME_UNIT / 1e6:,.1f} s for a DTIM's beacon, "
                   f"one of {dtim}, while a station dozes", config.place(network.entries["dtim"].value),
                   "usual ones are `dtim = 1` to `dtim = 3`")


def of_blanks(config: Config, asked: Collection[bytes]) -> list[Finding]:
    """Names with a blank at an end, which nobody sees, but for those that stations ask for without it."""
    return [Finding(f"the SSID of the network {place} is blanks alone, which nobody sees",
                    config.place(network.entries["ssid"].value), 'a name that people see is `ssid = "lab"`')
            for place, network, name in texts_of(config, "ssid") if name and not name.strip()] + \
        [Finding(f"the SSID of the network {place} {'begins' if name[0].isspace() else 'ends'} with a blank, which "
                    f"is a part of it: a station that asks for {quoted(name.strip())} isn't answered",
                    config.place(network.entries["ssid"].value),
                    f'where the blank isn\'t meant write `ssid = "{name.strip()}"`')
            for place, network, name in texts_of(config, "ssid")
            if name.strip() and name != name.strip() and name.strip().encode() not in asked] + \
        [Finding(f"the SSID of the network {place} has a character that isn't seen, U+{ord(name[at]):04X}",
                 config.place(network.entries["ssid"].value),
                 f"where it isn't meant write `ssid = \"{without_unseen(config, network, name)}\"`")
         for place, network, name in texts_of(config, "ssid")
         if (at := next((at for at, letter in enumerate(name.strip()) if not letter.isprintable()), None)) is not None]


def without_unseen(config: Config, network: NetworkTable, name: str) -> str:
    """A name without what isn't seen, or with the backslashes that stand for such characters as they are written."""
    value = network.entries["ssid"].value
    written = config.source.text[value.begin + 1:value.end - 1]
    return written.replace("\\", "\\\\") if re.search(r"\\[abtnfre]", written) else \
        "".join(" " if letter.isspace() and not letter.isascii() else letter for letter in name
                if letter.isprintable() or letter.isspace() and not letter.isascii())


def of_strange_names(config: Config, served: Collection[bytes]) -> list[Finding]:
    """Names that are a place of a template, a text in quotes, digits of letters, or with letters that look like others,
    but for those that stations ask for."""
    return [Finding(f"the SSID of the network {place} {told[0]}", config.place(network.entries["ssid"].value), told[1])
            for place, network, name in texts_of(config, "ssid")
            if name.encode() not in served and (told := strange_name(name))]


def strange_name(name: str) -> tuple[str, str] | None:
    """What is strange in a name, and what to write where it isn't meant; None where nothing is."""
    plain, letters = html.unescape(name), values.letters_in(name)
    odd = next((letter for letter in name if letter in LOOK_ALIKES), None)
    if values.UNFILLED.fullmatch(name.strip()):
        return f"is {quoted(name)} as it stands: nothing puts a value in its place", 'write the name, as `ssid = "lab"`'
    if len(name) > 2 and name[0] + name[-1] in QUOTE_PAIRS:
        return "begins and ends with quotes, which are a part of it", \
            f'where they aren\'t meant write `ssid = "{name[1:-1]}"`'
    if plain != name:
        return f"has {quoted(name)} as it stands, as the source of a page has it", f'write `ssid = "{plain}"`'
    twice = encoded_twice(name.encode())
    if twice is not None:
        return f"is {quoted(name)}, the octets of {quoted(twice.decode())} encoded a second time: in a text `\\xc3` " \
            "is a letter", f'where that is meant write `ssid = "{twice.decode()}"`'
    if letters:
        return f"is {quoted(name)}, the digits of {quoted(letters)}: `ssid` is the name as people read it", \
            f'where that is meant write `ssid = "{letters}"`'
    if odd and re.search("[A-Za-z]", name):
        return f"has {quoted(odd)} (U+{ord(odd):04X}), which looks like {quoted(LOOK_ALIKES[odd])} and is another " \
            "letter", f'where it isn\'t meant write `ssid = "{plain_text(name)}"`'
    return None


def of_strange_rates(config: Config) -> list[Finding]:
    """Rates that no station has: those of an element with its ID and length, or of numbers in Mb/s."""
    findings = []
    for place, network, digits in texts_of(config, "rates"):
        rates = bytes.fromhex(digits)
        strange = [rate for rate in rates if rate & ~values.BASIC not in STATIONS_HAVE]
        if not strange:
            continue
        mended = meant_rates(digits)
        named = ", ".join(f"`{rate:02x}`, {(rate & ~values.BASIC) / 2:g} Mb/s" for rate in strange)
        findings.append(Finding(f"`rates` of the network {place} has what no station of 802.11b or g has: {named}",
                                config.place(network.entries["rates"].value),
                                f"leave out the ID and the length of the element: write `rates = \"{mended}\"`"
                                if without_header(digits) else f"where Mb/s were meant write `rates = \"{mended}\"`"
                                if mended else "a rate is twice its Mb/s in hexadecimal digits, and 80 more where it "
                                               "is basic"))
    return findings


def meant_rates(digits: str) -> str | None:
    """The rates that are meant by digits of which some are no station's; None where they can't be told."""
    numbers = re.findall("..", digits)
    if all(rate & ~values.BASIC in STATIONS_HAVE for rate in bytes.fromhex(digits)):
        return None
    # Two digits have no room for 5.5.
    megabits = [5.5 if number == "05" else float(number) for number in numbers if number.isdecimal()]
    is_listed = len(megabits) == len(numbers) and all(rate in values.MEGABITS for rate in megabits)
    return without_header(digits) or (values.rates_of_megabits(megabits) if is_listed else None)


def texts_of(config: Config, key: str) -> list[tuple[int, NetworkTable, str]]:
    """The place of each network that has a text for a key, the network, and the text."""
    found = [(place, network, network.entries.get(key)) for place, network in enumerate(config.networks)]
    return [(place, network, entry.value.text) for place, network, entry in found
            if entry and entry.value.text is not None]


def of_addresses(config: Config) -> list[Finding]:
    """Networks whose address is all zeros."""
    return [Finding(f"the address of the network {place} is all zeros, which no radio has: stations may take it for "
                    "none",
                    config.place(network.entries["bssid"].value), "write one of its own, as 02:00:00:00:00:01")
            for place, network, text in texts_of(config, "bssid") if text == NO_ADDRESS]


def of_names(config: Config) -> list[Finding]:
    """Networks with one SSID."""
    named: dict[str, list[tuple[int, NetworkTable]]] = {}
    for place, network, name in texts_of(config, "ssid"):
        named.setdefault(name, []).append((place, network))
    return [Finding(f"the networks {', '.join(str(place) for place, _ in same)} have one SSID, {quoted(name)}: "
                    "stations take them for one network, and join any", config.place(same[1][1].entries["ssid"].value),
                    "give each an SSID of its own, unless this is meant")
            for name, same in named.items() if len(same) > 1]


def of_rates(config: Config) -> list[Finding]:
    """Networks without a basic rate."""
    findings = []
    for place, network, digits in texts_of(config, "rates"):
        rates = bytes.fromhex(digits)
        if not meant_rates(digits) and not any(rate & values.BASIC for rate in rates):
            mended = values.rates_of_megabits([rate / 2 for rate in rates])
            findings.append(Finding(f"no rate of the network {place} is basic, which the high bit of its octet says: "
                                    "there is none that each of its stations has to have",
                                    config.place(network.entries["rates"].value),
                                    f"write `rates = \"{mended}\"`"))
    return findings
