"""What is going on, in columns for a person at a terminal: each network with its stations."""
import sys
import time
from contextlib import suppress

from live.asking import ask
from live.faults import Fault
from status.document import most_of_quota, name_of, printable

STATUS = "status"
CLEAR = "\x1b[H\x1b[2J"
WATCH_SECONDS = 1.0
COLUMNS = ("address", "state", "aid", "mode", "since", "heard", "signal", "Mb/s to", "from", "sent", "received", "kept")
LEFT = 4  # so many columns have their texts on the left
NOTHING = "-"
UNITS = ("", "k", "M", "G", "T")


def show_status(phy: str | None, is_watched: bool) -> None:
    """Shows it once, or each second until Ctrl-C."""
    if not is_watched:
        print(text_of(ask(phy, STATUS)))
        return
    with suppress(KeyboardInterrupt):
        while True:
            try:
                text = text_of(ask(phy, STATUS))
            except Fault as fault:
                text = str(fault)
            sys.stdout.write(f"{CLEAR}{text}\n")
            sys.stdout.flush()
            time.sleep(WATCH_SECONDS)


def text_of(told: dict) -> str:
    """A status document as lines."""
    beacons = told["beacons"]
    by = f" by {told['by'].replace('-', ' ')}" if told.get("by") else ""
    lines = [f"{told['phy']}, channel {told['channel']}{by}, for {duration(told['since'])}, of {told['version']}; "
             f"{beacons['sent']} beacons, {beacons['late_ms_worst']} ms late at worst, {beacons['missed']} missed",
             *troubles_of(told.get("radio") or {}), *end_of(told.get("record") or {})]
    for network in told["networks"]:
        lines += ["", head_of(network)]
        rows = [row_of(station) for station in network["stations"]]
        if rows:
            lines += in_columns([COLUMNS, *rows])
    for fault in told["faults"]:
        lines += ["", f"{duration(fault['seconds'])} ago: {fault['text']}"]
    # What a bridge tells that a stranger has taken over stands on a terminal of root.
    return "\n".join(map(printable, lines))


def troubles_of(radio: dict) -> list[str]:
    """What keeps stations from all networks, a line each."""
    found = []
    if radio.get("down") is not None:
        found.append(f"the monitor interface is down for {duration(radio['down'])}")
    if radio.get("unsent") is not None:
        found.append(f"the radio has told no beacon as sent for {duration(radio['unsent'])}")
    if radio.get("elsewhere") is not None:
        found.append(f"the radio is on {radio['elsewhere']} MHz")
    return found


def end_of(record: dict) -> list[str]:
    """Why the record has ended, where it has."""
    return [] if record.get("fault") is None else [f"the record ended: {record['fault']}"]


def head_of(network: dict) -> str:
    """The line of a network."""
    counts = network["counts"] or {}
    listed, known = len(network["stations"]), network.get("known", len(network["stations"]))
    parts = [f"{known} stations", *([f"{listed} of them listed"] if listed < known else []), f"wire {network['wire'] or 'none'}"]
    if network["wire_down"] is not None:
        parts.append(f"down for {duration(network['wire_down'])}")
    parts += [f"{counts[name]} {name}" for name in ("kept", "lost", "unread") if name in counts]
    holder = most_of_quota(network)
    if holder is not None:
        parts.append(f"{holder['kept']} of its quota of {network['quota']} kept for {holder['address']}")
    return f"{network['bssid']} {name_of(network['ssid'])}: {', '.join(parts)}"


def row_of(station: dict) -> tuple[str, ...]:
    """The texts of a station."""
    is_associated = station["state"] == "associated"
    mode = ("dozes" if station["dozes"] else "active") if is_associated else NOTHING
    signal = NOTHING if station["signal"] is None else f"{station['signal']} dBm"
    return (station["address"], station["state"], maybe(station["aid"]), mode, duration(station["since"]),
            f"{station['heard']:.1f} s", signal, rate(station["rate_to"]), rate(station["rate_from"]),
            size(station["octets_to"]), size(station["octets_from"]), maybe(station["kept"]))


def in_columns(rows: list[tuple[str, ...]]) -> list[str]:
    """Rows whose texts stand below each other."""
    widths = [max(map(len, column)) for column in zip(*rows)]
    aligned = [[text.ljust(width) if place < LEFT and place != 2 else text.rjust(width)
                for place, (text, width) in enumerate(zip(row, widths))] for row in rows]
    return ["  " + "  ".join(texts).rstrip() for texts in aligned]


def maybe(number: int | None) -> str:
    """A number, or that there is none."""
    return NOTHING if number is None else str(number)


def rate(units: int | None) -> str:
    """A rate in Mb/s, of units of 500 kb/s."""
    return NOTHING if units is None else f"{units / 2:g}"


def size(octets: int) -> str:
    """How many octets, in three digits."""
    number, place = float(octets), 0
    while number >= 999.5 and place < len(UNITS) - 1:
        number, place = number / 1000, place + 1
    return f"{number:.3g} {UNITS[place]}B"


def duration(seconds: float) -> str:
    """Hours, minutes and seconds."""
    whole = int(seconds)
    return f"{whole // 3600}:{whole // 60 % 60:02}:{whole % 60:02}"
