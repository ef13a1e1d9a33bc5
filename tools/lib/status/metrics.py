"""The status document in the text format of Prometheus, version 0.0.4.

Stations are counted by their states. Figures of its own has each that is associated where that is asked for: addresses
that telephones make up would be series without end. What isn't known (the signal where the radio tells none) has no line.
"""
from collections.abc import Iterable, Iterator
from dataclasses import dataclass, field
from typing import Any

from status.document import ASSOCIATED

CONTENT_TYPE = "text/plain; version=0.0.4; charset=utf-8"
PER_MILLISECOND = 1e-3
RATE_UNIT = 62_500  # octets per second: 500 kb/s


class Kind:
    """What a family's numbers do."""

    COUNTER, GAUGE, HISTOGRAM = "counter", "gauge", "histogram"


@dataclass(frozen=True)
class Family:
    """Samples of one name, each of them an ending of the name, labels and a number. The name of a counter ends with
    `_total`; the endings are those of a histogram."""

    name: str
    kind: str
    help: str
    samples: list[tuple[str, dict[str, str], float]] = field(default_factory=list)

    def add(self, number: float | None, scale: float = 1, **labels: str) -> "Family":
        """Adds a sample, where its number is known."""
        if number is not None:
            self.samples.append(("", labels, number * scale))
        return self

    def add_buckets(self, bounds: Iterable[tuple[float, int]], number: int, total: float) -> None:
        """Adds what a histogram has: how many were at most each bound, how many there were, and their sum."""
        for bound, up_to in bounds:
            self.samples.append(("_bucket", {"le": shown(bound)}, up_to))
        self.samples.append(("_bucket", {"le": "+Inf"}, number))
        self.samples.extend((("_sum", {}, total), ("_count", {}, number)))

    def lines(self) -> Iterator[str]:
        """The lines of this family: none where it has no sample."""
        if not self.samples:
            return
        yield f"# HELP {self.name} {escaped(self.help, quotes=False)}"
        yield f"# TYPE {self.name} {self.kind}"
        for ending, labels, number in self.samples:
            inner = ",".join(f'{name}="{escaped(value)}"' for name, value in labels.items())
            yield f"{self.name}{ending}{{{inner}}} {shown(number)}" if inner else f"{self.name}{ending} {shown(number)}"


def escaped(text: str, quotes: bool = True) -> str:
    """A text as a label's value, or without `quotes` as a help text."""
    text = text.replace("\\", "\\\\").replace("\n", "\\n")
    return text.replace('"', '\\"') if quotes else text


def shown(number: float) -> str:
    """A number: whole ones without a point."""
    return str(int(number)) if float(number).is_integer() else repr(float(number))


def counter(name: str, text: str) -> Family:
    """A family of counters."""
    return Family(f"waltigon_{name}_total", Kind.COUNTER, text)


def gauge(name: str, text: str) -> Family:
    """A family of gauges."""
    return Family(f"waltigon_{name}", Kind.GAUGE, text)


def of_all(document: dict) -> Iterator[Family]:
    """What is told of the access point as a whole."""
    yield gauge("info", "1; the version that runs, the radio, its channel and how it is used are its labels.").add(
        1, version=document["version"], phy=document["phy"], channel=str(document["channel"]),
        by=document.get("by") or "")
    yield gauge("uptime_seconds", "How long ago the program began, at the start or by a reload.").add(document["since"])
    yield from of_radio(document.get("radio"))
    yield from of_beacons(document["beacons"])
    record = document.get("record")
    if record is not None:
        yield gauge("record_bytes", "Octets of the file that the lines are recorded in.").add(record["octets"])
        yield gauge("recording", "1 while lines are recorded, 0 once the recording has stopped.").add(
            int(record["fault"] is None))
    for name, key, text in (("frames_dropped", "drops", "Frames that the bridge dropped, by the reason."),
                            ("frames_left_out", "left_out", "Frames that no network has to hear, by the reason.")):
        family = counter(name, text)
        for reason, number in document.get(key, {}).items():
            family.add(number, reason=reason)
        yield family


def of_beacons(beacons: dict) -> Iterator[Family]:
    """How many beacons there were, and how late."""
    yield counter("beacons_sent", "Beacons that were sent.").add(beacons["sent"])
    yield counter("beacon_intervals_missed", "Beacon intervals that never began, since the machine was busy.").add(
        beacons["missed"])
    yield gauge("beacon_lateness_mean_seconds", "How late beacon intervals began, on average.").add(
        beacons["late_ms_mean"], PER_MILLISECOND)
    yield gauge("beacon_lateness_worst_seconds", "How late the latest beacon interval began.").add(
        beacons["late_ms_worst"], PER_MILLISECOND)
    if "late_up_to_ms" in beacons:
        late = Family("waltigon_beacon_lateness_seconds", Kind.HISTOGRAM, "How late beacons were given to the radio.")
        bounds = [(milliseconds * PER_MILLISECOND, number) for milliseconds, number in beacons["late_up_to_ms"]]
        late.add_buckets(bounds, beacons["sent"], beacons["late_seconds"])
        yield late


def of_radio(radio: dict | None) -> Iterator[Family]:
    """What is told of the radio, where that is known."""
    for name, key, text in (
            ("radio_up", "down", "1 while the radio's interface is up, else 0."),
            ("radio_sends", "unsent", "1 while the radio tells beacons as sent, else 0."),
            ("radio_on_channel", "elsewhere", "1 while the radio hears on its channel, 0 while it hears elsewhere.")):
        family = gauge(name, text)
        if radio is not None:
            family.add(int(radio[key] is None))
        yield family


def of_networks(networks: list[dict]) -> Iterator[Family]:
    """What is told of each network."""
    yield from of_counts(networks)
    yield from of_stations_of(networks)
    yield from of_air(networks)


def labels_of(network: dict) -> dict[str, Any]:
    """The labels of what is told of a network."""
    return {"bssid": network["bssid"], "ssid": network["name"]}


def of_counts(networks: list[dict]) -> Iterator[Family]:
    """What the program counts of each network, with its limit for units that it keeps, and its wire."""
    counts = {
        "events": counter("network_events", "Frames on the air and on the wire, and beacon intervals, that a network "
                                            "took."),
        "clock": counter("network_beacon_intervals", "Beacon intervals that a network began."),
        "unread": counter("network_unread_frames", "Frames for a network that it doesn't read."),
        "lost": counter("network_lost_units", "Units that a network lost, above a quota or since they were too old."),
        "kept": gauge("network_kept_units", "Units that a network keeps for stations that doze."),
    }
    quota = gauge("network_quota_units", "Units that a network keeps at most for stations that doze.")
    held = gauge("network_held_units", "Units that a network keeps for the one station for which it keeps most.")
    wires = gauge("network_wire_up", "1 where the wire of a network is up, 0 where it went down.")
    updates = counter("network_wire_updates", "Updates by which the wire of a network learned that a station is here.")
    for network in networks:
        labels = labels_of(network)
        for name, family in counts.items():
            family.add((network["counts"] or {}).get(name), **labels)
        quota.add(network.get("quota"), **labels)
        if network["counts"]:
            held.add((network.get("holder") or {"kept": 0})["kept"], **labels)
        if network["wire"] is not None:
            wires.add(int(network["wire_down"] is None), **labels)
            updates.add(network.get("updates"), **labels)
    yield from (*counts.values(), quota, held, wires, updates)


def of_stations_of(networks: list[dict]) -> Iterator[Family]:
    """How many stations each network has, how many it takes, and how they came and went."""
    stations = gauge("network_stations", "Stations that a network knows, by their state.")
    limits = {"max_stations": gauge("network_max_stations", "Stations that may be associated with a network at most."),
              "max_known": gauge("network_max_known_stations", "Stations that a network knows at most.")}
    joins = counter("network_joins", "Associations of stations with a network.")
    leaves = counter("network_leaves", "Stations that left a network or that it forgot, by the reason.")
    moves = counter("network_moves", "Stations that moved: in from another network of this radio, or out to another "
                                     "access point, as the wire showed.")
    claims = counter("network_claims", "Stations that the wire showed elsewhere twice in ten seconds, and that stayed.")
    refusals = counter("network_refusals", "Authentications and associations that a network refused, by the status.")
    for network in networks:
        labels = labels_of(network)
        stations.add(network["associated"], **labels, state=ASSOCIATED)
        stations.add(network["known"] - network["associated"], **labels, state="authenticated")
        for name, family in limits.items():
            family.add(network.get(name), **labels)
        joins.add(network.get("joins"), **labels)
        for reason, number in network.get("leaves", {}).items():
            leaves.add(number, **labels, reason=reason)
        for direction in ("in", "out"):
            moves.add(network.get(f"moved_{direction}"), **labels, direction=direction)
        claims.add(network.get("claims"), **labels)
        for status, number in network["refusals"].items():
            refusals.add(number, **labels, status=str(status))
    yield from (stations, *limits.values(), joins, leaves, moves, claims, refusals)


def of_air(networks: list[dict]) -> Iterator[Family]:
    """What the air was to each network."""
    used = counter("network_air_seconds", "For how long frames of a network were sent, all tries counted, beacons left "
                                          "out.")
    unsent = counter("network_air_unsent_frames", "Frames of a network that never went on the air, by the reason.")
    families = {
        "seconds": used,
        "waiting": gauge("network_air_waiting_frames", "Frames of a network that wait for the air."),
        "waiting_octets": gauge("network_air_waiting_bytes", "Octets of a network that wait for the air."),
        "most_waiting_octets": gauge("network_air_max_waiting_bytes", "Octets of a network that wait at most."),
        "sent_again": counter("network_repeated_units", "Units that nobody acknowledged, and that went once more."),
        "unacknowledged": counter("network_unacknowledged_units", "Units that nobody acknowledged, and that were lost."),
    }
    for network in networks:
        labels = labels_of(network)
        for name, family in families.items():
            family.add(network["air"].get(name), **labels)
        for reason, number in network["air"]["unsent"].items():
            unsent.add(number, **labels, reason=reason)
    yield from (*families.values(), unsent)


def of_stations(networks: list[dict]) -> Iterator[Family]:
    """What is told of each station that is associated."""
    octets = counter("station_bytes", "Octets of units to and from a station.")
    frames = counter("station_frames", "Frames to and from a station.")
    rates = gauge("station_rate_bytes_per_second", "The rate at which a station was last sent to and heard, in octets.")
    signal = gauge("station_signal_dbm", "How strongly a station was last heard.")
    kept = gauge("station_kept_units", "Units that are kept for a station while it dozes.")
    dozes = gauge("station_dozes", "1 where a station dozes, else 0.")
    since = gauge("station_joined_seconds", "How long ago a station joined.")
    heard = gauge("station_heard_seconds", "How long ago a station was last heard.")
    for network in networks:
        for station in network["stations"]:
            if station["state"] != ASSOCIATED:
                continue
            labels = {"bssid": network["bssid"], "station": station["address"]}
            for way in ("to", "from"):
                octets.add(station[f"octets_{way}"], **labels, direction=way)
                frames.add(station[f"frames_{way}"], **labels, direction=way)
                rates.add(station[f"rate_{way}"], RATE_UNIT, **labels, direction=way)
            for family, name in ((signal, "signal"), (kept, "kept"), (dozes, "dozes"), (since, "since"),
                                 (heard, "heard")):
                family.add(station[name], **labels)
    yield from (octets, frames, rates, signal, kept, dozes, since, heard)


def metrics_of(document: dict, of_each_station: bool = False) -> str:
    """A status document, as `document.complete` gives it, in the text format of Prometheus; those that are associated have
    series of their own where that is asked for."""
    networks = document["networks"]
    families = (*of_all(document), *of_networks(networks), *(of_stations(networks) if of_each_station else ()))
    return "".join(f"{line}\n" for family in families for line in family.lines())
