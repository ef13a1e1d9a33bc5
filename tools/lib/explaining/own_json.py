"""JSON that the tools of an access point write, whole or a part of it as `jq` cuts it out, by its members
(docs/FORMATS.md, "JSON and metrics"). None of it has what came to a network."""
import json
import re
from collections.abc import Iterator
from typing import NamedTuple

import called
from explaining.source import Source

LIVE = called.fellow("live")
LEAST_MEMBERS, MOST_DEEP, MOST_LOOKED = 3, 4, 1 << 20
MEMBER = re.compile(r"\"(\w+)\"\s*:")


class Kind(NamedTuple):
    """What an object is, the members of which it has all, and those of which it has some."""

    what: str
    all_of: frozenset[str]
    some_of: frozenset[str] = frozenset()


def kind(what: str, all_of: str, some_of: str = "") -> Kind:
    """A kind of object by the names of its members."""
    return Kind(what, frozenset(all_of.split()), frozenset(some_of.split()))


STATUS = f"the status of an access point, as `{LIVE} status --json` prints it"
REPORT = f"a report in JSON, as {called.fellow('report-to-json')} writes it"
KINDS = (
    kind(f"what `{LIVE} events` prints", "event time"),
    kind(f"what `{LIVE} events` prints", "event bssid", "station number aid reason status from why request listen"),
    kind(STATUS, "beacons networks"),
    kind(STATUS, "phy networks"),
    kind(STATUS, "bssid counts", "air wire updates quota holder joins leaves refusals max_known stations"),
    kind(STATUS, "address state", "signal heard since rate_to rate_from octets_to octets_from"),
    kind(STATUS, "sent missed", "late_ms_mean late_ms_worst late_up_to_ms"),
    kind(REPORT, "bssid ssid_octets", "events clock unread lost kept stations air wire"),
    kind(REPORT, "address state", "aid listen dozes kept"),
    kind("the last ten minutes of an access point, as the status page has them (`/history.json`)", "seconds networks"),
    kind("the last ten minutes of an access point, as the status page has them (`/history.json`)", "to from",
         "air stations lost signal kept"))


def own_json(source: Source, number: int) -> str | None:
    """What the JSON is that begins in this line; None where none does that these tools write."""
    line = source.line(number).lstrip("\ufeff \t")
    if not line.startswith(("{", "[")):
        return None
    text = "\n".join(source.lines[number - 1:])[:MOST_LOOKED].lstrip("\ufeff \t\r")
    try:
        value = json.JSONDecoder().raw_decode(text)[0]
    except (ValueError, RecursionError):
        return what_is(set(MEMBER.findall(text)))
    return next((what for members in objects(value) if (what := what_is(members))), None)


def objects(value: object, depth: int = 0) -> Iterator[set[str]]:
    """The names of the members of an object, then of those within it."""
    if isinstance(value, dict):
        yield set(value)
    if isinstance(value, (dict, list)) and depth < MOST_DEEP:
        for inside in value.values() if isinstance(value, dict) else value:
            yield from objects(inside, depth + 1)


def what_is(members: set[str]) -> str | None:
    """What an object with these members is."""
    return next((one.what for one in KINDS if one.all_of <= members and
                 (len(one.all_of & members) + len(one.some_of & members) >= LEAST_MEMBERS or not one.some_of)), None)
