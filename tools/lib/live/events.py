"""What happens to stations and wires of an access point that runs, for scripts: lines of JSON, each as it comes.

The bridge keeps the last events and is asked for those that are new, so no reader keeps it waiting. Where another bridge
takes its place, its events follow; a line says so, and one says where events are missing. docs/FORMATS.md has all of
them.
"""
import json
import re
import sys
import time
from collections.abc import Iterator
from datetime import datetime, timedelta, timezone

from live.asking import ask, sole_phy
from live.faults import Fault

FORMAT = 1
EACH_SECONDS = 0.5
AGO = re.compile(r"([0-9]{1,6})(s|min|h)")
LAST = (1 << 64) - 1  # the greatest number of an event
UNITS = {"s": 1, "min": 60, "h": 3600}


def moment_of(text: str) -> str:
    """The words of --since as a time in UTC, written as the bridge writes times; a ValueError where they are none."""
    ago = AGO.fullmatch(text)
    if ago:
        moment = datetime.now(timezone.utc) - timedelta(seconds=int(ago[1]) * UNITS[ago[2]])
    else:
        moment = datetime.fromisoformat(text).astimezone(timezone.utc)
    return text_of(moment)


def text_of(moment: datetime) -> str:
    """A time, as `2026-11-29T16:30:00.250Z`: of two times the later one is the greater text."""
    return moment.astimezone(timezone.utc).isoformat(timespec="milliseconds").replace("+00:00", "Z")


def own_event(name: str, **members: object) -> dict:
    """An event that isn't the bridge's."""
    return {"time": text_of(datetime.now(timezone.utc)), "event": name, **members}


class Follower:
    """Knows which events of a bridge were told."""

    def __init__(self, phy: str, since: str | None) -> None:
        self.phy, self.since = phy, since
        self.began: float | None = None  # when the bridge began whose events are told
        self.first = 0  # the number of its next event
        self.is_away = False

    def begin(self) -> Iterator[dict]:
        """That one follows, and what happened since the time that was asked for. A Fault where no bridge answers."""
        yield own_event("following", format=FORMAT, phy=self.phy)
        answer = ask(self.phy, f"events {LAST if self.since is None else 0}")
        self.began, self.first = answer["began"], answer["next"]
        if self.since is None:
            return
        begin = text_of(datetime.fromtimestamp(answer["began"], timezone.utc))
        until = max(begin, answer["dropped"] or begin)
        if until >= self.since:
            yield own_event("missing", why="what happened before isn't kept", until=until)
        while answer["events"] and answer["began"] == self.began:
            yield from (event for event in answer["events"] if event["time"] >= self.since)
            self.first = answer["next"]
            answer = ask(self.phy, f"events {self.first}")

    def look(self) -> Iterator[dict]:
        """What happened since one looked last."""
        try:
            answer = ask(self.phy, f"events {self.first}")
        except Fault:
            if not self.is_away:
                self.is_away = True
                yield own_event("unreachable")
            return
        if answer["began"] != self.began:
            answer = ask(self.phy, "events 0")
            self.began = answer["began"]
            yield own_event("restarted")
        elif answer["dropped"]:
            yield own_event("missing", why="more happened than is kept", until=answer["dropped"])
        self.is_away = False
        self.first = answer["next"]
        yield from answer["events"]


def tell_events(phy: str | None, since: str | None) -> None:
    """Writes each event as it comes, until Ctrl-C or until nobody reads it."""
    follower = Follower(phy or sole_phy(), since)
    try:
        write(follower.begin())
        while True:
            time.sleep(EACH_SECONDS)
            write(follower.look())
    except KeyboardInterrupt:
        pass
    except BrokenPipeError:
        sys.stderr.close()  # nobody reads, and nothing is left to say


def write(events: Iterator[dict]) -> None:
    """Writes events, a line each."""
    for event in events:
        print(json.dumps(event), flush=True)
