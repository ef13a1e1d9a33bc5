"""What is said of the lines of a run that ended well, one by one: those that no network took or read, those that
changed nothing, those that were refused, and those that lost something. Whether a line did something is told by the
program, by way of `live`; the reason is looked for beside that."""
import re
from collections.abc import Iterable, Iterator
from dataclasses import dataclass, field, replace
from enum import Enum

from explaining.changes import has_effect
from explaining.check_sequences import ends_with_fcs
from explaining.configuration import Keys, NetworkTable
from explaining.intervals import brings_beacons_alone
from explaining.line_by_line import Step
from explaining.losses import losses
from explaining.meant import Relay, doubts
from explaining.notations import other_numbers
from explaining.nothing import Looked, nothing
from explaining.notices import notice
from explaining.past import Past, station_in
from explaining.reason import Lack, Reason
from explaining.refused import refusal_of, refused
from explaining.shifted import shifted
from explaining.source import Finding, Place, Source
from explaining.spans import place_of_octets
from explaining.trace_remarks import Remarks, unmask
from explaining.unheard import unheard
from explaining.unread import unread, wired_unread
from explaining.written import Known, misfit, preamble
from frames import BROADCAST, PROBE_REQUEST, Frame, address_text
from reading import unread_kind, wired_unread_kind
from texts import Line

MOST_GROUPS, MOST_ALSO = 6, 5
FULL = (1, 17)  # statuses of a network that knows, or has associated, as many stations as it may
DOUBT = "it may not say what is meant"


class What(Enum):
    """What became of a line, in the order in which it is told."""

    UNTAKEN = "no network takes it"
    UNREAD = "it can't be read"
    NOTHING = "it changes nothing"
    REFUSED = "it is refused"
    LOST = "a unit is lost"
    DOUBTFUL = "it does something that may not be meant"


@dataclass
class Group:
    """Lines of which the same is said."""

    what: What
    head: str
    reason: Reason
    lines: list[Line] = field(default_factory=list)


@dataclass(frozen=True)
class Said:
    """What is said of one line and one network, or of all of them."""

    what: What
    head: str
    reason: Reason


class Outcomes:
    """The groups, in the order of their first lines."""

    def __init__(self, trace: Source, tables: dict[bytes, NetworkTable], lines: Iterable[Line] = (),
                 has_sums: bool = True, config: Source | None = None) -> None:
        """`has_sums` where some kinds of lines are told of in sum beside these, `config` the text of the tables."""
        self.trace, self.tables, self.has_sums, self.config = trace, tables, has_sums, config
        self.past = Past(lambda number: trace.first + number - 1, lines, Remarks(trace))
        self.groups: dict[tuple[What, str, str], Group] = {}
        self.left_out: list[Line] = []
        self.idle: set[int] = set()

    def take(self, step: Step, full: frozenset[bytes] = frozenset()) -> None:
        """Looks at a line; networks whose history is full take nothing any more."""
        for said in self.of_step(step, full):
            key = said.what, said.head, said.reason.text
            self.groups.setdefault(key, Group(said.what, said.head, said.reason)).lines.append(step.line)
        if brings_beacons_alone(step):
            self.idle.add(step.line.number)
        self.past.note(step)

    def of_step(self, step: Step, full: frozenset[bytes] = frozenset()) -> Iterator[Said]:
        """What is said of a line; where it isn't written as a frame is, that is the reason of all that came of it."""
        text = self.trace.line(step.line.number).rstrip()
        slip = preamble(step.line) or other_numbers(text, step.line, step.before) or \
            misfit(text, step.line, Known(step.before, self.past.seen)) or \
            shifted(step.line, step.before)
        told = False
        for said in self.of_effects(step, full, slip is not None):
            if not (told and slip):
                yield replace(said, reason=slip or said.reason)
            told = True
        if slip and not told and not full:
            yield Said(What.DOUBTFUL, DOUBT, slip) if step.after is not step.before else \
                Said(What.UNTAKEN, "no network takes it", slip)

    def of_effects(self, step: Step, full: frozenset[bytes], is_slip: bool) -> Iterator[Said]:
        """What is said of what a line brought; where it is a slip it is no frame of those that are told in sum."""
        taking = [bssid for bssid, after in step.after.items()
                  if after.events != step.before[bssid].events and bssid not in full]
        if not taking:
            if step.line.kind == "A" and not full:
                reason = unheard(step.line.octets, {bssid: section.name for bssid, section in step.before.items()})
                if reason:
                    yield Said(What.UNTAKEN, "no network takes it", reason)
            return
        told = False
        for bssid in taking:
            for said in self.of_answers(step, Looked(step, bssid, self.past)):
                told = True
                yield said
        does = [bssid for bssid in taking if has_effect(step.before[bssid], step.after[bssid])]
        if not does and not step.sent and step.line.kind != "T":
            yield from merged([self.of_silence(Looked(step, bssid, self.past), is_slip) for bssid in taking])
        elif not told and step.line.kind != "T":
            yield from self.of_doubt(Looked(step, taking[0], self.past))

    def of_doubt(self, looked: Looked) -> Iterator[Said]:
        """What may not be meant of a frame that did something."""
        line = looked.step.line
        rule = wired_unread_kind(line.octets) if line.kind == "W" else unread_kind(looked.bssid, line.octets)
        for reason in doubts(looked, self.relay(looked), self.keys(looked)) if rule is None else ():
            yield Said(What.DOUBTFUL, DOUBT, reason)

    def of_silence(self, looked: Looked, is_slip: bool) -> Said | None:
        """Why a network that took a line did nothing."""
        line, network = looked.step.line, network_text(looked)
        if looked.step.after[looked.bssid].unread > looked.section.unread:
            rule, reason = (wired_unread_kind(line.octets), wired_unread(looked.bssid, line.octets)) \
                if line.kind == "W" else (unread_kind(looked.bssid, line.octets),
                                          unread(looked.bssid, line.octets, current_of(looked)))
            is_summed = line.kind == "A" and not is_slip and (
                self.has_sums and is_told_in_sum(looked.bssid, line.octets, rule) or
                self.is_anothers(looked.bssid, line.octets))
            return Said(What.UNREAD, f"{network} can't read it ({rule})", reason) if reason and not is_summed else None
        reason = nothing(looked)
        return Said(What.NOTHING, f"it changes nothing in {network}", reason) if reason else None

    def is_anothers(self, bssid: bytes, octets: bytes) -> bool:
        """Whether a probe request to all has another network's BSSID as Address 3, so that it is that one's alone."""
        frame = Frame(octets)
        return frame.is_management(PROBE_REQUEST) and frame.receiver == BROADCAST and frame.third != bssid and \
            frame.third in self.tables

    def of_answers(self, step: Step, looked: Looked) -> Iterator[Said]:
        """What a network refused or lost."""
        keys = self.keys(looked)
        for sent in step.sent:
            refusal = None if sent.is_wired or sent.bssid != looked.bssid else refusal_of(sent.octets)
            if refusal and step.line.kind == "A":
                station = Frame(step.line.octets).transmitter
                reason = refused(refusal, step.line.octets, keys, looked.names(), looked.bssid, looked.homes(station),
                                 looked.left()) if refusal.is_status else notice(refusal, looked, station)
                if reason and refusal.is_status:
                    self.past.refusals[looked.bssid, station] = (
                        self.past.line_number(step.line.number), re.split("[:;] ", reason.text)[0])
                if reason and refusal.is_status and refusal.code in FULL:
                    remark = self.past.remarks.leaving(looked.bssid, step.line.number)
                    reason = replace(reason, text=reason.text + remark,
                                     advice=unmask(remark) if remark else reason.advice)
                if reason:
                    yield Said(What.REFUSED, f"{network_text(looked)}: {refusal.what()}, of {address_text(station)}",
                               reason)
        for reason in losses(looked, self.relay(looked).is_on, keys):
            yield Said(What.LOST, f"{network_text(looked)} loses a unit", reason)

    def keys(self, looked: Looked) -> Keys:
        """What the configuration says of a network."""
        return Keys(self.tables.get(looked.bssid), self.config)

    def relay(self, looked: Looked) -> Relay:
        """Whether a network relays between its stations, and where that is said."""
        keys = self.keys(looked)
        entry = keys.table.entries.get("relay") if keys.table else None
        return Relay(entry is None or entry.value.worth is not False, keys.where("relay", ","))

    def numbers_told(self, what: What) -> set[int]:
        """The numbers of the lines of which this is said."""
        return {line.number for group in self.groups.values() if group.what is what for line in group.lines}

    def findings(self) -> list[Finding]:
        """What is said to a person."""
        found = []
        for what in What:
            groups = [group for group in self.groups.values() if group.what is what]
            found += [self.finding(group) for group in groups[:MOST_GROUPS]]
            rest = [line for group in groups[MOST_GROUPS:] for line in group.lines]
            if rest:
                found.append(Finding(f"{what.value}, for other reasons: {self.numbers(rest)}"))
        if self.left_out:
            found.append(Finding("from here on it wasn't looked which line did something: the program's answers are "
                                 "more than this tool looks at", place_of_octets(self.trace, self.left_out[0], None),
                                 "a shorter trace has fewer"))
        return found

    def finding(self, group: Group) -> Finding:
        """What is said of one group."""
        also = f"; so in {self.numbers(group.lines[1:])}" if len(group.lines) > 1 else ""
        lacks = group.reason.lacks
        later = self.past.comes_later(lacks, group.lines[0].number) if lacks else ""
        return Finding(f"{group.head}: {group.reason.text}{later}{also}", self.place(group), group.reason.advice)

    def place(self, group: Group) -> Place:
        """Where the first line of a group has what is said of it."""
        return place_of_octets(self.trace, group.lines[0], group.reason.span)

    def numbers(self, lines: list[Line]) -> str:
        """The numbers of lines, the first few of them."""
        numbers = [str(self.trace.first + line.number - 1) for line in lines]
        more = len(numbers) - MOST_ALSO
        text = ", ".join(numbers[:MOST_ALSO]) + (f" and {more} more" if more > 0 else "")
        return f"line{'s' * (len(numbers) > 1)} {text}"


def is_told_in_sum(bssid: bytes, octets: bytes, rule: str | None) -> bool:
    """Whether all frames of a kind are told of at once: those of QoS, those with their check sequence, and those that a
    network sent itself, but for one that is to itself too."""
    frame = Frame(octets)
    return rule == "U3" and frame.is_qos or rule == "U6" and frame.transmitter == bssid != frame.receiver or \
        ends_with_fcs(octets)


def network_text(looked: Looked) -> str:
    """A network, for a person: its name, and its address where another network has that name too."""
    name = looked.section.name
    is_one = sum(section.name == name for section in looked.step.before.values()) == 1
    return name if is_one else f"{name} ({address_text(looked.bssid)})"


def current_of(looked: Looked) -> bytes | None:
    """The network with which the sender of a frame is associated, the last one that it joined; None where it is with
    none."""
    station = Frame(looked.step.line.octets).transmitter
    homes = [bssid for bssid in looked.homes(station)
             if (row := station_in(looked.step.before[bssid], station)) and row.aid is not None]

    def when_joined(bssid: bytes) -> tuple[bool, int]:
        """Whether it is another network than the one that reads the frame, and the line by which it was joined."""
        return bssid != looked.bssid, looked.past.arrivals.get(Lack(bssid, station, True), 0)

    return max(homes, key=when_joined) if homes else None


def merged(said: list[Said | None]) -> list[Said]:
    """What is said of a line by each network that took it; once, where all say the same of a name that nobody has."""
    found = [one for one in said if one]
    if len(found) < 2 or len({(one.what, one.reason.text) for one in found}) > 1:
        return found
    first = found[0]
    head = f"it changes nothing in any of {len(found)} networks" if first.what is What.NOTHING else \
        f"{first.head}, nor can {len(found) - 1} more"
    return [Said(first.what, head, first.reason)]

