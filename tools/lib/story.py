"""What each line of a trace brought about in one network, told from the network's section of the report.

The report says what was sent and what stands at the end, not when. Here the lines are gone through in order: the
answers are taken from the section's frames, one after the other, and what no frame says (who dozes, for whom a unit is
kept) is followed by the rules of docs/PROTOCOL.md, with what the network's configuration says of units. At the end all
frames have to be used up and the section's counts and stations have to be those that came of it. So a report of another
trace is refused.
"""
from typing import NamedTuple

from frames import (ASSOCIATION_REQUEST, ASSOCIATION_RESPONSE, AUTHENTICATION, BEACON, BEACON_FIXED_LEN, DATA,
                    DEAUTHENTICATION, DISASSOCIATION, PROBE_REQUEST, PROBE_RESPONSE, REASSOCIATION_REQUEST,
                    REASSOCIATION_RESPONSE, TIM, Frame, elements, first_of, is_group, number, tim_bits)
from progress import Progress
from reading import MODE, POLL, Unit, hears, request_of, unit_from_wire, wired_form
from texts import Options, options_of

GROUP, WIRE = "group", "wire"
AUTHENTICATED, ASSOCIATED, DOZING = "authenticated", "associated", "dozing"
MOST_NAMED = 3
# What a configuration may say of relaying and aging, the most usual first.
CHOICES = ((True, False), (False, False), (True, True), (False, True))
# What stands for a request in a picture: probe, authentication, joining, reassociation, departure, data, poll.
LETTERS = {PROBE_REQUEST: "P", AUTHENTICATION: "A", ASSOCIATION_REQUEST: "J", REASSOCIATION_REQUEST: "R",
           DISASSOCIATION: "D", DEAUTHENTICATION: "D", MODE: "U", POLL: "S"}
RESPONSES = {ASSOCIATION_REQUEST: ASSOCIATION_RESPONSE, REASSOCIATION_REQUEST: REASSOCIATION_RESPONSE}

# The mark of a line that brought nothing.
NOTHING = "nothing"
# The text of a mark of a unit that the bridge handed to the program: it went back, and no wire brought it.
WENT_BACK = "back"
# That of a unit behind which further ones wait, as its frame says (More Data).
MORE = "more"
# What a network hears, in kinds.
REQUESTS, DATA_FRAMES, POLLS, FROM_WIRE, UNREAD = "requests", "data", "polls", "from the wire", "unread"


class Mismatch(Exception):
    """A report that isn't that of this trace."""


class Mark(NamedTuple):
    """Something that a line brought about: `whom` is a station's address, `GROUP`, or None for the network itself. Of a
    request `letter` says which; of a unit `sender` is the station that sent it, or `WIRE`."""

    line: int
    what: str
    whom: object
    text: str = ""
    letter: str = ""
    sender: object = None


class Span(NamedTuple):
    """The state of a station from one line up to another, or to the end where that is None."""

    station: bytes
    state: str
    begins: int
    ends: object
    aid: object


class Heard(NamedTuple):
    """A frame that a network took: of which kind, and who sent it or, of one on the wire, to whom it is."""

    line: int
    kind: str
    whom: object


class Kept(NamedTuple):
    """A unit that is kept for a station or the group, and the clock and the line at which it came."""

    whom: object
    unit: Unit
    clock: int
    line: int
    sender: object


class Keeping(NamedTuple):
    """A unit that was kept from one line up to another, or to the end where that is None, and how that ended:
    `delivered`, `dropped`, `lost`, or nothing."""

    whom: object
    begins: int
    ends: object
    how: str
    sender: object


class Link:
    """How far a station has come."""

    def __init__(self):
        self.aid, self.listen, self.doze = None, 0, False

    def state(self):
        """The word for it."""
        if self.aid is None:
            return AUTHENTICATED
        return DOZING if self.doze else ASSOCIATED


class Story:
    """One network over the lines of a trace."""

    def __init__(self, section, options):
        self.section, self.options = section, options
        self.links, self.kept = {}, []
        self.clock = self.events = self.unread = self.lost = self.most_kept = 0
        self.sent = self.wired = 0
        self.line = None
        self.marks, self.spans, self.open, self.keepings = [], [], {}, []
        self.frames, self.wires, self.heard = [], [], []

    def take(self, line):
        """What one line brings about, where the network takes it and its history isn't full."""
        if self.events == self.section.events:
            return
        bssid = self.section.bssid
        if line.kind == "A" and not hears(bssid, line.octets) or line.kind == "W" and line.bssid != bssid:
            return
        self.events, self.line = self.events + 1, line.number
        if line.kind == "T":
            self.begin_interval()
        elif line.kind == "W":
            unit = unit_from_wire(line.octets)
            self.heard.append(Heard(line.number, FROM_WIRE if unit else UNREAD, line.octets[:6]))
            self.deliver(unit, False) if unit else self.count_unread(None)
            self.note_silence(WIRE, "")
        else:
            request = request_of(bssid, line.octets)
            kind = {MODE: DATA_FRAMES, POLL: POLLS}.get(request.kind, REQUESTS) if request else UNREAD
            self.heard.append(Heard(line.number, kind, line.octets[10:16]))
            self.answer(request) if request else self.count_unread(line.octets[10:16])
            if request:
                self.note_state(request.station)
                self.note_silence(request.station, LETTERS[request.kind])

    def mark(self, what, whom=None, text="", letter="", sender=None):
        """Remembers what this line brought about."""
        self.marks.append(Mark(self.line, what, whom, text, letter, sender))

    def end_keeping(self, kept, how, text=""):
        """A unit isn't kept any more."""
        self.mark(how, kept.whom, text)
        self.keepings.append(Keeping(kept.whom, kept.line, self.line, how, kept.sender))

    def count_unread(self, station):
        """A frame that isn't read."""
        self.unread += 1
        self.mark("unread", station)

    def pop(self, is_it, what):
        """The next frame of the section, which has to be this one."""
        if self.sent < len(self.section.air) and is_it(Frame(self.section.air[self.sent])):
            self.frames.append((self.line, self.section.air[self.sent]))
            self.sent += 1
            return Frame(self.section.air[self.sent - 1])
        raise Mismatch(f"line {self.line} of the trace brings {what}, and the next frame of the section isn't that")

    def pop_management(self, subtype, station, what):
        """The next frame, a management frame to this station."""
        return self.pop(lambda frame: frame.is_management(subtype) and frame.receiver == station, what)

    def pop_unit(self, unit):
        """The next frame, with this unit."""
        def is_it(frame):
            return frame.type == DATA and Unit(frame.receiver, frame.third, frame.body) == unit
        return self.pop(is_it, "a unit")

    def begin_interval(self):
        """A beacon, and the group's units after one with a DTIM. Where units age, the old ones are lost before it."""
        if self.options.aging:
            self.age()
        self.clock += 1
        beacon = self.pop(lambda frame: frame.is_management(BEACON), "a beacon")
        listed = first_of(elements(beacon.body[BEACON_FIXED_LEN:]) or [], TIM)
        if listed is None or len(listed) < 4:
            raise Mismatch(f"the beacon of line {self.line} of the trace has no TIM")
        count, _, group, aids = tim_bits(listed)
        self.mark("beacon" if count else "DTIM beacon", None, told_of(aids, group))
        if count == 0:
            self.release(GROUP)

    def age(self):
        """Units are lost that were kept for a station for more beacon intervals than its listen interval."""
        old = [kept for kept in self.kept
               if kept.whom != GROUP and self.clock - kept.clock > self.links[kept.whom].listen]
        for kept in old:
            self.kept.remove(kept)
            self.lost += 1
            self.end_keeping(kept, "lost")

    def release(self, whom, most=None):
        """Units that were kept for somebody are sent, in order of arrival."""
        for kept in [kept for kept in self.kept if kept.whom == whom][:most]:
            frame = self.pop_unit(kept.unit)
            self.kept.remove(kept)
            self.end_keeping(kept, "delivered", MORE if frame.more_data else "")

    def drop(self, station):
        """No unit is kept for a station any more."""
        for kept in [kept for kept in self.kept if kept.whom == station]:
            self.end_keeping(kept, "dropped")
        self.kept = [kept for kept in self.kept if kept.whom != station]

    def answer(self, request):
        """What a request of a station brings about."""
        station, link = request.station, self.links.get(request.station)
        if request.kind == PROBE_REQUEST:
            if request.names in (b"", self.section.ssid):
                self.pop_management(PROBE_RESPONSE, station, "a probe response")
                self.mark("answered", station, letter=LETTERS[PROBE_REQUEST])
        elif request.kind == AUTHENTICATION:
            self.authenticate(station)
        elif request.kind == DEAUTHENTICATION:
            self.leave(station, link is not None)
        elif link is None or link.aid is None and request.kind not in (*RESPONSES, DISASSOCIATION):
            self.refuse_class(request, link)
        elif request.kind in RESPONSES:
            self.associate(request, link)
        elif request.kind == DISASSOCIATION:
            self.disassociate(station, link)
        elif request.kind == POLL:
            if link.doze and link.aid == request.aid and any(kept.whom == station for kept in self.kept):
                self.mark("answered", station, letter=LETTERS[POLL])
                self.release(station, 1)
        else:
            self.set_mode(request, link)

    def refuse_class(self, request, link):
        """A request of a class that the station's state doesn't allow."""
        subtype = DEAUTHENTICATION if link is None else DISASSOCIATION
        frame = self.pop_management(subtype, request.station, "a refusal")
        self.mark("turned away", request.station, str(number(frame.body[:2])), LETTERS[request.kind])

    def authenticate(self, station):
        """An authentication: the status stands in the answer."""
        frame = self.pop_management(AUTHENTICATION, station, "an authentication")
        status, letter = number(frame.body[4:6]), LETTERS[AUTHENTICATION]
        if status:
            self.mark("refused", station, str(status), letter)
            return
        self.mark("answered", station, letter=letter)
        self.drop(station)
        self.links.setdefault(station, Link()).__init__()

    def associate(self, request, link):
        """An association or a reassociation: the status and the identifier stand in the answer."""
        frame = self.pop_management(RESPONSES[request.kind], request.station, "an association response")
        status, letter = number(frame.body[2:4]), LETTERS[request.kind]
        if status:
            self.mark("refused", request.station, str(status), letter)
            return
        self.drop(request.station)
        link.aid, link.listen, link.doze = number(frame.body[4:6]) & 0x3FFF, request.listen, False
        self.mark("answered", request.station, f"aid {link.aid}", letter)

    def leave(self, station, is_known):
        """A deauthentication."""
        self.drop(station)
        if is_known:
            del self.links[station]
            self.mark("left", station, letter="D")

    def disassociate(self, station, link):
        """A disassociation."""
        self.drop(station)
        if link.aid is not None:
            link.__init__()
            self.mark("left", station, letter="D")

    def set_mode(self, request, link):
        """A data frame of an associated station: its mode, then its unit."""
        woke, link.doze = link.doze and not request.doze, request.doze
        if woke:
            self.release(request.station)
        if request.unit and self.options.relay:
            self.deliver(request.unit, True)
        elif request.unit:
            self.put_on_wire(request.unit)

    def deliver(self, unit, from_air):
        """A unit on its way: at once, kept or lost, and on the wire."""
        link, sender = self.links.get(unit.destination), unit.source if from_air else WIRE
        if link and link.aid is not None:
            self.keep_or_send(unit, unit.destination, link.doze, sender)
            return
        if is_group(unit.destination):
            waits = any(other.doze for other in self.links.values()) or any(kept.whom == GROUP for kept in self.kept)
            self.keep_or_send(unit, GROUP, waits, sender)
        if from_air:
            self.put_on_wire(unit)

    def keep_or_send(self, unit, whom, waits, sender):
        """A unit for somebody on the air."""
        quota = self.options.quota
        if not waits:
            self.pop_unit(unit)
            self.mark("sent", whom, sender=sender)
        elif quota is not None and len(self.kept) >= quota:
            self.lost += 1
            self.mark("lost", whom, sender=sender)
        else:
            self.kept.append(Kept(whom, unit, self.clock, self.line, sender))
            self.most_kept = max(self.most_kept, len(self.kept))
            self.mark("kept", whom, sender=sender)

    def put_on_wire(self, unit):
        """A unit for the wire."""
        octets = wired_form(unit)
        if octets is None:
            self.lost += 1
            self.mark("lost", None, sender=unit.source)
            return
        if self.section.wire[self.wired:self.wired + 1] != [octets]:
            raise Mismatch(f"line {self.line} of the trace puts a unit on the wire, and the section's next isn't that")
        self.wired += 1
        self.wires.append((self.line, octets))
        self.mark("wired", sender=unit.source)

    def without(self, lines):
        """Forgets what was heard and sent by the lines of these numbers, but for the states that came of it."""
        for name in ("marks", "heard", "frames", "wires"):
            setattr(self, name, [found for found in getattr(self, name) if found[0] not in lines])
        return self

    def tell_handed_back(self, lines):
        """Says of what came by the lines of these numbers that the bridge handed it in, and no wire brought it."""
        self.marks = [mark._replace(text=WENT_BACK) if mark.line in lines else mark for mark in self.marks]
        return self

    def note_silence(self, whom, letter):
        """Marks a line that this network read and that brought nothing: neither a frame, nor another state."""
        is_marked = bool(self.marks) and self.marks[-1].line == self.line
        has_ended = bool(self.spans) and self.spans[-1].ends == self.line
        if not is_marked and not has_ended and self.open.get(whom, (None, None, None))[2] != self.line:
            self.mark(NOTHING, whom, letter=letter)

    def note_state(self, station):
        """Where a request has changed the state of its station, ends the span of that and begins a new one."""
        link, before = self.links.get(station), self.open.get(station)
        now = (link.state(), link.aid) if link else None
        if before and before[:2] != now:
            state, aid, begins = self.open.pop(station)
            self.spans.append(Span(station, state, begins, self.line, aid))
        if now:
            self.open.setdefault(station, (*now, self.line))

    def end(self):
        """Compares what came of it with the section."""
        section = self.section
        rows = [(station, link.aid, link.listen, link.doze, sum(kept.whom == station for kept in self.kept))
                for station, link in self.links.items()]
        found = [self.events, self.clock, self.unread, self.lost, len(self.kept), rows, self.sent, self.wired]
        wanted = [section.events, section.clock, section.unread, section.lost, section.kept,
                  [tuple(row) for row in section.stations], len(section.air), len(section.wire)]
        names = ["events", "clock", "unread", "lost", "kept", "stations", "frames on the air", "frames on the wire"]
        for name, mine, theirs in zip(names, found, wanted):
            if mine != theirs:
                raise Mismatch(f"the report's {name} aren't those that the trace brings: {theirs}, not {mine}")
        self.spans += [Span(station, state, begins, None, aid) for station, (state, aid, begins) in self.open.items()]
        self.spans.sort(key=lambda span: span.begins)
        self.keepings += [Keeping(kept.whom, kept.line, None, "", kept.sender) for kept in self.kept]
        self.keepings.sort(key=lambda keeping: keeping.begins)
        return self


def told_of(aids, group):
    """For whom a TIM says that units wait, in a few words."""
    first = [str(aid) for aid in sorted(aids)[:MOST_NAMED]]
    more = [f"+{len(aids) - MOST_NAMED}"] if len(aids) > MOST_NAMED else []
    names = ["aid " + ", ".join(first + more)] if aids else []
    return ", ".join(names + ["group"] * group)


def stories(sections, lines, config, progress=None):
    """The stories of all networks of a report, whose configuration may not be known (None). Mismatch where one can't be
    told, or the configuration is of other networks."""
    progress = progress or Progress(0)
    if config is None:
        return [told(section, lines, progress) for section in sections]
    options = options_of(config)
    if [section.bssid for section in sections] != list(options):
        raise Mismatch("the networks of the report aren't those of the configuration")
    return [told(section, lines, progress, options[section.bssid]) for section in sections]


def told(section, lines, progress, options=None):
    """The story of a network. Where its options aren't known, they are those by which the report can be explained: the
    first of `CHOICES`, and a quota. Mismatch where there are none."""
    if options is not None:
        return follow(Story(section, options), lines, progress)
    faults = []
    for relay, aging in CHOICES:
        try:
            return told_with_a_quota(section, lines, progress, relay, aging)
        except Mismatch as fault:
            faults.append(fault)
    raise faults[0]


def told_with_a_quota(section, lines, progress, relay, aging):
    """The story of a network with some quota. It is found by trying less and less than would have been kept without
    end, where units were lost."""
    quota = None
    while True:
        story = Story(section, Options(quota, relay, aging))
        try:
            return follow(story, lines, progress)
        except Mismatch:
            quota = (story.most_kept if quota is None else quota) - 1
            if section.lost == 0 or quota < 0:
                raise


def follow(story, lines, progress):
    """Goes through the lines, and compares what came of them."""
    progress.restart()
    try:
        for line in lines:
            story.take(line)
            progress.step()
        return story.end()
    except Mismatch as fault:
        raise Mismatch(f"network {story.section.bssid.hex(':')}: {fault}") from None
