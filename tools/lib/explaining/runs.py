"""What is odd in a run that ended well: networks that heard nothing, frames that aren't read, tables and histories that
are full. All of it is told from the trace and the report; it changes nothing of the report."""
from collections import Counter
from collections.abc import Iterable, Iterator

import called
from explaining import odd_config
from explaining.check_sequences import FCS_LEN, LEAST_LEN, ends_with_fcs, octets_too_many
from explaining.configuration import Keys, networks_of
from explaining.hearing import Hearing
from explaining.in_remarks import names_cut, networks_in_remarks
from explaining.intervals import of_each_network
from explaining.kept import GroupUnits, of_kept
from explaining.likeness import likeness
from explaining.line_by_line import steps
from explaining.lines_in_one import of_joined_frames
from explaining.nothing import line_in
from explaining.outcomes import Outcomes, What, is_told_in_sum
from explaining.reason import Reason
from explaining.repairs import TWO_HIGH_BITS
from explaining.repeated import repeated
from explaining.roaming import of_roaming
from explaining.several import of_intervals, of_order
from explaining.source import Finding, Source, in_order
from explaining.spans import also_in, place_of, place_of_octets
from explaining.statuses import name_asked_for, of_full_table, of_statuses
from explaining.trace_remarks import Remarks, unmask
from explaining.unread import unread, wired_unread
from explaining.wired_types import TYPES, of_wired_types, packet_type
from frames import BROADCAST, DATA, Frame, address_text, is_group, number
from progress import Progress
from texts import Line, frames_text, read_report, trace_line

MOST_NAMED, MOST_UNITS, QOS, QOS_NULL = 3, 8, 0x80, 12
VERSION = 3  # bits of the first octet
RECEIVER, SENDER, WIRED_LEN = (4, 10), (10, 16), 14
MAKES_TRACES = called.fellow("trace-from-capture")
# What has its frame check sequence on, by the word of a line: where it was, and what to do.
WITH_SEQUENCES = {"A": ("the air", f"leave these eight digits out, as {MAKES_TRACES} does; a probe or an association "
                        "request with it is unread, and a unit is passed on with it"),
                  "W": ("a wire", "leave it out: it is passed on as a part of the unit")}
KINDS = {"U1": "shorter than a header", "U2": "of another version of the protocol",
         "U3": "of a kind that isn't read (beacons, control and action frames)",
         "U4": "encrypted, fragments, or with an HT Control field",
         "U5": "not to the access point by To DS and From DS",
         "U6": "with addresses that aren't those of a station and this network",
         "U7": "whose body hasn't the fields of its kind", "U8": "longer than a frame may be"}


def odd(config: Source, traces: list[Source], output: str, has_separator: bool,
        program: str | None = None) -> list[Finding]:
    """What is odd, in the order of the texts' lines; nothing where all is as it should be. TextError where a text can't
    be read. Where there is a program, and one trace, it is asked line by line."""
    with Progress(sum(len(trace.lines) for trace in traces)) as progress:
        progress.say("reading the report")
        tables = networks_of(config)
        hearings = [Hearing(section, tables.get(section.bssid)) for section in read_report(output)]
        by_trace = [list(lines_of(trace, progress)) for trace in traces]
        lines = [line for of_one in by_trace for line in of_one]
        for line in lines:
            for hearing in hearings:
                hearing.take(line)
        outcomes = None
        if program and len(traces) == 1:
            progress.say("asking the program line by line")
            outcomes = outcomes_of(config, traces[0], lines, hearings, program)
        progress.say("looking for what is odd")
        untaken = outcomes.numbers_told(What.UNTAKEN) if outcomes else set()
        findings = of_trace(lines, hearings, has_separator, traces, untaken)
        for hearing in hearings:
            findings += of_network(hearing, traces, outcomes, config)
            if outcomes is None:
                findings += of_reasons(hearing, {id(line): trace for trace, of_one in zip(traces, by_trace)
                                                 for line in of_one})
        findings += outcomes.findings() if outcomes else []
        names = {name for name in map(name_asked_for, lines) if name}
        had = {hearing.section.ssid for hearing in hearings}
        asked = names - had
        findings += of_intervals(traces)
        if outcomes:
            findings += of_each_network(traces[0], lines, outcomes.idle, [hearing.section for hearing in hearings])
        findings += of_order(traces, by_trace, [hearing.section.bssid for hearing in hearings])
        findings = [*odd_config.odd(config, asked, names & had), *in_remarks(config, lines, hearings, asked), *findings,
                    *of_roaming(hearings, traces, lines, outcomes.past if outcomes else None)]
        remark = Remarks(traces[0]).interval() if len(traces) == 1 else ""
        return in_order([*findings, *of_no_interval(lines, hearings, not findings, remark)], config)


def in_remarks(config: Source, lines: list[Line], hearings: list[Hearing], asked: set[bytes]) -> list[Finding]:
    """What stands in the configuration's remarks, and frames of a trace are to."""
    receivers = {address_text(line.octets[4:10]) for line in lines
                 if line.kind == "A" and len(line.octets) >= LEAST_LEN}
    receivers -= {address_text(hearing.section.bssid) for hearing in hearings}
    names = [name.decode("utf-8", "replace") for name in asked]
    return [*networks_in_remarks(config, receivers, names), *names_cut(config, names)]


def outcomes_of(config: Source, trace: Source, lines: list[Line], hearings: list[Hearing], program: str) -> Outcomes:
    """What became of single lines, by what the program answers to each."""
    outcomes = Outcomes(trace, {hearing.section.bssid: hearing.table for hearing in hearings if hearing.table}, lines,
                        config=config)
    first_left = {hearing.section.bssid: hearing.past_history[0].number for hearing in hearings if hearing.past_history}
    count = 0
    for count, step in enumerate(steps(program, config.octets, lines), 1):
        outcomes.take(step, frozenset(bssid for bssid, number in first_left.items() if step.line.number >= number))
    outcomes.left_out = lines[count:]
    return outcomes


def lines_of(trace: Source, progress: Progress) -> Iterator[Line]:
    """The lines of a trace in which the program found no fault."""
    for place, line in enumerate(trace.lines, 1):
        progress.step()
        line = line.removesuffix("\r").rstrip(" ")
        if line and not line.startswith("#"):
            yield trace_line(place, line)


def of_trace(lines: list[Line], hearings: list[Hearing], has_separator: bool, traces: list[Source],
             told: set[int]) -> list[Finding]:
    """What is odd in the trace as a whole; of the lines of these numbers it is told why no network took them."""
    if not lines:
        return [Finding("the trace is empty: no line `---` stands after the configuration" if not has_separator else
                        "the trace has no line `A`, `W` or `T`", None,
                        "write a line `---`, and the trace below it" if not has_separator else None)]
    findings = []
    frames = [line for line in lines if line.kind == "A"]
    front = next((line for line in frames if has_radiotap(line.octets)), None)
    if front and sum(has_radiotap(line.octets) for line in frames) * 2 > len(frames):
        findings.append(Finding("the frames begin with the capture's own header (radiotap), and a trace has frames "
                                "without it", place_of(traces, front, (0, number(front.octets[2:4]))),
                                f"{MAKES_TRACES} takes it off"))
    else:
        wired = wired_among(frames, hearings)
        findings += of_receivers(frames, hearings, traces, told | {line.number for line in wired})
        findings += of_ethernet(wired, hearings, traces)
    findings += of_joined_frames(lines, (hearing.section.bssid for hearing in hearings), traces)
    findings += of_check_sequences(lines, traces) + of_wired_types(lines, traces)
    return findings


def of_no_interval(lines: list[Line], hearings: list[Hearing], is_all: bool, remark: str) -> list[Finding]:
    """A trace without beacon intervals, where something is kept that one tells of, or where nothing else is odd, or
    where this is told of lines in remarks."""
    is_kept = any(hearing.section.kept for hearing in hearings)
    if not lines or any(line.kind == "T" for line in lines) or not is_kept and not is_all and not remark:
        return []
    waiting = [f"{address_text(station.address)} ({station.kept})" for hearing in hearings
               for station in hearing.section.stations if station.kept]
    told = f", so no station is told that units wait for it: {', '.join(waiting[:MOST_NAMED])}" if waiting else \
        ", and units for the group that are kept stay so" * is_kept
    return [Finding(f"no line `T` begins a beacon interval: no beacon is sent{told}{remark}", None,
                    unmask(remark) if remark else
                    "write a line `T` where a beacon interval begins" if is_kept else None)]


def of_receivers(frames: list[Line], hearings: list[Hearing], traces: list[Source], told: set[int]) -> list[Finding]:
    """No frame is to any of these networks, or none to some of them; frames that none of them took."""
    to_one = [line for line in frames if not is_group(line.octets[4:10]) and line.number not in told]
    alone = [hearing for hearing in hearings if not hearing.has_frames_of_its_own()]
    if len(alone) == len(hearings) and to_one:
        return [of_other_networks(to_one, hearings, traces)]
    findings = of_alone(alone) if len(alone) < len(hearings) else []
    return findings + of_untaken([line for line in frames if line.number not in told], hearings, traces)


def of_alone(alone: list[Hearing]) -> list[Finding]:
    """Networks to which no frame of a trace is, all at once."""
    if not alone:
        return []
    took = f"took {frames_text(alone[0].count('A'))} to all, and lines T: {alone[0].count('T')}"
    if len(alone) == 1:
        return [Finding(f"{alone[0].name}: no frame of this trace is to it, on the air or on its wire; it {took}")]
    named = ", ".join(hearing.name.removeprefix("network ") for hearing in alone)
    return [Finding(f"networks {named}: no frame of this trace is to them, on the air or on their wires; each {took}")]


def of_other_networks(to_one: list[Line], hearings: list[Hearing], traces: list[Source]) -> Finding:
    """All frames with one receiver are to others."""
    to = receivers_text(line for line in to_one if len(line.octets) >= LEAST_LEN)
    bssids = ", ".join(address_text(hearing.section.bssid) for hearing in hearings)
    return Finding(f"no frame of this trace is to a network of this configuration: its BSSIDs are {bssids}",
                   place_of(traces, to_one[0], RECEIVER),
                   f"the trace's frames are to {to}" if to else
                   f"the trace's frames have fewer than {LEAST_LEN} octets")


def receivers_text(frames: Iterable[Line]) -> str:
    """To whom most of these frames are, and how many of them."""
    receivers = Counter(line.octets[4:10] for line in frames)
    return ", ".join(f"{address_text(address)} ({count})" for address, count in receivers.most_common(MOST_NAMED))


def has_radiotap(octets: bytes) -> bool:
    """Whether octets may begin with a radiotap header: version 0, padding 0, a length, and a frame behind it."""
    length = number(octets[2:4])
    return octets[:2] == b"\0\0" and 8 <= length <= 64 and len(octets) >= length + 10 and octets[length] & 3 == 0


def of_untaken(frames: list[Line], hearings: list[Hearing], traces: list[Source]) -> list[Finding]:
    """Frames on the air that no network took."""
    receivers = {BROADCAST} | {hearing.section.bssid for hearing in hearings}
    untaken = [line for line in frames if line.octets[4:10] not in receivers]
    if not untaken:
        return []
    whole = [line for line in untaken if len(line.octets) >= LEAST_LEN]
    reasons = [f"Address 1 is neither a network's BSSID nor all: {receivers_text(whole)}"] * bool(whole)
    reasons += [f"fewer than {LEAST_LEN} octets: {len(untaken) - len(whole)}"] * (len(whole) < len(untaken))
    names = ", ".join(f"{address_text(hearing.section.bssid)} ({hearing.section.name})"
                      for hearing in hearings[:MOST_NAMED])
    return [Finding(f"frames on the air that no network took: {len(untaken)} of {len(frames)} ({'; '.join(reasons)})"
                    f"{also_in(untaken, traces)}", place_of(traces, untaken[0], RECEIVER),
                    f"the networks have {names}; `{MAKES_TRACES} --heard-only` leaves other frames out of a trace")]


def wired_among(frames: list[Line], hearings: list[Hearing]) -> list[Line]:
    """Frames on the air that are frames of a wire, by their type and an address before it that occurs in the run, or by
    their type and what makes of their first octets no frame of the air."""
    known = {BROADCAST} | {hearing.section.bssid for hearing in hearings}
    known |= {station.address for hearing in hearings for station in hearing.section.stations}
    return [line for line in frames if line.octets[12:WIRED_LEN] in TYPES and (
        known & {line.octets[:6], line.octets[6:12]} or not likeness(line.octets, known) and (
            line.octets[0] & VERSION or packet_type(line.octets[WIRED_LEN:]) == line.octets[12:WIRED_LEN].hex()))]


def of_ethernet(wired: list[Line], hearings: list[Hearing], traces: list[Source]) -> list[Finding]:
    """Frames on the air that are frames of a wire."""
    if not wired:
        return []
    bssid = address_text(hearings[0].section.bssid)
    begin = "begins as Ethernet's does" if len(wired) == 1 else "begin as Ethernet's do"
    return [Finding(f"{frames_text(len(wired))} behind `A`, for what was heard on the air, {begin}: "
                    "with two addresses and a type", place_of(traces, wired[0], (0, WIRED_LEN)),
                    f"a frame that came over the wire of a network stands behind `W` and its BSSID, as `W {bssid}`")]


def of_check_sequences(lines: list[Line], traces: list[Source]) -> list[Finding]:
    """Frame check sequences that were left on."""
    findings = []
    for kind, (where, advice) in WITH_SEQUENCES.items():
        frames = [line for line in lines if line.kind == kind]
        with_fcs = [line for line in frames if ends_with_fcs(line.octets)]
        if with_fcs:
            findings.append(Finding(f"the last four octets of {len(with_fcs)} of {len(frames)} frames on {where} are "
                                    "their frame check sequence, and a trace has frames without it",
                                    last_octets(traces, with_fcs[0]), advice))
        elif kind == "A":
            findings += of_long_frames(frames, traces, advice)
    return findings


def of_long_frames(frames: list[Line], traces: list[Source], advice: str) -> list[Finding]:
    """Frames on the air that are longer than they say by a check sequence, where most that say their length are."""
    more = [(line, octets_too_many(line.octets)) for line in frames]
    long = [line for line, by in more if by == FCS_LEN]
    if len(long) <= sum(by == 0 for _, by in more):
        return []
    return [Finding(f"{len(long)} of {len(frames)} frames on the air are four octets longer than they say: their frame "
                    "check sequence may be on, and a trace has frames without it", last_octets(traces, long[0]),
                    advice)]


def last_octets(traces: list[Source], line: Line):
    """The place of a line's last four octets."""
    if len(traces) != 1:
        return None
    text = traces[0].line(line.number).rstrip()
    begin = len(text)
    digits = 0
    while digits < 2 * FCS_LEN and begin:
        begin -= 1
        digits += text[begin] != " "
    return traces[0].place(line.number, begin + 1, len(text) - begin)


def of_network(hearing: Hearing, traces: list[Source], outcomes: Outcomes | None, config: Source) -> list[Finding]:
    """What is odd in one network; what is told of single lines isn't told of their sum."""
    section, findings = hearing.section, []
    if hearing.past_history:
        first = hearing.past_history[0]
        findings.append(Finding(f"{hearing.name}: its history is full, `max_events = {section.events}`: it takes "
                                f"nothing more from this line on; left out: {len(hearing.past_history)}",
                                place_of(traces, first), "as many as the trace has lines are always enough" +
                                (f"; `max_events` stands{where}" if
                                 (where := Keys(hearing.table, config).where("max_events")) else "")))
    findings += of_unread(hearing, traces, outcomes) + of_full_table(hearing)
    findings += [] if outcomes else of_statuses(hearing, len(traces) > 1)
    if section.lost and not outcomes:
        quota = hearing.limit("quota")
        findings.append(Finding(f"{hearing.name}: units lost: {section.lost} (above `quota = {quota}`, too old where "
                                "units age, or without a wired form)"))
    unread = {id(line) for lines in hearing.unread.values() for line in lines}
    again = repeated([line for line in hearing.heard if id(line) not in unread])
    if again:
        findings.append(Finding(f"{hearing.name}: frames sent again: {len(again)} (with Retry 1 and the sequence "
                                f"number that came before: they are taken a second time){also_in(again, traces)}",
                                place_of(traces, again[0], (1, 2)),
                                f"{MAKES_TRACES} leaves them out"))
    return findings + of_kept(hearing.name, section, hearing.heard, hearing.limit("dtim"),
                              outcomes.past if outcomes else None,
                              group_units(hearing, traces, outcomes, config))


def group_units(hearing: Hearing, traces: list[Source], outcomes: Outcomes | None, config: Source) -> GroupUnits:
    """Where the units stand that a network keeps for the group, and where its `dtim` does."""
    lines = outcomes.past.group_units.get(hearing.section.bssid, []) if outcomes else []
    entry = hearing.table.entries.get("dtim") if hearing.table else None
    at = config.at(entry.begin, entry.end).line if entry else 0
    period = f" (`dtim = {hearing.limit('dtim')}` in {config.name}, line {config.first + at - 1})" if entry else ""
    if not lines:
        return GroupUnits(None, "", period)
    numbers = ", ".join(str(traces[0].first + line.number - 1) for line in lines[:MOST_UNITS])
    more = f" and {len(lines) - MOST_UNITS} more" * (len(lines) > MOST_UNITS)
    span = (0, 6) if lines[0].kind == "W" else (16, 22)
    return GroupUnits(place_of(traces, lines[0], span), f", of lines {numbers}{more}" * (len(lines) > 1), period)


def of_unread(hearing: Hearing, traces: list[Source], outcomes: Outcomes | None) -> list[Finding]:
    """What a network heard and couldn't read, and why, but for single lines of which that is told."""
    count = sum(map(len, hearing.unread.values()))
    if not count or count != hearing.section.unread:
        return []
    findings = []
    single = outcomes.numbers_told(What.UNREAD) if outcomes else set()
    data = [line for line in hearing.heard if line.kind == "A" and Frame(line.octets).type == DATA]
    summed = {kind: [line for line in lines if line.kind == "A" and line.number not in single]
              for kind, lines in hearing.unread.items()}
    qos = [line for line in summed.get("U3", []) if Frame(line.octets).is_qos]
    if qos:
        all_data = "all" if len(qos) == len(data) else f"{len(qos)} of {len(data)}"
        findings.append(Finding(f"{hearing.name}: data frames of QoS (WMM), which it can't read (U3): {all_data}"
                                f"{also_in(qos, traces)}", place_of(traces, qos[0], (0, 2)),
                                f"let the stations do without it; {instead_of_qos(hearing, qos[0], outcomes)}"))
    own = [line for line in summed.get("U6", []) if Frame(line.octets).transmitter == hearing.section.bssid]
    asked = [line for line in summed.get("U6", [])
             if outcomes and outcomes.is_anothers(hearing.section.bssid, line.octets)]
    if own:
        findings.append(Finding(f"{hearing.name}: frames that it sent itself, unread (U6): {len(own)}"
                                f"{also_in(own, traces)}",
                                place_of(traces, own[0], SENDER), "a trace has what the access point heard alone"))
    with_fcs = [line for lines in summed.values() for line in lines if ends_with_fcs(line.octets)]
    told = {id(line) for line in (*qos, *own, *asked, *with_fcs)}
    rest = {kind: [line for line in lines if id(line) not in told] for kind, lines in hearing.unread.items()}
    for kind, lines in sorted(rest.items()):
        if outcomes and any(line.number not in single for line in lines):
            findings.append(Finding(f"{hearing.name}: events unread ({kind}): {len(lines)} of {len(hearing.heard)} "
                                    f"({KINDS[kind]}){also_in(lines, traces)}", place_of(traces, lines[0])))
    return findings


def instead_of_qos(hearing: Hearing, line: Line, outcomes: Outcomes | None) -> str:
    """What to write for a frame of QoS: for the QoS Null of a station that dozes already, by which it asks for what is
    kept (a trigger frame), a PS-Poll."""
    frame, begin = Frame(line.octets), line.octets[:2]
    station = next((row for row in hearing.section.stations if row.address == frame.transmitter), None)
    since = line_in(outcomes.past.dozing.get((hearing.section.bssid, frame.transmitter), "")) if outcomes else 0
    number = outcomes.past.line_number(line.number) if outcomes else 0
    if frame.subtype == QOS_NULL and frame.power_management and station and station.aid and 0 < since < number:
        aid = (station.aid | TWO_HIGH_BITS).to_bytes(2, "little").hex()
        return "a station that dozes asks by it for what is kept, and here by a PS-Poll: write " \
            f"`A a400 {aid} {hearing.section.bssid.hex()} {frame.transmitter.hex()}`"
    return f"in a trace write `{begin[0] & ~QOS:02x}{begin[1]:02x}` for `{begin.hex()}`, and leave out the two " \
        "octets of QoS Control behind the header"


def of_reasons(hearing: Hearing, homes: dict[int, Source]) -> list[Finding]:
    """Why a network can't read frames of traces that weren't asked line by line; `homes` are the traces of the lines.
    QoS, check sequences and frames that a network sent are told of in sum."""
    bssid, findings = hearing.section.bssid, []
    for kind, lines in sorted(hearing.unread.items()):
        groups: dict[str, list[tuple[Line, Reason]]] = {}
        for line in lines:
            reason = unread(bssid, line.octets) if line.kind == "A" else wired_unread(bssid, line.octets)
            if reason and not (line.kind == "A" and is_told_in_sum(bssid, line.octets, kind)):
                groups.setdefault(reason.text, []).append((line, reason))
        for of_one in list(groups.values())[:MOST_NAMED]:
            (first, reason), more = of_one[0], len(of_one) - 1
            findings.append(Finding(f"{hearing.name} can't read it ({kind}): {reason.text}" +
                                    f"; so in {more} more frame{'s' * (more > 1)}" * (more > 0),
                                    place_of_octets(homes[id(first)], first, reason.span), reason.advice))
        rest = sum(map(len, list(groups.values())[MOST_NAMED:]))
        findings += [Finding(f"{hearing.name}: events unread ({kind}) for other reasons: {rest}")] * (rest > 0)
    return findings
