"""Each line of a trace in words, and what it brought: the frames that the program answered, in words and in octets, and
what changed in its tables."""
from collections.abc import Iterator

from explaining.changes import changes
from explaining.configuration import networks_of
from explaining.line_by_line import Sent, Step, steps
from explaining.outcomes import Outcomes, Said
from explaining.past import Past
from explaining.source import Source
from explaining.whole import Texts
from frames import BROADCAST
from in_words import heard_text, sent_text, wired_text
from texts import Section, TextError, read_trace
from writing import grouped

MOST_DIGITS, ELLIPSIS = 100, "\u2026"  # of a line of the trace that are shown
NOTHING = "nothing is sent, and nothing changes"


def shown(texts: Texts) -> Iterator[str]:
    """The lines for a person. TextError where these texts aren't one configuration and one trace."""
    if texts.program is None or texts.config is None or len(texts.traces) != 1 or texts.words[:1] not in ([], ["run"]):
        raise TextError("--lines takes a configuration and one trace, and both have to be files that can be read twice")
    trace = texts.traces[0]
    if trace is None:
        raise TextError("--lines reads a trace twice, and this one can be read once")
    lines = read_trace(trace.text)
    outcomes = Outcomes(trace, networks_of(texts.config), lines, has_sums=False, config=texts.config)
    count = 0
    for count, step in enumerate(steps(texts.program, texts.config.octets, lines), 1):
        yield from of_step(trace, step, list(outcomes.of_step(step)), outcomes.past)
        outcomes.take(step)
    if count < len(lines):
        yield f"and {len(lines) - count:,} more lines, which are too many to be shown"


def of_step(trace: Source, step: Step, told: list[Said], past: Past) -> Iterator[str]:
    """What is shown of one line."""
    yield f"{trace.name}:{trace.first + step.line.number - 1}: {line_text(step)}"
    written = trace.line(step.line.number).strip()
    yield f"    {written[:MOST_DIGITS]}{ELLIPSIS * (len(written) > MOST_DIGITS)}"
    yield from brought(step)
    for said in told:
        later = past.asks_later(said.reason.lacks, step.line.number) if said.reason.lacks else ""
        yield f"  {said.head}: {said.reason.text}{later}"
        yield from [f"    {said.reason.advice}"] * (said.reason.advice is not None)
    yield ""


def line_text(step: Step) -> str:
    """What a line says, in words."""
    line = step.line
    if line.kind == "T":
        return "a beacon interval begins"
    if line.kind == "W":
        return f"{wired_text(line.octets)}, came over the wire of {name_of(step.before, line.bssid)}"
    receiver = line.octets[4:10]
    to = "all" if receiver == BROADCAST else name_of(step.before, receiver)
    return f"{heard_text(line.octets)}; to {to}" if len(receiver) == 6 else heard_text(line.octets)


def name_of(sections: dict[bytes, Section], bssid: bytes | None) -> str:
    """A network's name, or an address that no network has."""
    section = sections.get(bssid or b"")
    return section.name if section else f"{(bssid or b'').hex(':')}, which is no network"


def brought(step: Step) -> Iterator[str]:
    """What came of a line."""
    told = []
    for bssid, after in step.after.items():
        for sent in (sent for sent in step.sent if sent.bssid == bssid):
            told += sent_lines(after.name, sent)
        told += [f"  {after.name}: {change}" for change in changes(step.before[bssid], after)]
    yield from told or [f"  {NOTHING}"]


def sent_lines(name: str, sent: Sent) -> list[str]:
    """A frame that a network sent."""
    if sent.is_wired:
        return [f"  {name} puts on its wire: {wired_text(sent.octets)}", f"    wire {sent.octets.hex()}"]
    return [f"  {name} sends: {sent_text(sent.octets)}", f"    air {grouped(sent.octets)}"]
