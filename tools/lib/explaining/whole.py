"""From the program's words to what is said of its answer: finds the texts that it was given, and who explains what."""
import glob
import os
import re
import shlex
from dataclasses import dataclass, field

import called
from explaining import (as_they_come, config, configuration, in_remarks, no_key, no_toml, octet_records, odd_config,
                        other_lines, other_programs, runs, trace_lines, words)
from explaining.answers import Answer, Fault, read_fault, said_already
from explaining.keys import LISTED
from explaining.line_by_line import Unanswered
from explaining.separators import TRACE_LINE
from explaining.source import Finding, Source, quoted
from explaining.toml_scan import NoToml
from texts import TextError

SEPARATOR = b"---"
# A configuration that has more octets, or more in a line, isn't explained where somebody waits for it: that may take a
# time that grows with the square of a text's length.
MOST_OCTETS, MOST_IN_LINE = 16_384, 1_000
STANDARD_INPUT, ENDED_WELL = "standard input", "the program ended well"
# How many faults of lines are looked at, how many causes are told of them, and how many numbers behind each.
MOST_LIVE_FAULTS, MOST_LIVE_GROUPS, MOST_NUMBERS = 200, 5, 10
QUOTED = re.compile("`[^`]*`")
OWN_KEY = re.compile(rf"(?:{'|'.join(LISTED)}) *=|\[\[network\]\]")
NOTHING_FOUND = f"no reason was found: {called.document('FORMATS.md')} says of each fault what to look at"


@dataclass
class Texts:
    """What the program was given: its words, a configuration and traces; None for what can't be read. `records` is what
    `live --octets` reads, None elsewhere. `program` answers the lines once more, where it may be asked."""

    words: list[str]
    config: Source | None = None
    traces: list[Source | None] = field(default_factory=list)
    is_joined: bool = False
    has_separator: bool = True
    records: bytes | None = None
    program: str | None = None


def split_joined(octets: bytes) -> tuple[bytes, bytes | None, int]:
    """A configuration and a trace with a line `---` between, as the program splits them, and the number of the trace's
    first line; None for a trace where there is no such line."""
    lines = octets.split(b"\n")
    if SEPARATOR not in lines:
        return octets, None, len(lines) + 1
    at = lines.index(SEPARATOR)
    before = b"".join(line + b"\n" for line in lines[:at])
    return before, b"\n".join(lines[at + 1:]), at + 2


def texts_of(given_words: list[str], given: bytes | None, name: str = STANDARD_INPUT) -> Texts:
    """The texts of a run, by its words and its standard input, which has this name."""
    texts = Texts(given_words)
    if not given_words:
        first, second, number = split_joined(given or b"")
        texts.config, texts.is_joined = Source(name, first), True
        texts.traces = [Source(name, second or b"", number)]
        texts.has_separator = second is not None
        return texts
    if given_words[0] not in words.SUBCOMMANDS:
        return texts
    names = list(given_words[1:])
    if given_words[0] == "live" and words.OCTETS in names[:names.index("--") if "--" in names else None]:
        texts.records = given or b""
        names.remove(words.OCTETS)
    if "--" in names:
        names.remove("--")
    read = [source_of(file) for file in names]
    texts.config = read[0] if read else None
    texts.traces = read[1:]
    if given_words[0] == "live":
        texts.traces = [Source(name, given or b"")] if texts.records is None else []
    return texts


def source_of(name: str) -> Source | None:
    """A file's text, or None where it can't be read, or only once, as a pipe."""
    if os.path.exists(name) and os.path.samefile(name, os.devnull):
        return Source(name, b"")
    if not os.path.isfile(name):
        return None
    try:
        with open(name, "rb") as file:
            return Source(name, file.read())
    except (OSError, ValueError):
        return None


def explain(texts: Texts, answer: Answer) -> list[str]:
    """The lines that a person reads: what the program said, and why."""
    if answer.fault is None and answer.status != 0:
        told = answer.errors.strip().splitlines()[-1:] or ["nothing"]
        return [f"the program ended with status {answer.status}, and said: {told[0]}",
                "this is no answer of the program: it may have been ended by a signal, or by the system"]
    if answer.fault is None:
        return of_good_run(texts, answer)
    return [answer.fault.said, *of_findings(of_all_lines(texts, answer.fault) or [Finding(NOTHING_FOUND)])]


def of_all_lines(texts: Texts, fault: Fault) -> list[Finding]:
    """The reasons for the first fault, and of a trace's line the others that have one too."""
    findings, trace = findings_of(texts, fault), texts.traces[0] if len(texts.traces) == 1 else None
    if fault.code == "C1" and texts.is_joined and trace and len(findings) == 1:
        return [other_lines.around_both(findings[0], trace)]
    if fault.line is None or texts.program is None or texts.config is None or trace is None or \
            len(trace.octets) > other_lines.MOST_OCTETS:
        return findings
    return other_lines.with_others(findings, other_lines.faults_in(texts.program, texts.config, trace), fault,
                                   lambda other: findings_of(texts, other))


def of_findings(findings: list[Finding]) -> list[str]:
    """The lines of several findings."""
    return [line for finding in findings for line in finding.shown()]


def findings_of(texts: Texts, fault: Fault) -> list[Finding]:
    """The reasons for a fault, by what it is of."""
    swapped = of_order(texts) if fault.code == "C1" else of_first_line(texts) if fault.code == "C2" else None
    if swapped:
        return [swapped]
    early = of_early_separator(texts) if fault.code.startswith("C") else None
    if early:
        return [early]
    if fault.code == "C1":
        return no_toml.explain(texts.config, texts.is_joined) if texts.config else []
    if fault.code.startswith("C") and texts.config:
        strange = of_another_program(texts.config) if fault.code == "C2" else None
        return [strange] if strange else config.explain(texts.config, fault)
    if fault.code.startswith("L") and texts.records is not None:
        return octet_records.explain(texts.records, fault, list(names_of(texts)))
    if fault.code.startswith("L"):
        place = fault.trace or 0
        trace = texts.traces[place] if place < len(texts.traces) else None
        is_live = texts.words[:1] == ["live"]
        whole = of_whole_trace(texts, trace) if trace and fault.code == "L1" else None
        hidden = of_hidden_network(texts.config, trace, fault.line or 0) if trace and fault.code == "L4" else None
        first = whole or hidden
        if first:
            return [first]
        return trace_lines.explain(trace, fault, names_of(texts), is_live) if trace else []
    return words.explain(fault, texts.words)


def of_whole_trace(texts: Texts, trace: Source) -> Finding | None:
    """A configuration where a trace is read, or a configuration and a trace in one."""
    if texts.is_joined or "[[network]]" not in trace.text:
        return None
    if SEPARATOR in trace.octets.split(b"\n"):
        return Finding(f"{trace.name} is a configuration and a trace in one, with a line `---`, and a trace alone is "
                       "read here", None, f"write `{called.program()} < {trace.name}`" if os.path.isfile(trace.name)
                       else "give it what stands behind that line")
    if texts.config is None or texts.config.name != trace.name:
        return None
    return Finding(f"{trace.name} stands twice, as the configuration and as the trace, and it is a configuration", None,
                   "write the name of the trace in the second place")


def of_hidden_network(config: Source | None, trace: Source, number: int) -> Finding | None:
    """A network behind `W` that stands in the configuration's remarks alone."""
    bssid = trace.line(number).split(" ", 2)[1:2]
    return next(in_remarks.networks_in_remarks(config, bssid, ()), None) if config else None


def of_another_program(source: Source) -> Finding | None:
    """A text of TOML that has none of the program's keys; nothing if it is no TOML."""
    try:
        return other_programs.without_listed(configuration.Config(source))
    except (NoToml, RecursionError):
        return None


def of_order(texts: Texts) -> Finding | None:
    """A trace where the configuration is looked for, and a configuration behind it."""
    if texts.is_joined and texts.config and texts.traces and texts.traces[0] and texts.has_separator:
        return of_joined_order(texts.config, texts.traces[0])
    behind = next((trace for trace in texts.traces if trace and "[[network]]" in trace.text), None)
    if texts.words[:1] not in ([name] for name in words.SUBCOMMANDS) or texts.config is None:
        return None
    first = next((line for line in texts.config.lines if line.strip() and not line.startswith("#")), "")
    if not TRACE_LINE.fullmatch(first) or "[[network]]" in texts.config.text:
        return None
    if texts.words[0] == "check":
        config_name = config_beside(texts.config.name) or "CONFIG"
        return Finding(f"{texts.config.name} is a trace, and a configuration is read here", None,
                       f"write `{shlex.join(['run', config_name, texts.config.name])}`")
    if behind is None:
        command, *names = texts.words
        config_name = config_beside(texts.config.name) or "CONFIG"
        return Finding(f"{texts.config.name} is a trace, and behind `{command}` the configuration comes first, which "
                       "is missing",
                       None, f"write `{shlex.join([command, config_name, *names])}`" if command != "live" else
                       f"write `live {config_name} < {texts.config.name}`")
    trace, config = texts.config.name, behind.name
    others = [other.name for other in texts.traces if other and other is not behind]
    return Finding(f"{trace} is a trace, and {config} a configuration: the configuration comes first", None,
                   f"write `{' '.join([texts.words[0], config, trace, *others])}`")


def of_joined_order(config: Source, trace: Source) -> Finding | None:
    """A text with its trace before the line `---`, and its configuration behind it."""
    first = next((number for number, line in enumerate(config.lines, 1) if line.strip() and line[:1] != "#"), None)
    if first is None or not TRACE_LINE.fullmatch(config.line(first)) or "[[network]]" in config.text or \
            "[[network]]" not in trace.text:
        return None
    return Finding("the trace stands before the line `---`, and the configuration behind it: the configuration comes "
                   "first", config.place(first, 1, len(config.line(first))), "write the two in each other's place")


def config_beside(name: str) -> str | None:
    """The one configuration in the folder of a file; None where there is none, or are several."""
    found = glob.glob(os.path.join(glob.escape(os.path.dirname(name)), "*.toml"))
    found = [other for other in found if other != name]
    return found[0] if len(found) == 1 else None


def of_early_separator(texts: Texts) -> Finding | None:
    """A line `---` within the configuration, whose other lines follow it."""
    trace = texts.traces[0] if texts.is_joined and texts.has_separator and texts.traces else None
    first = next((number for number, line in enumerate(trace.lines, 1) if line.strip() and line[0] != "#"), 0) \
        if trace else 0
    if trace is None or not OWN_KEY.match(trace.line(first)) or not texts.config or not texts.config.text.strip():
        return None
    whole = Source(trace.name, SEPARATOR, trace.first - 1).place(1, 1, len(SEPARATOR))
    behind = quoted(trace.line(first).strip())
    return Finding(f"the line `---` ends the configuration here, and {behind} behind it is a line of a configuration",
                   whole, "take this line out, and write it where the trace begins")


def of_first_line(texts: Texts) -> Finding | None:
    """A line `---` before all else, as texts of YAML begin."""
    trace = texts.traces[0] if texts.is_joined else None
    if trace is None or texts.config is None or texts.config.text.strip() or not trace.text.strip():
        return None
    first = next(number for number, line in enumerate(trace.lines, 1) if line.strip())
    if no_key.is_yaml(trace, first):
        return Finding("this is YAML, and a configuration is TOML", trace.place(first, 1, len(trace.line(first))),
                       no_key.FOR_YAML)
    return Finding("the configuration is empty: the text begins with the line `---`, before which it has to stand",
                   Source(trace.name, SEPARATOR, trace.first - 1).place(1, 1, len(SEPARATOR)),
                   "write the configuration before it")


def names_of(texts: Texts) -> dict[str, str]:
    """The networks' SSIDs by their addresses, as the configuration has both."""
    try:
        networks = configuration.Config(texts.config).networks if texts.config else []
    except (NoToml, RecursionError):
        return {}
    pairs = [(network.entries.get("bssid"), network.entries.get("ssid")) for network in networks]
    return {str(bssid.value.worth): str(ssid.value.worth) for bssid, ssid in pairs if bssid and ssid}


def of_good_run(texts: Texts, answer: Answer) -> list[str]:
    """What is odd in a run that ended well."""
    output = answer.output.decode("utf-8", "replace")
    if texts.words[:1] == ["check"]:
        return [output.strip(), *of_findings(odd_config.odd(texts.config))]
    if texts.records is not None:
        return of_live(texts, octet_records.faults_of(answer.output), "record")
    if texts.words[:1] == ["live"]:
        return of_live(texts, [fault for fault in map(read_fault, output.splitlines()) if fault], "line")
    return [ENDED_WELL, *of_findings(odd_in(texts, output))]


def odd_as_they_come(texts: Texts, faults: list[Fault]) -> list[Finding]:
    """What is odd in lines or records that had no fault, where they may be looked at once more."""
    given = texts.traces[0] if texts.traces else None
    if texts.records is not None:
        otherwise = None if faults else octet_records.of_layout(texts.records)
        if otherwise:
            return [otherwise]
        given = as_they_come.as_lines(STANDARD_INPUT, texts.records)
    if texts.config is None or texts.program is None or given is None:
        return []
    try:
        return as_they_come.odd(texts.config, given, {fault.line for fault in faults if fault.line}, texts.program)
    except (TextError, Unanswered) as fault:
        return [Finding(f"what is odd in what came wasn't looked for: {fault}")]


def odd_in(texts: Texts, output: str) -> list[Finding]:
    """What is odd in a run, or that nothing was found, or that it couldn't be looked at."""
    traces = [trace for trace in texts.traces if trace is not None]
    if texts.config is None or len(traces) < len(texts.traces):
        return [Finding("a text of this run can't be read a second time, so what is odd in it wasn't looked for")]
    try:
        odd = runs.odd(texts.config, traces, output, texts.has_separator, texts.program)
    except (TextError, Unanswered) as fault:
        return [Finding(f"what is odd in this run wasn't looked for: {fault}")]
    return odd or [Finding("nothing odd was found in this run")]


def of_live(texts: Texts, faults: list[Fault], what: str) -> list[str]:
    """The faults of lines or records that were answered as they came: those of one cause once, with the others' numbers
    behind it."""
    groups: dict[tuple[str, ...], list[Fault]] = {}
    findings: dict[tuple[str, ...], list[Finding]] = {}
    for fault in faults[:MOST_LIVE_FAULTS]:
        found = findings_of(texts, fault) or [Finding(NOTHING_FOUND)]
        key = (fault.code, *(QUOTED.sub("`", finding.text) for finding in found))
        findings.setdefault(key, found)
        groups.setdefault(key, []).append(fault)
    lines = []
    for key, group in list(groups.items())[:MOST_LIVE_GROUPS]:
        lines += [group[0].said, *of_findings(findings[key])]
        is_told = any("so in " in (finding.advice or "") for finding in findings[key])
        lines += [f"  so in {numbers_text(what, group[1:])}"] * (len(group) > 1 and not is_told)
    rest = [fault for group in list(groups.values())[MOST_LIVE_GROUPS:] for fault in group] + faults[MOST_LIVE_FAULTS:]
    lines += [f"and with a fault: {numbers_text(what, rest)}"] if rest else []
    return (lines or [ENDED_WELL, f"no {what} had a fault"]) + of_findings(odd_as_they_come(texts, faults))


def numbers_text(what: str, faults: list[Fault]) -> str:
    """The numbers of the lines or records of some faults, the first few of them."""
    numbers = ", ".join(str(fault.line) for fault in faults[:MOST_NUMBERS])
    more = len(faults) - MOST_NUMBERS
    return f"{what}{'s' * (len(faults) > 1)} {numbers}" + (f" and {more} more" if more > 0 else "")


def explain_config(name: str, said: str) -> list[str]:
    """What is said of a configuration's file in which the program found this fault: for who ran it already, and waits
    for it. Of a long text the fault stands alone."""
    answer = said_already(said)
    if answer.fault is None:
        return [said]
    return explain(texts_of(["check", name], None), answer) if is_short(name) else unexplained(name, said)


def unexplained(name: str, said: str) -> list[str]:
    """A fault that isn't explained in the time that there is, and what explains it."""
    return [said, f"`{called.fellow('explain')} {shlex.join(['--said', said, 'check', name])}` looks for the reason"]


def is_short(name: str) -> bool:
    """Whether a file has no more than what may be explained in little time."""
    if not os.path.isfile(name):
        return True
    with open(name, "rb") as file:
        text = file.read(MOST_OCTETS + 1)
    return len(text) <= MOST_OCTETS and all(len(line) <= MOST_IN_LINE for line in text.split(b"\n"))


def is_joined_file(name: str) -> bool:
    """Whether a file has a line `---`, so that it is a configuration and a trace."""
    source = source_of(name)
    return source is not None and os.path.isfile(name) and split_joined(source.octets)[1] is not None


def means_file(name: str) -> bool:
    """Whether a word names a file, or is meant to: it is there, or is no word of the program and like none."""
    return os.path.lexists(name) or "." in name or "/" in name
