"""Lines of a trace that have a fault beside the first one, by what `live` answers to each: those of which the same is
to be said, and the numbers of the others."""
import os
import re
import tempfile
from collections.abc import Callable
from dataclasses import replace

from explaining.answers import Fault, read_fault, run_program
from explaining.pasted import foreign
from explaining.source import Finding, Source

QUOTED = re.compile("`[^`]*`|[0-9]+")
MOST_LOOKED, MOST_NAMED, MOST_OCTETS, MOST_TRACED = 200, 8, 4 << 20, 10_000
# What is said of several lines already, or of a text as a whole.
SAID_ALREADY = re.compile(r"so in |this text is |stands? in line|lines [\d, and]+|for the lines|, in all lines")


def faults_in(program: str, config: Source, trace: Source) -> list[Fault]:
    """The faults of a trace's lines, as the program tells them where lines come one after the other."""
    with tempfile.TemporaryDirectory() as folder:
        name = os.path.join(folder, "config")
        with open(name, "wb") as file:
            file.write(config.octets)
        answer = run_program(program, ["live", name], trace.octets)
    told = (read_fault(line) for line in answer.output.decode("utf-8", "replace").splitlines())
    return [fault for fault in told if fault and fault.line]


def with_others(findings: list[Finding], faults: list[Fault], first: Fault,
                explain_fault: Callable[[Fault], list[Finding]]) -> list[Finding]:
    """What is said of the first fault, with the lines behind it of which the same is said, and those with another
    fault."""
    others = [fault for fault in faults if fault.line and first.line and fault.line > first.line]
    if len(findings) != 1 or findings[0].place is None or not others or \
            SAID_ALREADY.search(findings[0].text + (findings[0].advice or "")) or is_opened(findings[0]):
        return findings
    finding, source = findings[0], findings[0].place.source
    same = [fault for fault in others[:MOST_LOOKED] if is_same(finding, explain_fault(fault))]
    rest = [fault for fault in others if fault not in same]
    if same:
        finding = replace(finding, text=f"{finding.text}; so in {numbers(source, same)}")
    more = [Finding(f"{numbers(source, rest)} {'has' if len(rest) == 1 else 'have'} another fault")] if rest else []
    return [finding, *more]


def is_opened(finding: Finding) -> bool:
    """Whether a line opens JSON alone, so that the lines behind it belong to it."""
    return finding.place is not None and finding.place.source.line(finding.place.line).strip() in ("{", "[", "[{")


def numbers(source: Source, faults: list[Fault]) -> str:
    """The numbers of the lines of some faults, the first few of them."""
    named = ", ".join(str(source.first + (fault.line or 0) - 1) for fault in faults[:MOST_NAMED])
    more = len(faults) - MOST_NAMED
    return f"line{'s' * (len(faults) > 1)} {named}" + (f" and {more} more" if more > 0 else "")


def is_same(one: Finding, others: list[Finding]) -> bool:
    """Whether the same is said of another line, but for what is quoted and counted there."""
    return len(others) == 1 and QUOTED.sub("`", one.text) == QUOTED.sub("`", others[0].text)


def around_both(finding: Finding, trace: Source) -> Finding:
    """What is said of a line around a text, with the lines of the trace's part of which the same is said."""
    said = finding.text.split("; so in line")[0]
    places = [found.place for number in range(1, min(len(trace.lines), MOST_TRACED) + 1)
              if (found := foreign(trace, number)) and found.text.split("; so in line")[0] == said and found.place]
    lines = [str(trace.first + place.line - 1) for place in places[:MOST_NAMED]]
    if not lines:
        return finding
    also = f"; so in line{'s' * (len(lines) > 1)} {', '.join(lines)}" if said == finding.text else \
        f" and {', '.join(lines)}"
    return replace(finding, text=finding.text + also, advice=(finding.advice or "").replace("the line", "these lines"))
