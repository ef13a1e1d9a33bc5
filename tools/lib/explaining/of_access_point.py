"""What a running access point tells people and scripts, given as a trace or as a configuration: its log, its events,
its status and its metrics. None of them has a frame; its record has all that the program was given."""
import re

import called
from explaining.own_json import REPORT, own_json
from explaining.report_lines import GOOD
from explaining.source import Finding, Source

LIVE = called.fellow("live")
ADDRESS = r"\s*(?:[0-9A-Fa-f]{2}:){5}[0-9A-Fa-f]{2}"
# Lists that an access point is given beside its configuration: each of their lines, and what they are.
LISTS = ((re.compile(rf"{ADDRESS}\s+(?![0-9A-Fa-f]{{4}})\S.*"),
          f"a list of names of stations, as `--names` of {called.fellow('status')} reads it"),
         (re.compile(rf"{ADDRESS}\s*=\s*[\w.-]+\s*"), f"a list of wires, as `--wires` of {LIVE} reads it"),
         (re.compile(r"WORDS=.*"), f"the file of words of the service, which {LIVE} is given"))
# When and where: as the system's log has it before each line.
SYSTEM = r"(?:[A-Z][a-z]{2} [ \d]\d \d\d:\d\d:\d\d|\d{4}-\d\d-\d\dT[\d:.,]+\S*|\d+\.\d+) \S+ "
TELLS = ((re.compile(rf"(?:{SYSTEM}waltigon[\w@.-]*(?:\[\d+\])?: .*|(?:{SYSTEM}\S+ )?(?:<\d>)?"
                     r"\d{4}-\d\d-\d\dT\d\d:\d\d:\d\dZ live: .*|live: .*)"), f"the log of {LIVE}"),
         (re.compile(r"\{.*\"(?:SYSLOG_IDENTIFIER|_SYSTEMD_UNIT)\" ?: ?\"waltigon.*"),
          f"the log of {LIVE}, as `journalctl -o json` prints it"),
         (re.compile(r"(?:# (?:HELP|TYPE) )?waltigon_\w+(?:\{.*\})? .*"), "the metrics of the status page"),
         (re.compile(r"phy\d+, channel \d+.*, for \d+:\d\d:\d\d, of .*"), f"what `{LIVE} status` prints"))


def of_lists(source: Source) -> str | None:
    """Which of these lists a text is."""
    lines = [line.partition("#")[0] for line in source.lines if line.partition("#")[0].strip()]
    return next((what for pattern, what in LISTS if lines and all(map(pattern.fullmatch, lines))), None)


def of_access_point(source: Source, number: int, is_trace: bool) -> Finding | None:
    """What an access point tells, where this line, or the text that begins with it, is that."""
    line = source.line(number).rstrip()
    what = next((what for pattern, what in TELLS if pattern.fullmatch(line)), None) or own_json(source, number)
    what = what or (of_lists(source) if line.strip() else None)
    if what is None:
        return None
    is_among = is_trace and any(GOOD.fullmatch(other) for other in source.lines)
    whence = "a report is what the program answers, and a trace what came to its networks" if what == REPORT else \
        f"the trace of an access point is the file of `{LIVE} --record FILE`"
    return Finding(f"this is {what}, and no {'trace' if is_trace else 'configuration'}",
                   source.place(number, 1, len(line)), "leave such lines out" if is_among else whence if is_trace else
                   f"{called.document('FORMATS.md')} has a configuration to copy")
