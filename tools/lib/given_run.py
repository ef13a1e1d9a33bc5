"""The run that a tool shows: its configuration and trace, and its report, for which the program runs where it isn't
given."""
import argparse
import os
import re
import shlex
from typing import NamedTuple

import called
import standard_input
from explaining.answers import PROGRAM, NoProgram, run_program
from texts import SEPARATOR, TextError, join_texts, read_text

CONFIGURATION = re.compile(r"^\s*\[\[\s*network\s*\]\]", re.M)
REPORT = re.compile(r"network \S+ ssid ")


class Run(NamedTuple):
    """A run: the trace with the configuration before it, where that is known, the report, and the trace's name."""

    text: str
    report: str
    name: str


def add_words(parser: argparse.ArgumentParser) -> None:
    """The words that name a run."""
    parser.add_argument("config", metavar="CONFIG", nargs="?", help="the configuration of the run")
    parser.add_argument("trace", metavar="TRACE", help="the trace, or a configuration with a trace behind a line ---; "
                        "- of CONFIG, TRACE and REPORT is standard input")
    parser.add_argument("report", metavar="REPORT", nargs="?",
                        help="what the program answered (without it the program runs now)")
    parser.add_argument("--program", metavar="FILE", default=PROGRAM, help=f"the program ({called.program()})")


def is_config(text: str) -> bool:
    """Whether a text is meant as a configuration alone."""
    return bool(CONFIGURATION.search(text)) and SEPARATOR not in text.split("\n")


def run_of(asked: argparse.Namespace) -> Run:
    """The run that these words name. TextError where they name none, or the program refuses it."""
    config, trace, report = asked.config, asked.trace, asked.report
    if standard_input.is_named_twice((config, trace, report)):
        raise TextError("- stands twice, and standard input is one text alone")
    if config is not None and report is None and not is_config(read_text(config)):
        config, trace, report = None, config, trace
    text = read_text(trace)
    if report is None and config is not None and REPORT.match(text):
        raise TextError(f"{config} is a configuration, and no trace: say `{called.name()} {config} TRACE REPORT`")
    if config is None and is_config(text):
        raise TextError(f"{trace} is a configuration, and no trace: say `{called.name()} {trace} TRACE`, or with the "
                        f"report `{called.name()} {trace} TRACE REPORT`")
    if config is None and report is None and SEPARATOR not in text.split("\n"):
        raise TextError(f"{trace} has no configuration before a line {SEPARATOR}: say `{called.name()} CONFIG {trace}`")
    whole = text if config is None else join_texts(read_text(config), text)
    told = read_text(report) if report is not None else answered(asked.program, config, trace)
    return Run(whole, told, standard_input.name_of(trace))


def answered(program: str, config: str | None, trace: str) -> str:
    """What the program answers to these texts now."""
    words, given, descriptors = [], None, ()
    if config is None:
        with open(standard_input.path_of(trace), "rb") as file:
            given = file.read()
    else:
        words = ["run", standard_input.path_of(config), standard_input.path_of(trace)]
        descriptors = (standard_input.kept(),) if standard_input.WORD in (config, trace) else ()
    try:
        answer = run_program(program, words, given, descriptors)
    except NoProgram as fault:
        raise TextError(str(fault)) from None
    if answer.status:
        files = shlex.join(file for file in (config, trace) if file is not None)
        raise TextError(f"{os.path.basename(program)} has no report of this run: {answer.errors.strip()} "
                        f"(`{called.fellow('explain')} {files}` says why)")
    return answer.output.decode("utf-8", "replace")
