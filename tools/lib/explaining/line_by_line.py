"""Which line of a trace brings what, by the program's own answers: the lines go through `live` one after the other, and
after each one the tables are asked for (docs/FORMATS.md, "Lines as they come"). No rule is followed here."""
import os
import subprocess
import tempfile
from collections.abc import Iterator
from dataclasses import dataclass
from typing import IO

from frames import address_of, address_text
from texts import Line, Section, read_section

MOST_OCTETS = 64 << 20  # of what the program answers, tables among it
SENT = {b"air": False, b"wire": True}

Tables = dict[bytes, Section]


@dataclass(frozen=True)
class Sent:
    """A frame that a network sent, on its wire or on the air."""

    is_wired: bool
    bssid: bytes
    octets: bytes


@dataclass(frozen=True)
class Step:
    """A line, what the networks sent for it, and what the tables said before and after it, by the networks'
    addresses."""

    line: Line
    sent: tuple[Sent, ...]
    before: Tables
    after: Tables


class Unanswered(Exception):
    """The program didn't answer as it is said to."""


class TooMuch(Exception):
    """The program has answered more than is looked at."""


class Answers:
    """What `live` writes, read as it comes."""

    def __init__(self, output: IO[bytes]) -> None:
        self.output, self.octets = output, 0
        first = self.line().split()
        if len(first) != 2 or first[0] != b"ok":
            raise Unanswered("`live` doesn't begin with `ok`")
        self.raw: list[bytes] = [b""] * int(first[1])
        self.sections: list[Section | None] = [None] * len(self.raw)
        self.tables: Tables = {}

    def line(self) -> bytes:
        """The next line."""
        line = self.output.readline()
        self.octets += len(line)
        if not line.endswith(b"\n"):
            raise Unanswered("`live` ended before it had answered each line")
        if self.octets > MOST_OCTETS:
            raise TooMuch
        return line[:-1]

    def next(self) -> tuple[tuple[Sent, ...], Tables]:
        """What was sent up to the next tables, and these."""
        sent, place, has_changed = [], 0, False
        while place < len(self.raw):
            line = self.line()
            word = line.split(b" ", 1)[0]
            if word in SENT:
                _, bssid, digits = line.decode("ascii").split(" ")
                sent.append(Sent(SENT[word], address_of(bssid), bytes.fromhex(digits)))
            elif word == b"network":
                has_changed |= self.read_table(place, line)
                place += 1
            else:
                raise Unanswered(f"`live` answers {line[:60].decode('utf-8', 'replace')}")
        if has_changed:
            self.tables = {section.bssid: section for section in self.sections if section}
        return tuple(sent), self.tables

    def read_table(self, place: int, first: bytes) -> bool:
        """Reads one network's table, and answers whether it says something new."""
        lines = [first]
        while lines[-1] != b"end":
            lines.append(self.line())
        raw = b"\n".join(lines)
        if raw == self.raw[place]:
            return False
        self.raw[place] = raw
        self.sections[place] = read_section(raw.decode("ascii").split("\n"), 0)[0]
        return True


def asked_text(lines: list[Line]) -> Iterator[str]:
    """What `live` is given: each line, and a line `I` before the first and after each."""
    yield "I\n"
    for line in lines:
        words = [line.kind] + ([address_text(line.bssid)] if line.bssid else [])
        yield " ".join([*words, line.octets.hex()] if line.kind != "T" else words) + "\nI\n"


def steps(program: str, config: bytes, lines: list[Line]) -> Iterator[Step]:
    """What each line brings, in order; it ends early where the program has answered more than is looked at."""
    with tempfile.TemporaryDirectory() as folder:
        names = [os.path.join(folder, name) for name in ("config", "lines")]
        with open(names[0], "wb") as file:
            file.write(config)
        with open(names[1], "w", encoding="ascii") as file:
            file.writelines(asked_text(lines))
        with open(names[1], "rb") as given, subprocess.Popen([program, "live", names[0]], stdin=given,
                                                             stdout=subprocess.PIPE,
                                                             stderr=subprocess.DEVNULL) as process:
            try:
                if process.stdout is not None:
                    yield from read_steps(process.stdout, lines)
            except TooMuch:
                pass
            finally:
                process.kill()


def read_steps(output: IO[bytes], lines: list[Line]) -> Iterator[Step]:
    """The answers of `live`, line by line."""
    answers = Answers(output)
    before = answers.next()[1]
    for line in lines:
        sent, after = answers.next()
        yield Step(line, sent, before, after)
        before = after
