"""How the cases of a guest are chosen, tried, told and counted, whatever program of this folder has them."""
import argparse
import os
import shutil
import sys
import time
import traceback
from collections.abc import Callable

from in_memory import go_on_in_memory, is_in_memory
from stations import Failed


class Runner:
    """Tries cases, and counts those that passed. Each word chooses the cases whose name has it; no word chooses all. A
    case may be marked as one that fails today: it counts as failed where it passes, and else as neither."""

    def __init__(self, words: list[str]) -> None:
        self.words = words
        self.passed = self.failed = self.marked = 0

    def is_asked(self, *names: str) -> bool:
        """Whether the words choose one of these cases."""
        return not self.words or any(word in name for word in self.words for name in names)

    def is_tried(self, name: str) -> bool:
        """Whether a case is tried: also one that others need may be."""
        return self.is_asked(name)

    def case(self, name: str, call: Callable[[], str | None], fails: str = "") -> bool | None:
        """Tries one case, and tells of it: whether it passed, or nothing where it is left out. `fails` marks it, and
        says why it fails today."""
        if not self.is_tried(name):
            return None
        begun = time.monotonic()
        try:
            told = call()
        except Exception as fault:
            self.tell_failure(name, fault, fails, time.monotonic() - begun)
            return False
        if fails:
            self.failed += 1
            print(f"FAILED: {name}: marked as failing, and it passed", end="")
        else:
            self.passed += 1
            print(f"passed: {name}", end="")
        print(f"{f': {told}' if told else ''} ({time.monotonic() - begun:.0f} s)", flush=True)
        return True

    def tell_failure(self, name: str, fault: Exception, fails: str, seconds: float) -> None:
        """Tells of a case that failed. One that is marked fails only as a case does, and by no other fault."""
        is_expected = bool(fails) and isinstance(fault, Failed)
        if is_expected:
            self.marked += 1
            print(f"fails as marked: {name}: {fault}; {fails} ({seconds:.0f} s)", flush=True)
        else:
            self.failed += 1
            print(f"FAILED: {name}: {fault} ({seconds:.0f} s)", flush=True)
        self.after_failure()
        if not isinstance(fault, Failed):
            traceback.print_exception(fault)

    def after_failure(self) -> None:
        """What is done once a case has failed."""

    def end(self) -> int:
        """Tells of all cases: the program's status."""
        print(f"{os.uname().release}, {time.monotonic():.0f} seconds since the guest's start", flush=True)
        if self.marked:
            print(f"marked as failing, and failed, which counts as neither: {self.marked}")
        print(f"{self.passed} passed, {self.failed} failed")
        return 1 if self.failed or not self.passed + self.marked else 0


class Beside(Runner):
    """The same, with a table of access points beside each other. A cell is of a column and a row."""

    def __init__(self, words: list[str]) -> None:
        super().__init__(words)
        self.cells: dict[tuple[str, str], str] = {}

    def table(self, corner: str = "", absent: str = "") -> list[str]:
        """The table's lines, the rows in the order in which they were first tried."""
        columns = list(dict.fromkeys(column for column, _ in self.cells))
        lines = [f"|{corner and f' {corner}'} | {' | '.join(columns)} |", f"|---|{'---|' * len(columns)}"]
        for name in dict.fromkeys(row for _, row in self.cells):
            lines.append(f"| {name} | {' | '.join(self.cells.get((column, name), absent) for column in columns)} |")
        return lines


def parser_of(description: str | None, *files: str) -> argparse.ArgumentParser:
    """A parser of --case, and of these words that name a file."""
    parser = argparse.ArgumentParser(description=description, formatter_class=argparse.RawDescriptionHelpFormatter)
    for word in files:
        parser.add_argument(word, metavar="FILE", type=os.path.abspath)
    parser.add_argument("--case", metavar="WORD", action="append", default=[])
    return parser


def add_whose(parser: argparse.ArgumentParser) -> None:
    """Adds the words that leave one of the two access points out, and that for what is drawn."""
    parser.add_argument("--seed", metavar="N", type=int, default=1)
    whose = parser.add_mutually_exclusive_group()
    whose.add_argument("--own", action="store_true")
    whose.add_argument("--hostapd", action="store_true")


def words_of(parser: argparse.ArgumentParser) -> argparse.Namespace:
    """The program's words. It ends here where only these are looked at."""
    asked = parser.parse_args()
    if "WORDS_ALONE" in os.environ:
        sys.exit(0)
    return asked


def begin(folder: str, in_memory: str = "") -> None:
    """Makes an empty folder, once the program of this name runs from the guest's own memory, where one is named. Then
    all begins in that folder: a shell looks at the one where it begins, and another machine's answers late."""
    if in_memory and not is_in_memory():
        go_on_in_memory(in_memory)
    shutil.rmtree(folder, ignore_errors=True)
    os.makedirs(folder)
    if in_memory:
        os.chdir(folder)
