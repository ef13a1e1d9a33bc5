"""What is told to people on standard error; where the journal of systemd reads it, with the level of each line."""
import os
import sys

import called

ERROR, WARNING, NOTICE, INFO = 3, 4, 5, 6


def is_journal() -> bool:
    """Whether standard error is the journal's: then the variable names its device and inode (systemd.exec(5))."""
    try:
        found = os.fstat(sys.stderr.fileno())
    except (OSError, ValueError):
        return False
    return os.environ.get("JOURNAL_STREAM") == f"{found.st_dev}:{found.st_ino}"


def line_of(text: str, level: int) -> str:
    """A line of this program, or several; with its level before each where the journal reads it (sd-daemon(3))."""
    start = f"<{level}>" if is_journal() else ""
    return "\n".join(start + line for line in f"{called.name()}: {text}".split("\n"))


def tell(text: str, level: int = NOTICE) -> None:
    """Says something to the person on standard error."""
    print(line_of(text, level), file=sys.stderr, flush=True)
