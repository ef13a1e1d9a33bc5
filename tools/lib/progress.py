"""How far a tool has come in a long text, as one line on a terminal."""
import sys

EACH = 20_000
CLEARED = "\r\x1b[K"


class Progress:
    """A line on standard error that is written over, where that is a terminal, and that is gone in the end; nothing
    elsewhere, and nothing of short texts."""

    def __init__(self, total: int) -> None:
        self.total, self.done = total, 0
        self.is_shown = total > EACH and sys.stderr is not None and sys.stderr.isatty()

    def say(self, text: str) -> None:
        """What goes on now."""
        if self.is_shown:
            sys.stderr.write(f"{CLEARED}{text}")
            sys.stderr.flush()

    def restart(self) -> None:
        """The lines are looked at from the first one on, once more."""
        self.done = 0

    def step(self) -> None:
        """One line more has been looked at."""
        self.done += 1
        if self.done % EACH == 0:
            self.say(f"{self.done:,} of {self.total:,} lines looked at")

    def __enter__(self) -> "Progress":
        return self

    def __exit__(self, *_: object) -> None:
        self.say("")
