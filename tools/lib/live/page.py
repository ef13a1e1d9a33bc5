"""The page that shows what is going on: a process beside the access point, which runs with or without it."""
import os
import pwd
import signal
import subprocess
import time
from contextlib import ExitStack

from live import asking
from live.checks import Wanted
from live.faults import Fault
from live.rights import end
from live.telling import WARNING, tell

TOOLS = os.path.dirname(os.path.dirname(os.path.dirname(os.path.realpath(__file__))))
PROGRAM = os.path.join(TOOLS, "status")
SECONDS_TO_END = 5.0
AGAIN_SECONDS = 5.0  # how long after it didn't begin, or ended by itself, it is begun anew


class Page:
    """The page's process; `stack` ends it. While another program has its port it isn't there."""

    def __init__(self, wanted: Wanted, user: pwd.struct_passwd | None, stack: ExitStack) -> None:
        self.endpoint, self.phy = wanted.status, wanted.phy
        self.more = more_words(wanted)
        self.user = user
        self.process: subprocess.Popen[bytes] | None = None
        self.due = 0.0  # when it is begun next, if it isn't there
        self.told = ""  # what was told last of why it isn't there
        stack.callback(self.end)

    def begin(self) -> None:
        """Begins it, if one is wanted and its port is free. A fault where its program can't be run."""
        if self.endpoint is None:
            return
        self.due = time.monotonic() + AGAIN_SECONDS
        reason = self.endpoint.fault()
        if reason is not None:
            self.warn(f"{reason}; all else goes on")
            return
        words = [PROGRAM, self.endpoint.word, asking.socket_path(self.phy), *self.more]
        try:
            self.process = subprocess.Popen(words, stdin=subprocess.DEVNULL, stdout=subprocess.DEVNULL,
                                            start_new_session=True)
        except OSError as fault:
            raise Fault(f"{PROGRAM}: {fault}") from None

    def look(self) -> None:
        """Tells of one that has ended by itself, and begins it anew some seconds later."""
        if self.endpoint is None:
            return
        if self.process is not None and self.process.poll() is not None:
            self.warn(f"the page ended with status {self.process.returncode}, and is begun again")
            self.process = None
            self.due = time.monotonic() + AGAIN_SECONDS
        if self.process is None and time.monotonic() >= self.due:
            try:
                self.begin()
            except Fault as fault:
                self.warn(str(fault))

    def warn(self, text: str) -> None:
        """Tells why it isn't there, once for the same reason."""
        if self.endpoint is not None and text != self.told:
            self.told = text
            tell(f"--status {self.endpoint.word}: {text}", WARNING)

    def end(self) -> None:
        """Ends it, also one that a stranger has taken over and that ignores it."""
        if self.process is not None:
            end(self.process, self.user, signal.SIGTERM)
            try:
                self.process.wait(SECONDS_TO_END)
            except subprocess.TimeoutExpired:
                end(self.process, self.user, signal.SIGKILL)
                self.process.wait()
            self.process = None


def more_words(wanted: Wanted) -> list[str]:
    """The words of the page's process behind those that say where it is, and of what."""
    words = [] if wanted.names is None else ["--names", wanted.names]
    if wanted.status is not None:
        for name in wanted.status.names:
            words += ["--host", name]
        for source in wanted.status.sources:
            words += ["--from", source]
    return words + ["--station-metrics"] * wanted.station_metrics
