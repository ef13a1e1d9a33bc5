"""What an access point that runs tells of itself in the file /run/waltigon/PHY.run, and how it is asked to read its
configuration again: its number, its configuration and its program, how often that was done, and what came of it."""
import json
import os
import signal
import time
from contextlib import ExitStack, suppress

from live import asking, changes
from live.checks import Wanted, check_config
from live.faults import Fault
from live.processes import start_of

SECONDS = 60.0
LOOK_SECONDS = 0.05
MODE = 0o600


def run_path(phy: str) -> str:
    """The file of a radio."""
    return os.path.join(changes.RUN, f"{phy}.run")


class RunFile:
    """The file of an access point that runs; it goes in the end."""

    def __init__(self, wanted: Wanted, stack: ExitStack) -> None:
        self.path = run_path(wanted.phy)
        self.wanted = wanted
        self.reloads = 0
        self.fault: str | None = None
        stack.callback(self.remove)
        self.write()

    def reloaded(self, fault: str | None) -> None:
        """The configuration was read again; why all stayed as it was, where it did."""
        self.reloads += 1
        self.fault = fault
        self.write()

    def write(self) -> None:
        """Writes it anew, so that it is whole at any moment."""
        with open(os.open(f"{self.path}.new", os.O_WRONLY | os.O_CREAT | os.O_TRUNC | os.O_NOFOLLOW, MODE), "w",
                  encoding="utf-8") as file:
            json.dump({"pid": os.getpid(), "started": start_of(os.getpid()), "config": os.path.realpath(self.wanted.config),
                       "program": os.path.realpath(self.wanted.program), "reloads": self.reloads,
                       "fault": self.fault}, file)
        os.replace(f"{self.path}.new", self.path)

    def remove(self) -> None:
        """Takes it away."""
        with suppress(FileNotFoundError):
            os.unlink(self.path)


def read_run(phy: str) -> dict:
    """What the access point of a radio tells of itself."""
    path = run_path(phy)
    try:
        with open(path, encoding="utf-8") as file:
            told = json.load(file)
        if told["started"] != start_of(told["pid"]):  # another process has its number since
            raise ProcessLookupError
    except PermissionError as fault:
        raise Fault(f"{path}: {fault.strerror}: run it as root (sudo)") from None
    except (OSError, ValueError, KeyError, TypeError):
        raise Fault(f"{phy}: no access point runs that {path} tells of") from None
    return told


def reload_running(phy: str | None) -> str:
    """Has the access point that runs read its configuration again, once the program has found no fault in it. What came of
    it; a fault where all stays as it is."""
    phy = phy or asking.sole_phy()
    before = read_run(phy)
    check_config(before["program"], before["config"])
    os.kill(before["pid"], signal.SIGHUP)
    until = time.monotonic() + SECONDS
    while time.monotonic() < until:
        now = read_run(phy)
        if now["pid"] != before["pid"] or now["reloads"] != before["reloads"]:
            if now["fault"] is not None:
                raise Fault(f"all stays as it is: {now['fault']}")
            return f"{now['config']} was read again, and is served"
        time.sleep(LOOK_SECONDS)
    raise Fault(f"{phy}: nothing was told of it within {SECONDS:.0f} seconds")
