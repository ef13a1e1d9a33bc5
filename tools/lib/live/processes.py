"""What the kernel says of this machine's processes (proc(5))."""
import json
import os
from contextlib import suppress

STARTED = 19  # its place behind the name in /proc/PID/stat
ROOT = "0"


def numbers() -> list[int]:
    """Those of all processes."""
    return [int(name) for name in os.listdir("/proc") if name.isdigit()]


def start_of(process: int) -> int:
    """When a process began, in ticks since the machine did: with its number that is one process alone."""
    with open(f"/proc/{process}/stat", encoding="utf-8", errors="replace") as file:
        return int(file.read().rpartition(")")[2].split()[STARTED])


def is_told_to_run(path: str) -> bool:
    """Whether the process runs that a file tells of, as PHY.run does."""
    with suppress(OSError, ValueError, KeyError, TypeError), open(path, encoding="utf-8") as file:
        told = json.load(file)
        return bool(told["started"] == start_of(told["pid"]))
    return False


def has_rights_of_root(process: int) -> bool:
    """Whether root alone has begun it: another user's number stays the real one of what runs as root for them."""
    with suppress(OSError), open(f"/proc/{process}/status", encoding="utf-8", errors="replace") as file:
        return next(line.split()[1:] for line in file if line.startswith("Uid:")) == [ROOT] * 4
    return False
