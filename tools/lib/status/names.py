"""The names of stations, of a file that the operator gives: a line has an address and then a name, as in ethers(5)."""
import os
import re
from contextlib import suppress

LINE = re.compile(r"\s*((?:[0-9A-Fa-f]{2}:){5}[0-9A-Fa-f]{2})\s+(\S.*?)\s*")
MOST_LETTERS = 64
MOST_OCTETS = 1 << 20


class Names:
    """The names. The file is read again where it has changed; where it has a fault then, the names stay as they were."""

    def __init__(self, path: str) -> None:
        self.path = path
        self.stamp = stamp_of(path)
        self.by_address = read(path)

    def look(self) -> dict[str, str]:
        """The names by the addresses, as the file has them now."""
        with suppress(OSError, ValueError):
            stamp = stamp_of(self.path)
            if stamp != self.stamp:
                self.by_address, self.stamp = read(self.path), stamp
        return self.by_address


def stamp_of(path: str) -> tuple[int, int, int]:
    """By which one sees whether a file has changed."""
    found = os.stat(path)
    return found.st_ino, found.st_size, found.st_mtime_ns


def read(path: str) -> dict[str, str]:
    """The names that stand in a file; a ValueError names the line that isn't read."""
    with open(path, encoding="utf-8") as file:
        text = file.read(MOST_OCTETS + 1)
    if len(text) > MOST_OCTETS:
        raise ValueError(f"{path}: more than {MOST_OCTETS} letters")
    names = {}
    for number, line in enumerate(text.splitlines(), 1):
        line = line.partition("#")[0]
        if not line.strip():
            continue
        found = LINE.fullmatch(line)
        if not found or len(found[2]) > MOST_LETTERS or not found[2].isprintable():
            raise ValueError(f"{path}: line {number}: not an address and a name of at most {MOST_LETTERS} letters")
        names[found[1].lower()] = found[2]
    return names
