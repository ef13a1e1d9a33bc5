"""The file of the record, which has every network's traffic: it is made here, for its owner's eyes alone, and handed to
the bridge as a descriptor."""
import os
import re

from live.faults import Fault

MOST_RECORDS = 10_000  # of one name
# A name that is there is never opened, whatever stands behind it, a symbolic link included (open(2)).
FLAGS = os.O_WRONLY | os.O_CREAT | os.O_EXCL | os.O_NOFOLLOW | os.O_CLOEXEC
MODE = 0o600
SIZE = re.compile(r"([0-9]{1,15})([KMG]?)")
UNITS = {"": 1, "K": 1 << 10, "M": 1 << 20, "G": 1 << 30}
MOST_SIZE = (1 << 63) - 1  # of a file


def size_of(text: str) -> int:
    """The octets of a size as 500M, above 0; a ValueError where it is none."""
    found = SIZE.fullmatch(text)
    size = int(found[1]) * UNITS[found[2]] if found else 0
    if not 0 < size <= MOST_SIZE:
        raise ValueError(text)
    return size


def make_record(path: str) -> tuple[int, str]:
    """A new file as a descriptor, with its name: this one, or where that is there already with the first number behind it
    that isn't."""
    for number in range(MOST_RECORDS):
        name = f"{path}.{number}" if number else path
        try:
            descriptor = os.open(name, FLAGS, MODE)
            os.fchmod(descriptor, MODE)
            return descriptor, name
        except FileExistsError:
            continue
        except OSError as fault:
            raise Fault(f"--record {name}: {fault.strerror}") from None
    raise Fault(f"--record {path}: {MOST_RECORDS} files of this name are there: take old ones away")
