"""Standard input as a file that can be read again and by the program: what `-` stands for among a tool's words."""
import errno
import os
import shutil
import sys
from collections.abc import Iterable
from functools import cache

WORD, NAME = "-", "standard input"
# What the program's own words name it.
DEVICE = "/dev/stdin"


@cache
def kept() -> int:
    """The descriptor of a file in memory, which has all that came on standard input."""
    if sys.stdin is None:
        raise OSError(errno.EBADF, "it is closed", NAME)
    descriptor = os.memfd_create(NAME)
    with open(descriptor, "wb", closefd=False) as file:
        shutil.copyfileobj(sys.stdin.buffer, file)
    return descriptor


def path_of(word: str) -> str:
    """The name under which this process, and one that has its descriptors, opens the file that a word names."""
    return f"/dev/fd/{kept()}" if word == WORD else word


def name_of(word: str) -> str:
    """What a person calls the file that a word names."""
    return NAME if word == WORD else word


def is_named_twice(words: Iterable[str | None]) -> bool:
    """Whether two words name standard input, which is one text alone."""
    return list(words).count(WORD) > 1
