"""What takes an unknown time is done by a child of this process, which has so many seconds for it."""
import os
import select
import signal
import time
from collections.abc import Callable
from typing import NoReturn

MOST_PIECE = 65_536


def text_of_child(make: Callable[[], str], seconds: float) -> str | None:
    """The text that a function makes in a child; nothing where it fails, or takes longer."""
    reading, writing = os.pipe()
    try:
        child = os.fork()
        if child == 0:
            make_and_end(make, writing)
    except OSError:  # there may be no more processes
        os.close(reading)
        return None
    finally:
        os.close(writing)
    try:
        return read_until(reading, time.monotonic() + seconds)
    finally:
        os.close(reading)
        os.kill(child, signal.SIGKILL)
        os.waitpid(child, 0)


def make_and_end(make: Callable[[], str], writing: int) -> NoReturn:
    """The child: it writes the text, and ends without a word. Signals are for its parent, so Ctrl-C doesn't reach it,
    and it doesn't wake its parent."""
    try:
        os.setsid()
        signal.set_wakeup_fd(-1)
        left = make().encode("utf-8", "surrogateescape") + b"\0"
        while left:
            left = left[os.write(writing, left):]
    finally:
        os._exit(0)


def read_until(reading: int, until: float) -> str | None:
    """What comes by a pipe up to its end, which an octet 0 is; nothing where it doesn't come until then."""
    text = b""
    while not text.endswith(b"\0"):
        if not select.select([reading], [], [], max(0.0, until - time.monotonic()))[0]:
            return None
        piece = os.read(reading, MOST_PIECE)
        if not piece:
            return None
        text += piece
    return text[:-1].decode("utf-8", "surrogateescape")
