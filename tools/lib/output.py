"""Standard output of a tool, which may be closed or full, or which nobody reads any more."""
import os
import sys


class NoOutput(Exception):
    """Standard output can't be written."""


def write_out(texts):
    """Writes texts on standard output, one after the other. NoOutput where it is closed or full; where its reader has
    ended, as `head` does, the process ends too, with status 1 and without a word."""
    if sys.stdout is None:
        raise NoOutput("standard output: it is closed")
    try:
        sys.stdout.writelines(texts)
        sys.stdout.flush()
    except BrokenPipeError:
        os._exit(1)
    except OSError as fault:
        # at the end of the process what is left would be written once more, and told again
        os.dup2(os.open(os.devnull, os.O_WRONLY), sys.stdout.fileno())
        raise NoOutput(f"standard output: {fault.strerror}") from None
