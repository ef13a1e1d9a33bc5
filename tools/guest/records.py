"""The program's records (docs/FORMATS.md, 'Lines as they come'), on their way from it to whoever started this."""
import struct
import subprocess
import sys
from typing import Callable

HEADER = struct.Struct("<c6sH")  # kind, BSSID, length
AIR = b"A"


def pass_on(words: list[str], change: Callable[[bytes], bytes | None]) -> int:
    """Starts the program by these words, and passes its records on. Each frame for the air is changed, or left out where
    `change` answers None. Answers the program's status."""
    with subprocess.Popen(words, stdout=subprocess.PIPE) as program:
        while len(header := program.stdout.read(HEADER.size)) == HEADER.size:
            kind, bssid, length = HEADER.unpack(header)
            octets = program.stdout.read(length)
            if kind == AIR:
                octets = change(octets)
            if octets is not None:
                sys.stdout.buffer.write(HEADER.pack(kind, bssid, len(octets)) + octets)
                sys.stdout.buffer.flush()
    return program.returncode
