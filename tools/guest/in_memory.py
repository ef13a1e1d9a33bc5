"""Goes on in the guest's own memory. While a file is read from the machine that runs the guest, the guest waits, and
with SLEEP=off its time passes at once: what has to come within some seconds would be late."""
import os
import shutil
import subprocess
import sys

from paths import TOP
from stage import COMPILED

IN_MEMORY = "/tmp/in-memory"
# What is run once before, so that it is read.
READ_ONCE = (("wpa_supplicant", "-v"), ("hostapd", "-v"), ("ping", "-V"), ("tcpdump", "--version"), ("iw", "--version"),
             ("ip", "-V"), ("ethtool", "--version"), ("chrt", "--version"))


def is_in_memory() -> bool:
    """Whether this runs from the guest's own memory."""
    return TOP == IN_MEMORY


def go_on_in_memory(program: str, read_too: tuple[tuple[str, ...], ...] = ()) -> None:
    """Goes on as a copy of a program of tools/guest in the guest's own memory, with the same words, once all others
    were read, these too; it doesn't come back."""
    shutil.rmtree(IN_MEMORY, ignore_errors=True)
    shutil.copytree(os.path.join(TOP, "tools"), os.path.join(IN_MEMORY, "tools"), symlinks=True)
    bridge = os.path.join(IN_MEMORY, os.path.relpath(COMPILED, TOP))
    os.makedirs(os.path.dirname(bridge))
    shutil.copy(COMPILED, bridge)
    own = [(os.path.join(IN_MEMORY, "tools", name), "--help") for name in ("live", "guest/stamped")]
    for words in (*READ_ONCE, *own, *read_too):
        subprocess.run(words, stdin=subprocess.DEVNULL, capture_output=True, check=False)
    path = os.path.join(IN_MEMORY, "tools", "guest", program)
    os.execv(path, [path, *sys.argv[1:]])
