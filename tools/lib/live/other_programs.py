"""Other interfaces of a radio that are up, before an access point begins there, and what a person does about each:
that depends on the program that holds it."""
import fnmatch
import os
import shutil
from collections.abc import Collection

from live import machine
from live.faults import Fault
from live.machine import Interface

PROCESSES, UNITS = "/proc", "/sys/fs/cgroup/system.slice"
PAGE = "docs/OPERATING.md, 'Programs that take radios'"
# The words of iwd by which it leaves radios alone, and takes certain ones only (iwd(8)).
NO_RADIOS, RADIOS = ("-P", "--nophys"), ("-p", "--phys")


def in_the_way(phy: str, own: Collection[str]) -> list[Interface]:
    """The interfaces of a radio that are up, but for those that an access point has made. While one is, none begins. A
    monitor interface is one of them too: the radio would be on its channel."""
    return [interface for interface in machine.interfaces()
            if interface.radio == phy and interface.is_up and interface.name not in own]


def advice(interface: Interface, phy: str) -> str:
    """How a person takes an interface down, so that it stays down."""
    down = f"`ip link set {interface.name} down`"
    if interface.is_monitor:
        return f"end what captures by it, and then {down}"
    if iwd_takes(phy):
        return f"iwd holds this radio: begin it with `--nophys {phy}` ({PAGE})"
    if network_manager_has(interface.name):
        return f"NetworkManager holds it: `nmcli device set {interface.name} managed no`, and then {down}"
    return f"{down}, and keep what has set it up away from the radio"


def iwd_takes(phy: str) -> bool:
    """Whether iwd runs, and takes this radio. Where /proc hides it, its unit shows that it runs, and not its words."""
    found = processes_of("iwd")
    if not found:
        return bool(machine.read_file(UNITS, "iwd.service", "cgroup.procs"))
    return any(words_take(words, phy) for words in found)


def processes_of(program: str) -> list[list[str]]:
    """The words with which each process of a program was begun."""
    numbers = [name for name in os.listdir(PROCESSES) if name.isdigit()]
    return [(machine.read_file(PROCESSES, number, "cmdline") or "").split("\0") for number in numbers
            if machine.read_file(PROCESSES, number, "comm") == program]


def words_take(words: list[str], phy: str) -> bool:
    """Whether iwd with these words takes a radio."""
    kept_off, only = patterns_of(words, NO_RADIOS), patterns_of(words, RADIOS)
    return not matches(phy, kept_off) and (not only or matches(phy, only))


def patterns_of(words: list[str], names: tuple[str, str]) -> list[str]:
    """The patterns of an option, behind a word or an equals sign, with commas between them."""
    short, long = names
    found = [value for word, value in zip(words, words[1:]) if word in names]
    found += [word.partition("=")[2] for word in words if word.startswith(f"{long}=")]
    found += [word[len(short):] for word in words if word.startswith(short) and word != short and word[1] != "-"]
    return [pattern for value in found for pattern in value.split(",")]


def matches(phy: str, patterns: list[str]) -> bool:
    """Whether a radio's name has one of these patterns."""
    return any(fnmatch.fnmatchcase(phy, pattern) for pattern in patterns)


def network_manager_has(name: str) -> bool:
    """Whether NetworkManager runs, and has this interface."""
    if shutil.which("nmcli") is None:
        return False
    try:
        lines = machine.run("env", "LC_ALL=C", "nmcli", "-t", "-f", "DEVICE,STATE", "device").splitlines()
    except Fault:  # it doesn't run
        return False
    states = dict(line.split(":", 1) for line in lines if ":" in line)
    return states.get(name, "unmanaged") != "unmanaged"
