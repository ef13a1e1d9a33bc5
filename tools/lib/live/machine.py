"""What this machine has: its commands, radios and interfaces, read without changing anything."""
import os
import re
import subprocess
from dataclasses import dataclass

from live.faults import Fault
from live.links import MONITOR
from live.phys import Phy, read_phy

PACKAGES = {"iw": "iw", "ip": "iproute2", "ethtool": "ethtool"}
COUNTRY = re.compile(r"^country (\w\w):", re.MULTILINE)
CHANNEL = re.compile(r"^\s*channel \d+ \((\d+)(?:\.\d+)? MHz\)", re.MULTILINE)
RADIOS, INTERFACES = "/sys/class/ieee80211", "/sys/class/net"
ETHERNET, IS_UP = 1, 1
OFFLOAD = re.compile(r"^(?P<name>[a-z-]+): (?P<value>on|off)(?P<fixed> \[fixed\])?")


def run(*words: str) -> str:
    """What a command writes on standard output; its own group, so that Ctrl-C doesn't end it."""
    try:
        done = subprocess.run(words, capture_output=True, text=True, check=False, start_new_session=True)
    except OSError as fault:
        raise Fault(f"{words[0]}: {fault.strerror}") from None
    if done.returncode != 0:
        raise Fault(f"`{' '.join(words)}` failed: {(done.stderr or done.stdout).strip()}")
    return done.stdout


def radios() -> list[str]:
    """The names of this machine's radios."""
    return sorted(os.listdir(RADIOS)) if os.path.isdir(RADIOS) else []


def phy_of(name: str) -> Phy:
    """What a radio says that it can do."""
    return read_phy(run("iw", "phy", name, "info"))


def read_file(*path: str) -> str | None:
    """The text of a file of the kernel without its end, or None where it isn't there or can't be read."""
    try:
        with open(os.path.join(*path), encoding="utf-8") as file:
            return file.read().strip()
    except OSError:
        return None


def country() -> str:
    """The country whose rules of the air hold on this machine, `00` where none was set."""
    match = COUNTRY.search(run("iw", "reg", "get"))
    return match[1] if match else "00"


@dataclass(frozen=True)
class Interface:
    """A network interface of this machine."""

    name: str

    @property
    def folder(self) -> str:
        """Where the kernel tells of it."""
        return os.path.join(INTERFACES, self.name)

    @property
    def exists(self) -> bool:
        """Whether it is there."""
        return bool(self.name) and "/" not in self.name and os.path.isdir(self.folder)

    @property
    def index(self) -> str | None:
        """Its number, which another interface of its name doesn't have."""
        return read_file(self.folder, "ifindex")

    @property
    def address(self) -> str | None:
        """Its address of 48 bits, as text."""
        return read_file(self.folder, "address")

    @property
    def is_ethernet(self) -> bool:
        """Whether its frames are those of Ethernet."""
        return read_file(self.folder, "type") == str(ETHERNET)

    @property
    def is_up(self) -> bool:
        """Whether it was set up."""
        return bool(int(read_file(self.folder, "flags") or "0", 16) & IS_UP)

    @property
    def radio(self) -> str | None:
        """The radio that it is of, or None."""
        return read_file(self.folder, "phy80211", "name")

    @property
    def is_monitor(self) -> bool:
        """Whether it is a monitor interface of a radio."""
        return read_file(self.folder, "type") == str(MONITOR)

    @property
    def frequency(self) -> int | None:
        """The frequency in MHz that the kernel names for an interface of a radio, or None."""
        match = CHANNEL.search(run("iw", "dev", self.name, "info"))
        return int(match[1]) if match else None

    @property
    def users(self) -> list[str]:
        """The bridge, bond or VLANs that it serves."""
        return [name.removeprefix("upper_") for name in sorted(os.listdir(self.folder)) if name.startswith("upper_")]

    @property
    def addresses(self) -> list[str]:
        """Its addresses, with the lengths of their prefixes."""
        found = re.findall(r"^\s+inet6? (\S+)", run("ip", "address", "show", "dev", self.name), re.MULTILINE)
        return list(found)

    @property
    def other_end(self) -> "Interface | None":
        """The other end of a veth, where it is in this namespace."""
        index, other = self.index, read_file(self.folder, "iflink")
        for name in os.listdir(INTERFACES) if index != other else ():
            if (read_file(INTERFACES, name, "ifindex"), read_file(INTERFACES, name, "iflink")) == (other, index):
                return Interface(name)
        return None

    @property
    def is_veth(self) -> bool:
        """Whether it is one end of a veth."""
        return "driver: veth" in run("ethtool", "-i", self.name).splitlines()

    def offloads(self) -> dict[str, bool]:
        """What the interface does with frames in place of the kernel and can be changed, and whether it does now."""
        matches = (OFFLOAD.match(line) for line in run("ethtool", "-k", self.name).splitlines())
        return {match["name"]: match["value"] == "on" for match in matches if match and not match["fixed"]}


def interfaces() -> list[Interface]:
    """All interfaces of this namespace."""
    return [Interface(name) for name in sorted(os.listdir(INTERFACES))]
