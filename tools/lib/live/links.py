"""What the kernel tells of this machine's interfaces whenever one changes (rtnetlink(7))."""
import errno
import os
import socket
import struct
from collections.abc import Iterator
from contextlib import ExitStack
from dataclasses import dataclass

LINKS = 1  # RTMGRP_LINK
NEW, GONE = 16, 17  # RTM_NEWLINK, RTM_DELLINK
HEADER, INFO, ATTRIBUTE = struct.Struct("=IHHII"), struct.Struct("=BxHiII"), struct.Struct("=HH")
NAME = 3  # IFLA_IFNAME
IS_UP = 1  # IFF_UP
MONITOR = 803  # ARPHRD_IEEE80211_RADIOTAP
LONGEST = 1 << 16


@dataclass(frozen=True)
class Link:
    """An interface as it was at one moment: its name, what its frames are (ARPHRD_), and whether it was up."""

    name: str
    hardware: int
    is_up: bool

    @property
    def is_monitor(self) -> bool:
        """Whether it is a monitor interface of a radio."""
        return self.hardware == MONITOR


class Links:
    """The changes since one looked last."""

    def __init__(self, stack: ExitStack) -> None:
        self.socket = socket.socket(socket.AF_NETLINK, socket.SOCK_RAW | socket.SOCK_NONBLOCK | socket.SOCK_CLOEXEC,
                                    socket.NETLINK_ROUTE)
        stack.callback(self.socket.close)
        self.socket.bind((0, LINKS))

    def fileno(self) -> int:
        """By which one waits for a change."""
        return self.socket.fileno()

    def changed(self) -> list[Link]:
        """Each change, the oldest first. Where there were too many for the kernel to keep, the interfaces themselves tell
        how they are now."""
        found: list[Link] = []
        while True:
            try:
                found += links_of(self.socket.recv(LONGEST))
            except BlockingIOError:
                return found
            except OSError as fault:
                if fault.errno != errno.ENOBUFS:
                    raise


def links_of(octets: bytes) -> Iterator[Link]:
    """The interfaces of which messages tell, one behind the other."""
    place = 0
    while place + HEADER.size <= len(octets):
        length, kind, *_ = HEADER.unpack_from(octets, place)
        if length < HEADER.size or place + length > len(octets):
            return
        if kind in (NEW, GONE) and length >= HEADER.size + INFO.size:
            yield link_of(octets[place + HEADER.size:place + length], kind == GONE)
        place += aligned(length)


def link_of(octets: bytes, is_gone: bool) -> Link:
    """What one message says of an interface."""
    _, hardware, _, flags, _ = INFO.unpack_from(octets)
    place, name = INFO.size, ""
    while place + ATTRIBUTE.size <= len(octets):
        length, kind = ATTRIBUTE.unpack_from(octets, place)
        if length < ATTRIBUTE.size:
            break
        if kind == NAME:
            name = os.fsdecode(octets[place + ATTRIBUTE.size:place + length].rstrip(b"\0"))
        place += aligned(length)
    return Link(name, hardware, bool(flags & IS_UP) and not is_gone)


def aligned(length: int) -> int:
    """Where what is behind so many octets begins."""
    return (length + 3) & ~3
