"""Capture files in and out, read and written by scapy: pcap and pcapng, radiotap, plain 802.11 and Ethernet."""
import logging
import sys
import zlib
from fractions import Fraction
from itertools import count
from typing import NamedTuple, Optional

import standard_input
from captures.blocks import Damaged, WholeBlocks

logging.getLogger("scapy").setLevel(logging.CRITICAL)
try:
    from scapy.error import Scapy_Exception
    from scapy.layers.dot11 import RadioTap
    from scapy.utils import RawPcapNgReader, RawPcapNgWriter, RawPcapReader, RawPcapWriter
    HAS_SCAPY = True
except ImportError:
    HAS_SCAPY = False

ETHERNET, PLAIN_80211, RADIOTAP = 1, 105, 127
LINK_NAMES = {119: "Prism headers", 163: "AVS headers", 192: "PPI headers", 113: "Linux cooked headers"}
FCS_LEN = 4
HAS_FCS, BAD_FCS = 0x10, 0x40
BAD_PLCP = 0x02


class CaptureError(Exception):
    """A capture file that can't be read, or not by these tools."""


def need_scapy():
    """Ends a tool where scapy is missing: once its words are read, so that `--help` always answers."""
    if not HAS_SCAPY:
        raise SystemExit("python3-scapy is missing: `sudo apt install python3-scapy` installs it")


class Captured(NamedTuple):
    """A frame of a capture file: when, in seconds, what kind of header it has, whether the capture has all of it, and
    its number in the file, from 1, as Wireshark shows it."""

    time: Fraction
    link: int
    octets: bytes
    is_whole: bool
    number: int


class Heard(NamedTuple):
    """A frame without radiotap: whether a check sequence is at its end (None: not said), whether it is damaged, and its
    number in the file."""

    time: Fraction
    octets: bytes
    is_whole: bool
    has_fcs: Optional[bool]
    is_damaged: bool
    number: int


def read_capture(path):
    """Yields each frame of a capture file, in the file's order. Of a file that ends within a frame, as one that is
    still written does, it yields those before, and says so on standard error. `-` is standard input."""
    try:
        reader = RawPcapReader(standard_input.path_of(path))
    except (OSError, Scapy_Exception, EOFError, zlib.error) as fault:
        path = standard_input.name_of(path)
        reason = getattr(fault, "strerror", None) or "it is no pcap or pcapng file"
        raise CaptureError(f"{path}: {reason}") from None
    path = standard_input.name_of(path)
    blocks = reader.f = WholeBlocks(reader, isinstance(reader, RawPcapNgReader))
    for number in count(1):
        try:
            octets, told = reader._read_packet()
        except (EOFError, Scapy_Exception, Damaged) as fault:
            if not blocks.has_ended:
                raise CaptureError(f"{path}: it is damaged: {str(fault) or 'a block lacks a part'}") from None
            break
        yield captured(path, reader, octets, told, number)
    if blocks.is_cut:
        print(f"{path}: the file ends within a frame: those before it were read", file=sys.stderr)
    reader.close()


def captured(path, reader, octets, told, number):
    """One frame, of what scapy tells of it."""
    if hasattr(told, "tshigh"):
        if told.tshigh is None:
            raise CaptureError(f"{path}: its frames have no times")
        time = Fraction((told.tshigh << 32) + told.tslow, told.tsresol)
        link = told.linktype
    else:
        time = told.sec + Fraction(told.usec, 1_000_000_000 if reader.nano else 1_000_000)
        link = reader.linktype & 0x3FFFFFF
    return Captured(time, link, octets, len(octets) >= told.wirelen, number)


def read_air(path):
    """Yields each frame of a monitor-mode capture, without radiotap."""
    name = standard_input.name_of(path)
    for frame in read_capture(path):
        if frame.link == RADIOTAP:
            yield without_radiotap(name, frame)
        elif frame.link == PLAIN_80211:
            yield Heard(frame.time, frame.octets, frame.is_whole, None, False, frame.number)
        else:
            raise CaptureError(f"{name}: {link_name(frame.link)}: it is no capture in monitor mode with radiotap or "
                               "plain 802.11 headers")


def read_wire(path):
    """Yields each frame of a capture of an Ethernet port."""
    name = standard_input.name_of(path)
    for frame in read_capture(path):
        if frame.link != ETHERNET:
            raise CaptureError(f"{name}: {link_name(frame.link)}: it is no capture of an Ethernet port")
        yield frame


def link_name(link):
    """What a link type is called."""
    names = {ETHERNET: "Ethernet", PLAIN_80211: "plain 802.11", RADIOTAP: "radiotap", **LINK_NAMES}
    return f"its frames have {names[link]}" if link in names else f"its frames have link type {link}"


def without_radiotap(path, frame):
    """The frame behind a radiotap header, and what that says of the check sequence."""
    octets = frame.octets
    length = int.from_bytes(octets[2:4], "little")
    if len(octets) < 8 or octets[0] != 0 or not 8 <= length <= len(octets):
        if not frame.is_whole:
            return Heard(frame.time, b"", False, None, False, frame.number)
        raise CaptureError(f"{path}: a frame has no radiotap header, though the file says so")
    header = RadioTap(octets[:length])
    flags = None if header.Flags is None else int(header.Flags)
    damaged = bool((flags or 0) & BAD_FCS) or bool(int(header.RXFlags or 0) & BAD_PLCP)
    has_fcs = None if flags is None else bool(flags & HAS_FCS)
    return Heard(frame.time, octets[length:], frame.is_whole, has_fcs, damaged, frame.number)


def fcs_of(octets):
    """The frame check sequence of a frame (9.2.4.8): CRC-32, low octet first."""
    return zlib.crc32(octets).to_bytes(FCS_LEN, "little")


def ends_with_fcs(octets):
    """Whether the last four octets are the check sequence of those before."""
    return len(octets) > FCS_LEN and fcs_of(octets[:-FCS_LEN]) == octets[-FCS_LEN:]


def write_pcap(path, link, frames):
    """Writes pairs of microseconds since 1970 and octets as a pcap file."""
    writer = RawPcapWriter(path, linktype=link)
    writer.write_header(None)
    for microseconds, octets in frames:
        writer.write_packet(octets, sec=microseconds // 1_000_000, usec=microseconds % 1_000_000)
    writer.close()


def write_pcapng(path, link, frames):
    """Writes triples of microseconds since 1970, octets, and how many there were on the air, as a pcapng file."""
    writer = RawPcapNgWriter(path)
    writer.sync, writer.linktype = False, link
    writer.write_header(None)
    for microseconds, octets, length in frames:
        writer.write_packet(octets, sec=Fraction(microseconds, 1_000_000), wirelen=length)
    writer.close()
