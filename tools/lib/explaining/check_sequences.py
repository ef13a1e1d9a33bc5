"""Frames of a trace whose frame check sequence was left on (9.2.4.8): by the sequence itself, or since they are four
octets longer than they say."""
import zlib

from explaining.values import BASIC, UNITS
from frames import (CONTROL, DATA, EXTENDED_SUPPORTED_RATES, HEADER_LEN, MANAGEMENT, NULL, PLAIN_DATA, PS_POLL,
                    SUPPORTED_RATES, Frame, elements)
from reading import FIXED_LEN, POLL_LEN, SNAP

FCS_LEN, LEAST_LEN = 4, 10
TYPE_END = HEADER_LEN + len(SNAP) + 2
IPV4, IPV6, ARP = bytes.fromhex("0800"), bytes.fromhex("86dd"), bytes.fromhex("0806")
IPV6_HEADER_LEN, ARP_LEN = 40, 28


def ends_with_fcs(octets: bytes) -> bool:
    """Whether the last four octets are the check sequence of those before."""
    return (len(octets) > LEAST_LEN + FCS_LEN and
            zlib.crc32(octets[:-FCS_LEN]).to_bytes(FCS_LEN, "little") == octets[-FCS_LEN:])


def said_length(octets: bytes) -> int | None:
    """How long a frame on the air is by what it says itself; None where it doesn't say."""
    frame = Frame(octets)
    if len(octets) < POLL_LEN or octets[0] & 3 or frame.protected:
        return None
    if frame.type == CONTROL:
        return POLL_LEN if frame.subtype == PS_POLL else None
    if len(octets) < HEADER_LEN or frame.from_ds:
        return None
    if frame.type == MANAGEMENT and frame.subtype in FIXED_LEN:
        return length_by_elements(octets, HEADER_LEN + FIXED_LEN[frame.subtype])
    if frame.type == DATA and frame.subtype in (NULL, PLAIN_DATA):
        return HEADER_LEN if frame.subtype == NULL else length_by_packet(octets)
    return None


def length_by_elements(octets: bytes, begin: int) -> int | None:
    """How long a frame is whose elements go on to its end, or to four octets before that."""
    if elements(octets[begin:]) is not None:
        return len(octets)
    end = len(octets) - FCS_LEN
    is_element = is_rates(octets[end:]) or is_begun(octets[end:])
    return None if end < begin or elements(octets[begin:end]) is None or is_element else end


def is_rates(octets: bytes) -> bool:
    """Whether octets are rates of 802.11b and g, each once, and so those of an element and no check sequence."""
    rates = [rate & ~BASIC for rate in octets]
    return bool(rates) and set(rates) <= UNITS and len(set(rates)) == len(rates)


def is_begun(octets: bytes) -> bool:
    """Whether octets are the beginning of an element of rates, which says that it has more."""
    return octets[0] in (SUPPORTED_RATES, EXTENDED_SUPPORTED_RATES) and octets[1] > len(octets) - 2 and \
        {rate & ~BASIC for rate in octets[2:]} <= UNITS


def length_by_packet(octets: bytes) -> int | None:
    """How long a data frame is by the packet in it."""
    kind, packet = octets[TYPE_END - 2:TYPE_END], octets[TYPE_END:]
    if octets[HEADER_LEN:TYPE_END - 2] != SNAP:
        return None
    if kind == ARP:
        return TYPE_END + ARP_LEN
    if kind == IPV4 and packet[:1].hex()[:1] == "4":
        return TYPE_END + int.from_bytes(packet[2:4], "big")
    if kind == IPV6 and packet[:1].hex()[:1] == "6":
        return TYPE_END + IPV6_HEADER_LEN + int.from_bytes(packet[4:6], "big")
    return None


def octets_too_many(octets: bytes) -> int | None:
    """By how many octets a frame on the air is longer than it says; None where it doesn't say how long it is."""
    length = said_length(octets)
    return None if length is None else len(octets) - length
