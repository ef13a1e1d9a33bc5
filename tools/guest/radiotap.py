"""Radiotap headers (radiotap.org): what a monitor interface says of a frame."""
import struct
from dataclasses import dataclass

START = struct.Struct("<BBHI")  # version, padding, length, fields that are present
PRESENT_LEN, PRESENT_AT = 4, 4
MORE_PRESENT = 1 << 31
FLAGS_PRESENT, RX_FLAGS_PRESENT, TX_FLAGS_PRESENT = 1 << 1, 1 << 14, 1 << 15
# The fields up to the TX flags, in the order of their bits: length and alignment.
FIELDS = ((8, 8), (1, 1), (1, 1), (4, 2), (2, 1), (1, 1), (1, 1), (2, 2), (2, 2), (2, 2), (1, 1), (1, 1), (1, 1),
          (1, 1), (2, 2), (2, 2))
HAS_FCS, BAD_FCS = 0x10, 0x40
BAD_PLCP = 0x0002
FCS_LEN = 4


@dataclass(frozen=True)
class Captured:
    """A frame as a monitor interface shows it, without its frame check sequence; `was_sent` where it was sent here."""

    frame: bytes
    is_damaged: bool
    was_sent: bool


def fields_of(packet: bytes, length: int) -> dict[int, int]:
    """Where each field of the first word that is present stands, by its bit; fields that don't fit are left out."""
    place = PRESENT_AT
    first = present = int.from_bytes(packet[place:place + PRESENT_LEN], "little")
    place += PRESENT_LEN
    while present & MORE_PRESENT and place + PRESENT_LEN <= length:
        present = int.from_bytes(packet[place:place + PRESENT_LEN], "little")
        place += PRESENT_LEN
    found = {}
    for number, (size, alignment) in enumerate(FIELDS):
        if first & 1 << number:
            place += -place % alignment
            if place + size <= length:
                found[1 << number] = place
            place += size
    return found


def captured(packet: bytes) -> Captured | None:
    """What a packet of a monitor interface is, or None where it has no radiotap header."""
    if len(packet) < START.size:
        return None
    version, _, length, _ = START.unpack_from(packet)
    if version != 0 or not START.size <= length <= len(packet):
        return None
    fields = fields_of(packet, length)
    flags = packet[fields[FLAGS_PRESENT]] if FLAGS_PRESENT in fields else 0
    damaged = bool(flags & BAD_FCS)
    if RX_FLAGS_PRESENT in fields:
        damaged |= bool(packet[fields[RX_FLAGS_PRESENT]] & BAD_PLCP)
    frame = packet[length:-FCS_LEN] if flags & HAS_FCS else packet[length:]
    return Captured(frame, damaged, TX_FLAGS_PRESENT in fields)
