"""Tests of tools/guest/radiotap.py, by which the guest's cases read what a monitor interface shows."""
import struct
import unittest

import radiotap
from frames import BROADCAST, address_of

OURS, STATION = address_of("02:00:00:00:01:01"), address_of("02:aa:00:00:00:01")


def data():
    """A frame of data, to the access point."""
    return b"\x08\x01" + bytes(2) + OURS + STATION + BROADCAST + b"\x10\x00" + b"body"


def with_radiotap(frame, flags=0, present=1 << 1, fields=None):
    """A frame as a monitor interface gives it."""
    fields = bytes([flags]) if fields is None else fields
    return struct.pack("<BBHI", 0, 0, 8 + len(fields), present) + fields + frame


class Headers(unittest.TestCase):
    """Headers of radiotap."""

    def test_plain(self):
        """A frame is what follows the header."""
        found = radiotap.captured(with_radiotap(data()))
        self.assertEqual(found, radiotap.Captured(data(), False, False))

    def test_frame_check_sequence_is_taken_off_where_flags_say_so(self):
        """Flags 0x10: the last four octets are a check sequence."""
        self.assertEqual(radiotap.captured(with_radiotap(data() + b"\1\2\3\4", 0x10)).frame, data())
        self.assertEqual(radiotap.captured(with_radiotap(data() + b"\1\2\3\4")).frame, data() + b"\1\2\3\4")

    def test_damaged(self):
        """Flags 0x40, and the RX flag of a bad PLCP."""
        self.assertTrue(radiotap.captured(with_radiotap(data(), 0x40)).is_damaged)
        fields = b"\x00\x00" + b"\x02\x00"
        self.assertTrue(radiotap.captured(with_radiotap(data(), present=1 << 1 | 1 << 14, fields=fields)).is_damaged)

    def test_fields_are_aligned(self):
        """A timestamp of eight octets begins at a multiple of eight, behind a second word of fields."""
        words = struct.pack("<II", 1 << 31 | 1 | 1 << 1 | 1 << 15, 0)
        fields = bytes(4) + b"\xff" * 8 + b"\x10" + bytes(1) + bytes(2)
        header = struct.pack("<BBH", 0, 0, 4 + len(words) + len(fields)) + words + fields
        found = radiotap.captured(header + data() + bytes(4))
        self.assertEqual(found, radiotap.Captured(data(), False, True))

    def test_no_header(self):
        """Too short, another version, a length beyond the packet: no frame."""
        for packet in (b"", bytes(7), b"\1" + with_radiotap(data())[1:], struct.pack("<BBHI", 0, 0, 99, 0) + bytes(8),
                       struct.pack("<BBHI", 0, 0, 4, 0) + bytes(8)):
            self.assertIsNone(radiotap.captured(packet), packet.hex())

    def test_cut_header(self):
        """Fields that don't fit the header's length are not read."""
        self.assertEqual(radiotap.captured(with_radiotap(data(), present=0xFFFF, fields=bytes(2))).frame, data())
