"""Tests of what capture files are read as: those that are none, that were cut, and that are damaged."""
import contextlib
import gzip
import io
import os
from itertools import accumulate
from pathlib import Path

from captures.files import PLAIN_80211, read_capture, write_pcap, write_pcapng
from common import THREE, ToolTest, tool

SAMPLE = os.path.join(THREE, "air.pcapng")
FRAMES = [(time, bytes(length)) for time, length in enumerate((24, 30, 41))]
# Where the first frame of a file begins, as scapy writes it, and what stands around each.
PCAP_HEADER_LEN, PCAP_FRAME_HEADER_LEN = 24, 16
PCAPNG_HEADERS_LEN, PCAPNG_FRAME_HEADER_LEN = 48, 32
# A block of a frame that is too short to say when the frame came.
SHORT_BLOCK = bytes.fromhex("060000000c0000000c000000")


class CaptureFiles(ToolTest):
    """Pcap and pcapng, packed by gzip or not."""

    def octets_of(self, path):
        """What a file has."""
        return Path(path).read_bytes()

    def pcap(self):
        """A pcap file, and where its frames end."""
        write_pcap(self.path("pcap"), PLAIN_80211, FRAMES)
        lengths = (PCAP_FRAME_HEADER_LEN + len(octets) for _, octets in FRAMES)
        return self.octets_of(self.path("pcap")), list(accumulate(lengths, initial=PCAP_HEADER_LEN))

    def pcapng(self):
        """A pcapng file, and where the blocks of its frames end, which are padded to 32 bits."""
        write_pcapng(self.path("pcapng"), PLAIN_80211, [(time, octets, len(octets)) for time, octets in FRAMES])
        lengths = (PCAPNG_FRAME_HEADER_LEN + len(octets) + -len(octets) % 4 for _, octets in FRAMES)
        return self.octets_of(self.path("pcapng")), list(accumulate(lengths, initial=PCAPNG_HEADERS_LEN))

    def test_files_that_are_no_captures(self):
        """A file that isn't there, that is no capture, or that is of a wire is refused."""
        self.refused("trace-from-capture", self.path("none"), says="No such file")
        self.refused("trace-from-capture", os.path.join(THREE, "input"), says="no pcap or pcapng")
        self.refused("trace-from-capture", os.path.join(THREE, "wire.3.pcapng"), says="no capture in monitor mode")
        self.write("packed", gzip.compress(b"")[:10] + self.octets_of(SAMPLE))
        self.refused("trace-from-capture", self.path("packed"), says="no pcap or pcapng")

    def test_files_that_are_damaged(self):
        """A file is refused whose blocks have a wrong length, or lack what they have to have."""
        pcapng, ends = self.pcapng()
        pcap, _ = self.pcap()
        length = ends[0] + 4
        for name, octets, says in (
                ("tail", pcapng[:-4] + bytes(4) + pcapng, "it is damaged"),
                ("length", pcapng[:length] + bytes(4) + pcapng[length + 4:], "it is damaged: it has a block of 0 octets"),
                ("short", pcapng + SHORT_BLOCK, "it is damaged: a block lacks a part"),
                ("long", pcap + b"\xff" * 16, "it is damaged: it has a frame of 4294967295 octets")):
            self.write(name, octets)
            self.refused("trace-from-capture", self.path(name), says=says)

    def test_file_that_was_cut(self):
        """Of a file that was cut the tool takes the whole frames, and says so."""
        self.write("cut", self.octets_of(SAMPLE)[:-6])
        status, _, stderr = tool("trace-from-capture", self.path("cut"))
        self.assertEqual(status, 0)
        self.assertIn("the file ends within a frame", stderr)
        self.assertIn("cut: 58 frames", stderr)

    def test_cut_anywhere(self):
        """It is told wherever the file was cut but between two frames."""
        for whole, ends in (self.pcap(), self.pcapng()):
            self.assertEqual(ends[-1], len(whole))
            for size in range(ends[0], len(whole) + 1):
                self.write("cut", whole[:size])
                wanted = sum(end <= size for end in ends) - 1, size not in ends
                self.assertEqual(self.frames_of("cut"), wanted, f"{size} octets of {len(whole)}")

    def test_packed_file_that_was_cut(self):
        """So it is with one that was packed by gzip."""
        self.write("packed", gzip.compress(self.pcap()[0])[:-12])
        count, is_cut = self.frames_of("packed")
        self.assertTrue(is_cut)
        self.assertLess(count, len(FRAMES))

    def frames_of(self, name):
        """How many frames a file has, and whether it is told that it ends within one."""
        with contextlib.redirect_stderr(io.StringIO()) as told:
            count = len(list(read_capture(self.path(name))))
        return count, "the file ends within a frame" in told.getvalue()
