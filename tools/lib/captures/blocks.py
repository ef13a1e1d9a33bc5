"""A capture file, handed to scapy in whole blocks: those of pcapng, and in pcap each frame with its header.

A file that was cut ends within a block. Some versions of scapy take what is left of it for a frame, others end as at
the end of a file, others fail. So scapy doesn't see it.
"""
import gzip
import io
import zlib

SECTION_HEADER = b"\x0a\x0d\x0d\x0a"
BIG_ENDIAN_SECTION = b"\x1a\x2b\x3c\x4d"
BLOCK_HEADER_LEN, LEAST_BLOCK = 8, 12
FRAME_HEADER_LEN = 16
# Wireshark takes no larger ones either.
MOST_OF_A_BLOCK, MOST_OF_A_FRAME = 1 << 24, 1 << 18


class Damaged(Exception):
    """What is wrong with a file, other than that its end is missing."""


class Cut(Exception):
    """The file ends within a block."""


class WholeBlocks:
    """What a reader of scapy reads in place of its file, once it has read the file's own header."""

    def __init__(self, reader, is_pcapng):
        self.reader, self.file = reader, reader.f
        self.next_block = self.pcapng_block if is_pcapng else self.pcap_frame
        self.block, self.has_ended, self.is_cut = io.BytesIO(), False, False

    def read(self, size):
        """So many octets of this block, or of the next one where all of this was read; none at the end."""
        octets = self.block.read(size)
        if octets or not size:
            return octets
        try:
            self.block = io.BytesIO(self.next_block())
        except Cut:
            self.is_cut = True
        octets = self.block.read(size)
        self.has_ended = not octets
        return octets

    def close(self):
        """Closes the file."""
        self.file.close()

    def left(self, size):
        """So many octets of the file, or those that are left."""
        try:
            return self.file.read(size)
        except EOFError:  # a compressed file that was cut
            raise Cut from None
        except (gzip.BadGzipFile, zlib.error) as fault:
            raise Damaged(fault) from None

    def whole(self, size):
        """So many octets of the file, which has to have them."""
        octets = self.left(size)
        if len(octets) < size:
            raise Cut
        return octets

    def header(self, size):
        """The header of a block, or nothing where the file ends."""
        first = self.left(1)
        return first and first + self.whole(size - 1)

    def pcapng_block(self):
        """The next block of a pcapng file. Its header has its type and its length, which may leave out padding."""
        header = self.header(BLOCK_HEADER_LEN)
        if not header:
            return b""
        is_big_endian = self.reader.endian == ">"
        if header.startswith(SECTION_HEADER):
            header += self.whole(len(BIG_ENDIAN_SECTION))
            is_big_endian = header.endswith(BIG_ENDIAN_SECTION)
        length = number(header[4:8], is_big_endian)
        if not LEAST_BLOCK <= length <= MOST_OF_A_BLOCK:
            raise Damaged(f"it has a block of {length} octets")
        return header + self.whole(length + -length % 4 - len(header))

    def pcap_frame(self):
        """The next frame of a pcap file, and the header before it, which has its length."""
        header = self.header(FRAME_HEADER_LEN)
        if not header:
            return b""
        length = number(header[8:12], self.reader.endian == ">")
        if length > MOST_OF_A_FRAME:
            raise Damaged(f"it has a frame of {length} octets")
        return header + self.whole(length)


def number(octets, is_big_endian):
    """The number that these octets are."""
    return int.from_bytes(octets, "big" if is_big_endian else "little")
