"""Frames that a network put on its wire and that a wire brings back: a switch that reflects them (hairpin), or a bridge
that joins the wires of several networks. Their source is a station, and that is as it should be."""
from collections.abc import Iterable

from texts import Line

HEADER_LEN = 14


class Reflected:
    """The frames that come over each wire of a trace, and those that networks put on a wire so far."""

    def __init__(self, lines: Iterable[Line]) -> None:
        self.coming: dict[tuple[bytes | None, bytes], list[bytes]] = {}
        self.gone: dict[bytes, set[bytes]] = {}
        for line in lines:
            if line.kind == "W":
                self.coming.setdefault((line.bssid, line.octets[:HEADER_LEN]), []).append(line.octets)

    def note(self, octets: bytes) -> None:
        """Notes a frame that a network put on its wire."""
        self.gone.setdefault(octets[:HEADER_LEN], set()).add(octets)

    def comes_back(self, bssid: bytes, octets: bytes) -> bool:
        """Whether a line has this frame come over the wire of this network."""
        return any(is_same(octets, other) for other in self.coming.get((bssid, octets[:HEADER_LEN]), ()))

    def went_out(self, octets: bytes) -> bool:
        """Whether a network put this frame on a wire before."""
        return any(is_same(other, octets) for other in self.gone.get(octets[:HEADER_LEN], ()))


def is_same(sent: bytes, came: bytes) -> bool:
    """Whether a frame came as it was sent, perhaps with the zeros that make a short one long enough for a wire."""
    return came.startswith(sent) and not any(came[len(sent):])
