"""Frames that were sent again."""
from frames import DATA, HEADER_LEN, MANAGEMENT, Frame
from texts import Line


def repeated(lines: list[Line]) -> list[Line]:
    """Frames with Retry 1 and the sequence number that their sender's frame had before."""
    before: dict[bytes, int] = {}
    found = []
    for line in lines:
        frame = Frame(line.octets)
        if line.kind != "A" or len(line.octets) < HEADER_LEN or frame.type not in (MANAGEMENT, DATA):
            continue
        if frame.retry and before.get(frame.transmitter) == frame.sequence_control:
            found.append(line)
        before[frame.transmitter] = frame.sequence_control
    return found
