"""How much octets are like a frame of the air."""
from collections.abc import Iterable

from frames import DATA

LEAST_FRAME, MOST_LIKE = 10, 2
# The octets with which frames begin that a network reads (docs/PROTOCOL.md, "Frames").
BEGINNINGS = {bytes.fromhex(digits) for digits in (
    "4000", "b000", "0000", "2000", "a000", "c000", "0801", "0811", "4801", "4811", "a400")}


def likeness(octets: bytes, addresses: Iterable[bytes]) -> int:
    """How much octets are like a frame of the air: 1 each for a beginning that a network reads, and for a receiver that
    is a network's address or the broadcast address; 0 for what can't be one."""
    if len(octets) < LEAST_FRAME or octets[0] & 3 or octets[0] >> 2 & 3 > DATA:
        return 0
    return (octets[:2] in BEGINNINGS) + (octets[4:10] in addresses)
