"""The beacon that the kernel sends by itself for an access point interface: as rarely as it allows, and of no network that a
station could join, so that no station takes it for one of its own network's."""

from frames import address_of
from live import machine

NAME = "waltigon"  # an SSID for the kernel, which the beacon doesn't tell
LONGEST_INTERVAL = 10_000  # in time units (nl80211)
EVERY_BEACON = 1  # the DTIM period
BEACON = b"\x80\x00"
BROADCAST = b"\xff" * 6
DURATION, SEQUENCE_CONTROL, TIMESTAMP = bytes(2), bytes(2), bytes(8)
NO_NETWORK = bytes(2)  # the capability field of who is neither an access point nor a station of an IBSS
NO_NAME, ONE_RATE = b"\x00\x00", b"\x01\x01\x82"  # elements: an SSID of no octets, and 1 Mb/s
MASKS = range(0, 256, 2)  # of the first octet, whose last bit would make it a group's address


def other_address(phy: str, bssids: tuple[bytes, ...]) -> bytes:
    """The radio's own address, or one like it, where a network has that."""
    own = address_of(machine.read_file(machine.RADIOS, phy, "macaddress") or "02:00:00:00:00:00")
    likes = (bytes([own[0] ^ mask]) + own[1:] for mask in MASKS)
    return next(address for address in likes if address not in bssids)


def head_of(address: bytes) -> bytes:
    """What stands before the TIM element, which the kernel writes."""
    interval = LONGEST_INTERVAL.to_bytes(2, "little")
    return (BEACON + DURATION + BROADCAST + address + address + SEQUENCE_CONTROL + TIMESTAMP + interval + NO_NETWORK
            + NO_NAME + ONE_RATE)


def start_words(frequency: int, address: bytes) -> tuple[str, ...]:
    """The words of `iw dev NAME` by which an access point interface takes the channel, and begins."""
    return ("ap", "start", NAME, str(frequency), str(LONGEST_INTERVAL), str(EVERY_BEACON), "hidden-ssid", "head",
            head_of(address).hex())
