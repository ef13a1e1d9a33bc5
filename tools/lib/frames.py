"""Octets on the air as the fields that the tools look at (IEEE Std 802.11-2016, 9.2 to 9.4). Nothing is checked
here."""
from typing import NamedTuple

BROADCAST = bytes([0xFF] * 6)
MANAGEMENT, CONTROL, DATA = 0, 1, 2
ASSOCIATION_REQUEST, ASSOCIATION_RESPONSE, REASSOCIATION_REQUEST, REASSOCIATION_RESPONSE = 0, 1, 2, 3
PROBE_REQUEST, PROBE_RESPONSE, BEACON = 4, 5, 8
DISASSOCIATION, AUTHENTICATION, DEAUTHENTICATION = 10, 11, 12
PS_POLL = 10
PLAIN_DATA, NULL = 0, 4
SSID, SUPPORTED_RATES, DSSS_PARAMETER_SET, TIM, EXTENDED_SUPPORTED_RATES, HT_OPERATION = 0, 1, 3, 5, 50, 61
HEADER_LEN = 24
BEACON_FIXED_LEN = 12
TIME_UNIT = 1024


class Frame(NamedTuple):
    """A string of octets that was on the air, of at least ten octets, without its frame check sequence."""

    octets: bytes

    @property
    def type(self):
        """Management, control, data or extension: 0 to 3."""
        return self.octets[0] >> 2 & 3

    @property
    def subtype(self):
        """The subtype, 0 to 15."""
        return self.octets[0] >> 4

    @property
    def to_ds(self):
        """Whether To DS is 1."""
        return bool(self.octets[1] & 1)

    @property
    def from_ds(self):
        """Whether From DS is 1."""
        return bool(self.octets[1] & 2)

    @property
    def retry(self):
        """Whether it was sent before."""
        return bool(self.octets[1] & 8)

    @property
    def power_management(self):
        """Whether its sender says that it dozes."""
        return bool(self.octets[1] & 0x10)

    @property
    def more_data(self):
        """Whether More Data is 1."""
        return bool(self.octets[1] & 0x20)

    @property
    def protected(self):
        """Whether it is encrypted."""
        return bool(self.octets[1] & 0x40)

    @property
    def receiver(self):
        """Address 1."""
        return self.octets[4:10]

    @property
    def transmitter(self):
        """Address 2: fewer than six octets where there is none."""
        return self.octets[10:16]

    @property
    def third(self):
        """Address 3: fewer than six octets where there is none."""
        return self.octets[16:22]

    @property
    def sequence_control(self):
        """The fragment number and the sequence number."""
        return number(self.octets[22:24])

    @property
    def body(self):
        """What follows a header of three addresses."""
        return self.octets[HEADER_LEN:]

    @property
    def is_qos(self):
        """Whether it is one of the QoS data frames."""
        return self.type == DATA and bool(self.subtype & 8)

    def is_management(self, subtype):
        """Whether it is a management frame of this subtype."""
        return self.type == MANAGEMENT and self.subtype == subtype

    def qos_control(self):
        """The QoS Control field, or None."""
        place = HEADER_LEN + (6 if self.to_ds and self.from_ds else 0)
        if not self.is_qos or len(self.octets) < place + 2:
            return None
        return number(self.octets[place:place + 2])


def number(octets):
    """The number that is sent low octet first."""
    return int.from_bytes(octets, "little")


def is_group(address):
    """Whether it is a group address."""
    return bool(address[:1]) and bool(address[0] & 1)


def address_text(address):
    """Six octets as pairs of digits with `:` between."""
    return address.hex(":")


def address_of(text):
    """The six octets of such a text of either case; ValueError where it is none."""
    pairs = text.split(":")
    if len(pairs) != 6 or any(len(pair) != 2 for pair in pairs):
        raise ValueError(f"{text} is no address, as 02:00:00:00:00:01 is one")
    return bytes(int(pair, 16) for pair in pairs)


def elements(body):
    """The elements of a body as pairs of an ID and octets, or None where the body isn't elements to its last octet."""
    found, place = [], 0
    while place < len(body):
        if place + 2 > len(body) or place + 2 + body[place + 1] > len(body):
            return None
        end = place + 2 + body[place + 1]
        found.append((body[place], body[place + 2:end]))
        place = end
    return found


def first_of(found, wanted):
    """The octets of the first element with this ID, or None."""
    return next((octets for identifier, octets in found if identifier == wanted), None)


def tim_bits(octets):
    """What the octets of a TIM say: the DTIM count, the DTIM period, whether the group's bit is set, and the
    association identifiers whose bits are set."""
    count, period, control = octets[:3]
    first = 8 * (control & 0xFE)
    bits = octets[3:]
    set_bits = {first + place for place in range(8 * len(bits)) if bits[place // 8] >> place % 8 & 1}
    return count, period, bool(control & 1), set_bits - {0}
