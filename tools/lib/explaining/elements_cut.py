"""Which element of a body has the wrong length, where they don't fill the body to its last octet."""
from explaining.check_sequences import FCS_LEN, is_begun, is_rates
from explaining.reason import Reason
from explaining.source import quoted
from explaining.values import BASIC
from fields import ELEMENT_NAMES
from frames import EXTENDED_SUPPORTED_RATES, SSID, SUPPORTED_RATES, elements

MOST_NAME = 32
# The rates with which each of the two elements begins, as stations write them, in units of 500 kb/s.
FIRST_RATES = {SUPPORTED_RATES: (2, 12), EXTENDED_SUPPORTED_RATES: (12, 18, 24, 48, 96)}
KNOWN = {*ELEMENT_NAMES, 59, 70, 107, 114}


def wrong_length(octets: bytes, begin: int) -> Reason:
    """The reason, by the least change that makes elements that are known of the body, up to its end."""
    places = starts(octets, begin)
    found = next((reason for place in places for part in (exchanged, without_id, without_length, octet_too_many)
                  if (reason := part(octets, place))), None)
    fits = [fit for place in places for fit in fitting(octets, place)]
    name = next((fit for fit in fits if is_name(octets, fit[2], fit[3])), None)
    if found:
        return found
    if name:
        return told(octets, name[2], name[3])
    if is_followed(octets[begin:-FCS_LEN]) and not is_begun(octets[-FCS_LEN:]):
        return bare_rates(octets) or Reason(
            "four octets are too many at the end: a frame stands in a trace without its frame check sequence",
            (len(octets) - FCS_LEN, len(octets)), "leave them out")
    bare = bare_name(octets, begin)
    if bare:
        return Reason(f"{quoted(bare.decode())} stands there without its ID and its length, with which each element "
                      "begins",
                      (begin, begin + len(bare)), f"write `{bytes([SSID, len(bare)]).hex()}` before `{bare.hex()}`")
    if len(octets) - places[-1] == 1 and octets[-1] in KNOWN:
        return told(octets, places[-1], None)
    _, _, place, meant = min(fits, key=lambda fit: (fit[0], fit[0] and fit[2] != places[-1], *fit[1:]),
                             default=(True, 0, places[-1], None))
    return told(octets, place, meant)


def is_name(octets: bytes, place: int, length: int) -> bool:
    """Whether an SSID of this length has letters alone."""
    name = octets[place + 2:place + 2 + length]
    return octets[place] == SSID and bool(name) and name.isascii() and name.decode().isprintable()


def exchanged(octets: bytes, place: int) -> Reason | None:
    """An element whose length stands before its ID."""
    if len(octets) < place + 3:
        return None
    length, identifier = octets[place:place + 2]
    turned = octets[:place] + bytes([identifier, length]) + octets[place + 2:]
    worth = octets[place + 2:place + 2 + length]
    is_one = length and is_name(turned, place, length) or \
        identifier in (SUPPORTED_RATES, EXTENDED_SUPPORTED_RATES) and is_rates(worth)
    return Reason("the ID and the length of an element stand in each other's place: the ID comes first",
                  (place, place + 2), f"write `{turned[place:place + 2].hex()}`") \
        if identifier != length and is_one and is_followed(turned[place:]) else None


def without_id(octets: bytes, place: int) -> Reason | None:
    """A name behind its length alone."""
    mended = octets[:place] + bytes([SSID]) + octets[place:]
    return Reason("the ID of the element SSID is missing before its length", (place, place + 1),
                  f"write `00` before `{octets[place]:02x}`") \
        if len(octets) > place + 1 and is_name(mended, place, octets[place]) and is_followed(mended[place:]) else None


def without_length(octets: bytes, place: int) -> Reason | None:
    """Rates behind the ID alone, up to the end."""
    rates = octets[place + 1:]
    first = FIRST_RATES.get(octets[place], ()) if rates else ()
    is_one = len(rates) > 1 and is_rates(rates) and rates[0] & ~BASIC in first and rates[0] != len(rates) - 1
    return Reason(f"the length is missing between the ID `{octets[place]:02x}` and the rates `{rates.hex()}`",
                  (place, len(octets)), f"write `{len(rates):02x}` there") if is_one else None


def octet_too_many(octets: bytes, place: int) -> Reason | None:
    """An octet between two elements, as the zero that ends a text in C."""
    return Reason(f"an octet too many, `{octets[place]:02x}`, stands between two elements", (place, place + 1),
                  "leave it out") if 2 < len(octets) - place and octets[place] == 0 and \
        is_followed(octets[place + 1:]) and octets[place + 1] != SSID else None


def bare_rates(octets: bytes) -> Reason | None:
    """Rates without ID and length at the end."""
    rates = octets[-FCS_LEN:]
    return Reason(f"the rates `{rates.hex()}` stand there without an ID and a length, with which each element begins",
                  (len(octets) - FCS_LEN, len(octets)),
                  f"write `01{FCS_LEN:02x}` before them") if is_rates(rates) else None


def bare_name(octets: bytes, begin: int) -> bytes | None:
    """A name in letters where elements should begin, before elements that are known."""
    names = (octets[begin:end] for end in range(begin + 1, min(begin + MOST_NAME, len(octets) - 1) + 1)
             if is_followed(octets[end:]))
    name = next(names, b"")
    return name if name and name.isascii() and name.decode().isprintable() else None


def starts(octets: bytes, begin: int) -> list[int]:
    """Where elements begin, by the lengths that they say, up to the first one that is cut."""
    found = [begin]
    while found[-1] + 2 <= len(octets) and found[-1] + 2 + octets[found[-1] + 1] < len(octets):
        found.append(found[-1] + 2 + octets[found[-1] + 1])
    return found


def fitting(octets: bytes, place: int) -> list[tuple[bool, int, int, int]]:
    """The lengths that fit an element: whether nothing follows then, by how much they differ, the place, the length."""
    if len(octets) - place < 2 or octets[place] not in KNOWN:
        return []
    most = len(octets) - place - 2
    return [(length == most, abs(length - octets[place + 1]), place, length) for length in range(most + 1)
            if is_followed(octets[place + 2 + length:])]


def is_followed(rest: bytes) -> bool:
    """Whether octets are elements that are known, to the last octet."""
    listed = elements(rest)
    return listed is not None and all(identifier in KNOWN for identifier, _ in listed)


def told(octets: bytes, place: int, meant: int | None) -> Reason:
    """What is said of an element, and of the length that was meant."""
    if place + 2 > len(octets):
        return Reason(f"an element begins with its ID and its length, and here `{octets[place:].hex()}` stands alone",
                      (place, len(octets)), "leave it out, or write the element's length and its octets")
    name, length, there = ELEMENT_NAMES.get(octets[place], str(octets[place])), octets[place + 1], \
        len(octets) - place - 2
    if meant is None or meant == there:
        cut = ", or the frame was cut, and octets are missing at its end" * (length > there)
        return Reason(f"the element {name} says that it has {length} octets, and {there} follow{'s' * (there == 1)}",
                      (place + 1, place + 2),
                      f"its length `{octets[place + 1]:02x}` has to be `{there:02x}`{cut}" if there < 256 else None)
    return Reason(f"the element {name} says that it has {length} octets, and {meant} stand before the next element",
                  (place + 1, place + 2), f"its length `{octets[place + 1]:02x}` has to be `{meant:02x}`")
