"""Why a request to associate lacks a basic rate (status 18): what its elements of rates have, and how they may have
been written."""
import re
from collections.abc import Callable
from dataclasses import dataclass

from explaining.configuration import Keys
from explaining.reason import Reason, Span
from explaining.source import quoted
from explaining.values import BASIC, UNITS
from frames import EXTENDED_SUPPORTED_RATES, HEADER_LEN, SSID, SUPPORTED_RATES, Frame, elements, first_of
from reading import FIXED_LEN

# In units of 500 kb/s: 1 Mb/s, and 5.5 Mb/s, of which people write the 5; then the rates of 802.11b and g in Mb/s.
MEGABIT, ELEVEN_HALVES, CUT_RATE = 2, 11, 5
MEGABITS = {1, 2, CUT_RATE, 6, 9, 11, 12, 18, 24, 36, 48, 54}
# The digits of that ID as people write it, read as hexadecimal ones.
DECIMAL_ID = int(str(EXTENDED_SUPPORTED_RATES), 16)
VENDOR = 221
NO_RATES = (SSID, VENDOR)  # whose octets may be any
OF_RATES = (SUPPORTED_RATES, EXTENDED_SUPPORTED_RATES)
LETTERS_OF_RATES = re.compile(rb"\d[\d ,.*]*\d")


@dataclass(frozen=True)
class Lacking:
    """A request: its octets, where its elements begin, the bodies of its elements of rates, the rates of the network,
    and the basic ones that the request lacks."""

    octets: bytes
    begin: int
    told: list[bytes]
    wanted: bytes
    missing: list[int]

    @property
    def listed(self) -> list[tuple[int, bytes]]:
        """All elements."""
        return elements(self.octets[self.begin:]) or []

    @property
    def has(self) -> set[int]:
        """The rates that it has."""
        return {rate & ~BASIC for part in self.told for rate in part}

    @property
    def text(self) -> str:
        """Which rates it lacks, in words."""
        named = ", ".join(f"{rate / 2:g}" for rate in self.missing)
        return f"the basic rate{'s' * (len(self.missing) > 1)} {named} Mb/s"

    @property
    def span(self) -> Span | None:
        """Its first element of rates."""
        at = self.place(lambda identifier: identifier in OF_RATES, [])
        return (at, at + 2 + self.octets[at + 1]) if at else None

    def instead(self) -> str:
        """The network's rates, as they would be written."""
        return f"write `{bytes(rate & ~BASIC for rate in self.wanted).hex()}` for the network's"

    def element(self) -> str:
        """An element with the missing rates."""
        return f"`01{len(self.missing):02x}{bytes(self.missing).hex()}`"

    def place(self, is_it: Callable[[int], bool], missing: list[int]) -> int | None:
        """Where an element begins that has such an ID and these rates."""
        begin = self.begin
        for identifier, body in self.listed:
            if is_it(identifier) and set(missing) <= {rate & ~BASIC for rate in body}:
                return begin
            begin += 2 + len(body)
        return None


def of_rates(octets: bytes, keys: Keys) -> Reason:
    """A request without a basic rate."""
    frame = Frame(octets)
    entry = keys.table.entries.get("rates") if keys.table else None
    wanted = bytes.fromhex(entry.value.text) if entry and entry.value.text else b""
    begin = HEADER_LEN + FIXED_LEN[frame.subtype]
    listed = elements(octets[begin:]) or []
    told = [body for body in (first_of(listed, identifier) for identifier in OF_RATES) if body is not None]
    has = {rate & ~BASIC for part in told for rate in part}
    missing = [rate & ~BASIC for rate in wanted if rate & BASIC and rate & ~BASIC not in has]
    lacking = Lacking(octets, begin, told, wanted, missing)
    parts = (of_numbers, of_empty, of_second_element, of_decimal_numbers, of_decimal_identifier, of_other_identifier)
    found = next((reason for part in parts if (reason := part(lacking))), None)
    return found or Reason(f"it lacks {lacking.text} of the network", lacking.span,
                           f"add `{bytes(missing).hex()}` to its rates, or take the high bit off them in "
                           f"`rates`{keys.where('rates')}")


def as_megabits(rates: set[int]) -> list[set[int]]:
    """The rates in units of 500 kb/s that these are, where they were written in Mb/s, as numbers or digit by digit: all
    of them are rates then, and not all are as they stand."""
    decimal = {int(digits) if (digits := f"{rate:x}").isdecimal() else rate for rate in rates}
    return [{ELEVEN_HALVES if rate == CUT_RATE else MEGABIT * rate for rate in written} for written in (rates, decimal)
            if written <= MEGABITS and not rates <= UNITS]


def of_numbers(lacking: Lacking) -> Reason | None:
    """Rates as numbers in Mb/s, or as letters."""
    written = b"".join(lacking.told)
    if lacking.told and any(set(lacking.missing) <= units for units in as_megabits(lacking.has)):
        return Reason(f"its rates `{written.hex()}` are written in Mb/s, and stand in units of 500 kb/s: it lacks "
                      f"{lacking.text}", lacking.span, lacking.instead())
    if LETTERS_OF_RATES.fullmatch(written):
        return Reason(f"its rates are written as letters, {quoted(written.decode())}, and an element has an octet for "
                      f"each rate, in units of 500 kb/s: it lacks {lacking.text}", lacking.span, lacking.instead())
    return None


def of_empty(lacking: Lacking) -> Reason | None:
    """An element of rates without a rate."""
    return Reason(f"its element Supported Rates is empty: it lacks {lacking.text}", lacking.span,
                  f"write {lacking.element()}") if lacking.told and not any(lacking.told) else None


def of_second_element(lacking: Lacking) -> Reason | None:
    """The missing rates in another element of an ID of which the first one counts."""
    seen: dict[int, bytes] = {}
    begin = lacking.begin
    for identifier, body in lacking.listed:
        is_there = set(lacking.missing) <= {rate & ~BASIC for rate in body}
        if identifier in OF_RATES and identifier in seen and is_there:
            both = seen[identifier] + body
            return Reason(f"two elements of the ID `{identifier:02x}` have rates, and the first one counts: "
                          f"`{body.hex()}` in the second one isn't read", (begin, begin + 2 + len(body)),
                          f"write one element, as `{identifier:02x}{len(both):02x}{both.hex()}`")
        seen.setdefault(identifier, body)
        begin += 2 + len(body)
    return None


def of_decimal_numbers(lacking: Lacking) -> Reason | None:
    """Rates as decimal numbers."""
    as_decimal = {int(f"{rate:x}") for rate in lacking.has if f"{rate:x}".isdecimal()}
    if not lacking.told or not set(lacking.missing) <= as_decimal | lacking.has or not as_decimal <= UNITS:
        return None
    return Reason(f"its rates `{b''.join(lacking.told).hex()}` are written as decimal numbers, and stand in "
                  f"hexadecimal digits: it lacks {lacking.text}", lacking.span, lacking.instead())


def of_decimal_identifier(lacking: Lacking) -> Reason | None:
    """Rates in an element whose ID is the decimal digits of Extended Supported Rates."""
    at = lacking.place(lambda identifier: identifier == DECIMAL_ID, lacking.missing)
    return Reason(f"it lacks {lacking.text}, and the element {DECIMAL_ID} has them: the ID of Extended Supported "
                  f"Rates, {EXTENDED_SUPPORTED_RATES}, is `{EXTENDED_SUPPORTED_RATES:02x}` in hexadecimal digits",
                  (at, at + 1), f"write `{EXTENDED_SUPPORTED_RATES:02x}` for `{DECIMAL_ID:02x}`") if at else None


def of_other_identifier(lacking: Lacking) -> Reason | None:
    """Rates in an element of another ID, or no element of rates."""
    if lacking.told:
        return None
    at = lacking.place(lambda identifier: identifier not in NO_RATES, lacking.missing)
    if at:
        return Reason(f"the element `{lacking.octets[at]:02x}` has the rates, and the ID of Supported Rates is "
                      f"`{SUPPORTED_RATES:02x}`", (at, at + 1),
                      f"write `{SUPPORTED_RATES:02x}` for `{lacking.octets[at]:02x}`")
    text = ", ".join(f"{rate / 2:g}" for rate in lacking.missing)
    return Reason(f"it has no element Supported Rates, so it lacks the network's basic rates, {text} Mb/s",
                  (HEADER_LEN, len(lacking.octets)), f"write {lacking.element()} at its end")
