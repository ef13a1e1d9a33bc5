"""What a person meant by the rates of a network: a list in Mb/s or in other units, an element, a part of the
standard."""
import re

from explaining.source import quoted
from explaining.toml_scan import Value
from explaining.values import BASIC, MEGABITS, MOST_RATE, MOST_RATES, UNITS, digits_of, rates_of_megabits

# A rate of a list: its number, what marks it as a basic one, and its unit.
LISTED_RATE = re.compile(r"(?P<before>[%*])?(?<![\d.])(?P<number>[0-9]+(?:\.[0-9]+)?)(?P<unit> ?(?:[MmKk](?:[Bb](?:it)?"
                         r"(?:ps|/s)?)?))?(?P<behind>\([A-Za-z]*\)|[*bB](?![A-Za-z0-9]))?")
UNIT_BEHIND = re.compile(r"[,; ]{0,3}[\[(][MmKk][Bb](?:it)?(?:ps|/s(?:ec)?)[\])]\s*$")
LIKE_LETTERS = str.maketrans("OolI", "0011")
# The rates of the parts of the standard, and words for all rates or a range of them.
STANDARDS = {"b": "82840b16", "g": "82840b160c1218243048606c", "a": "8c129824b048606c"}
STANDARD = re.compile(r"(?:ieee ?)?(?:802\.?11)? ?([abgn](?:[ /+,_-]*[abgn])*)(?: ?mode| ?only)?")
ALL = ("all", "auto", "default", "any", "legacy", "usual", "max", "full", "basic", "ofdm", "none", "null")
RANGE = re.compile(r"(?:mcs|ht|vht|he) ?\d*|\d+(?:\.\d)? ?(?:-|\.\.|to|\u2013) ?\d+ ?(?:m\w*(?:/s)?)?")


def listed_rates(text: str) -> str | None:
    """Digits for a list of rates in Mb/s, in units of 100 kb/s as hostapd has them, in kb/s, or in units of 500 kb/s as
    decimal numbers, where marks may say which are basic; None where a text lists none."""
    plain = re.sub(r"\b(?:basic|mandatory|supported|optional|rates?|and)\b", " ", UNIT_BEHIND.sub("", text))
    plain = re.sub(r"[\[\]{}:]|\((?![A-Za-z])|(?<![A-Za-z])\)", " ", plain)
    plain = re.sub(r"(?<=\d),(?=5\b)", ".", plain) if re.search(r"\d,5\b", plain) and " " in text.strip() else plain
    if not re.fullmatch(rf"(?:{LISTED_RATE.pattern}|[,;/ \t|])+", plain):
        return None
    found = [match for match in LISTED_RATE.finditer(plain)]
    numbers = [float(match["number"]) for match in found]
    basic = [number for number, match in zip(numbers, found) if match["before"] or match["behind"]]
    if len(numbers) < 2 and not re.search(r"[.Mm]", text):
        return None
    for unit in (1, 10, 1000):
        if all(number / unit in MEGABITS for number in numbers):
            return rates_of_megabits([number / unit for number in numbers], [number / unit for number in basic])
    if all(number.is_integer() and int(number) & ~BASIC in UNITS for number in numbers):
        octets = [int(number) for number in numbers]
        return bytes(octets).hex() if any(octet & BASIC for octet in octets) else \
            rates_of_megabits([octet / 2 for octet in octets])
    return None


def rates_in(value: Value, written: str) -> str | None:
    """Digits for rates that are given as numbers or as a list; None where they are none."""
    numbers = [item.integer for item in value.items if item.integer is not None]
    texts = [str(item.text) for item in value.items if item.kind == "text"]
    is_digits = value.kind == "integer" and len(written) > 2 and not rates_fault(written)
    return written if is_digits else digits_of(written) or listed_rates(written.strip("[]")) or \
        megabits_alone(value) or rates_of_octets(numbers if len(numbers) == len(value.items) else []) or \
        listed_rates(" ".join(texts)) or rates_of_digits("".join(texts))


def megabits_alone(value: Value) -> str | None:
    """Digits for one rate in Mb/s."""
    rate = value.integer if value.kind == "integer" else value.worth if value.kind == "number" else None
    return rates_of_megabits([rate]) if isinstance(rate, (int, float)) and rate in MEGABITS else None


def rates_of_octets(numbers: list[int]) -> str | None:
    """Digits for rates that are given as the numbers of their octets; None where they are none."""
    if not numbers or not all(0 <= number <= 0xFF for number in numbers):
        return None
    digits = "".join(f"{number:02d}" for number in numbers)
    is_hexadecimal = not all(number & ~BASIC in UNITS for number in numbers) and rates_of_digits(digits) and \
        all(octet & ~BASIC in UNITS for octet in bytes.fromhex(digits))
    return digits if is_hexadecimal else rates_of_digits(bytes(numbers).hex())


def rates_of_digits(digits: str) -> str | None:
    """Digits as they are, where they are rates."""
    digits = digits.replace("0x", "")
    return digits if digits and rates_fault(digits) is None else None


def rates_fault(text: str) -> tuple[str, tuple[int, int], str | None] | None:
    """What is wrong with a text of rates, where in it, and what may be meant; None where nothing is."""
    whole = 0, len(text)
    stray = re.search("[^0-9A-Fa-f]", text)
    meant = listed_rates(text) if stray else None
    if meant:
        return (f"these are rates {unit_of(text)}, and `rates` has them in units of 500 kb/s as hexadecimal "
                f"digits", whole,
                meant)
    named = standard_named(text)
    if named:
        return f"{quoted(text)} names no rate: `rates` lists each one, in units of 500 kb/s", whole, named
    if stray:
        faster = [float(number) for number in re.findall(r"(\d+(?:\.\d+)?) ?[Mm]", text)]
        if faster and max(faster) > MOST_RATE / 2:
            return f"a rate of {max(faster):g} Mb/s isn't here: the greatest is 54 Mb/s", whole, STANDARDS["g"]
        digits = re.sub(r"0[xX]|[hH]\b|[^0-9A-Za-z]", "", text)
        is_meant = re.fullmatch("[0-9A-Fa-f]+", digits) and rates_fault(digits) is None and \
            re.search("[a-fA-F89]", digits)
        mended = (without_header(digits) or digits) if is_meant or without_header(digits) else \
            rates_of_digits(text.translate(LIKE_LETTERS)) if text.translate(LIKE_LETTERS) != text else None
        return f"{quoted(stray[0])} is no hexadecimal digit", stray.span(), mended
    if not text:
        return "a network has at least one rate", whole, "82840b16"
    if len(text) % 2:
        return f"an odd number of digits, {len(text)}: each rate has two", whole, None
    if octets_fault(bytes.fromhex(text)) and without_header(text):
        return (f"`{text[:4]}`, the ID and the length of an element, stands before the rates", (0, 4),
                without_header(text))
    return octets_fault(bytes.fromhex(text))


def unit_of(text: str) -> str:
    """In which unit the rates of a list are."""
    numbers = [float(match["number"]) for match in LISTED_RATE.finditer(text)]
    for unit, name in ((1, "in Mb/s"), (10, "in units of 100 kb/s, as hostapd has them"), (1000, "in kb/s")):
        if numbers and all(number / unit in MEGABITS for number in numbers):
            return name
    return "in units of 500 kb/s as decimal numbers"


def without_header(digits: str) -> str | None:
    """The rates of an element that stands with its ID and length; None where digits are none."""
    octets = bytes.fromhex(digits) if len(digits) % 2 == 0 and re.fullmatch("[0-9A-Fa-f]+", digits) else b""
    is_element = len(octets) > 3 and octets[0] in (1, 50) and octets[1] == len(octets) - 2
    return octets[2:].hex() if is_element and not octets_fault(octets[2:]) else None


def standard_named(text: str) -> str | None:
    """The usual rates of the part of the standard that a text names, or of g where it says all of them or a range; None
    where it names none."""
    plain = text.strip().lower()
    if re.fullmatch("[0-9a-f]{2}", plain):
        return None
    found = STANDARD.fullmatch(plain)
    letters = set(found[1]) & set("abg") if found else set()
    if letters:
        return STANDARDS["a" if letters == {"a"} else "b" if letters == {"b"} else "g"]
    return STANDARDS["g"] if plain in ALL or RANGE.fullmatch(plain) else None


def octets_fault(rates: bytes) -> tuple[str, tuple[int, int], str | None] | None:
    """What is wrong with rates as octets."""
    seen: dict[int, int] = {}
    for place, octet in enumerate(rates):
        where, rate = (2 * place, 2 * place + 2), octet & ~BASIC
        without = (rates[:place] + rates[place + 1:]).hex()
        if not rate:
            return f"`{octet:02x}` is the rate 0", where, without or None
        if rate > MOST_RATE:
            more = " (it is no rate: in captures it says which features a station needs)" if rate >= 0x7A else ""
            return f"`{octet:02x}` is the rate {rate}, and the greatest is 108 (`6c`), 54 Mb/s{more}", where, without
        if rate in seen:
            return f"`{octet:02x}` is the rate {megabits_text(rate)} a second time", where, each_once(rates)
        seen[rate] = place
    if len(rates) > MOST_RATES:
        return f"{len(rates)} rates, and a network has at most {MOST_RATES}", (2 * MOST_RATES, 2 * len(rates)), None
    return None


def each_once(rates: bytes) -> str:
    """Rates without those that stood before: as basic ones where they stand so in one place."""
    basic = {octet & ~BASIC for octet in rates if octet & BASIC}
    once = dict.fromkeys(octet & ~BASIC for octet in rates)
    return bytes(rate | (BASIC if rate in basic else 0) for rate in once).hex()


def megabits_text(rate: int) -> str:
    """A rate in Mb/s."""
    return f"{rate / 2:g} Mb/s"
