"""The whole number that a person meant, however it is written: with a unit, with marks between its digits, as a power,
as a word for no bound, within a text."""
import re
from collections.abc import Callable

from explaining import values
from explaining.keys import SAMPLES
from explaining.source import Finding, Place, quoted
from frames import TIME_UNIT

UNBOUNDED = ("unlimited", "infinite", "infinity", "inf", "none", "max", "maximum", "all", "any", "no limit", "nolimit",
             "\u221e", "off", "-1")
BY_ITSELF = ("auto", "acs", "acs_survey", "automatic", "best", "any", "default", "random")
BAND = re.compile(r"(?:2[.,]?4|5|6)\s*g(?:hz)?|2[.,]4|2g", re.I)
WIDTH = re.compile(r"(?:V?HT|HE|EHT)\d+[+-]?|\d+MHZ_?WIDTH|NOHT", re.I)
WORDS = ("zero", "one", "two", "three", "four", "five", "six", "seven", "eight", "nine", "ten", "eleven", "twelve")
WORD = re.compile(rf"(?:a )?({'|'.join(WORDS)}|dozen)")
NUMBER = r"([0-9]+(?:\.[0-9]+)?)"
WITH_UNIT = re.compile(NUMBER + r"\s*([A-Za-z%\u00b5\u03bc]+)")
THOUSANDS = re.compile(r"([0-9]{1,3})((?:[.,' _\u00a0][0-9]{3})+)")
POWER = re.compile(r"([0-9]{1,4})\s*(?:\^|\*\*)\s*([0-9]{1,2})")
PRODUCT = re.compile(r"([0-9]{1,7})\s*[*x]\s*([0-9]{1,7})")
SEVERAL = re.compile(r"[0-9]+(?:\s*[,;/|-]\s*[0-9]+|\s+[0-9]+)+")
MICROSECONDS = {"us": 1, "\u00b5s": 1, "\u03bcs": 1, "usec": 1, "ms": 1000, "msec": 1000, "millis": 1000,
                "milliseconds": 1000, "s": 1_000_000, "sec": 1_000_000, "second": 1_000_000, "seconds": 1_000_000}
TIMES = {"k": 1000, "m": 1_000_000}
FREQUENCIES = {"mhz": 1, "ghz": 1000}
USUAL_INTERVAL = range(95, 106)  # milliseconds, of which people mean 100 time units


def number_finding(place: Place, text: str, key: str, limits: tuple[int, int]) -> Finding:
    """What is wrong with a value of a key that is a whole number within these limits, and what to write."""
    least, most = limits
    plain = text.strip().strip("\"'").strip()
    if key == "channel" and plain.lower() in BY_ITSELF:
        return Finding("no channel is chosen by itself: `channel` is a number of 1 to 14", place,
                       "`iw dev wlan0 scan` shows which are in use; write one of 1, 6 or 11, as `channel = 6`")
    if key == "channel" and BAND.fullmatch(plain):
        return Finding(f"{quoted(text)} is a band, and `channel` is one of the channels of 2.4 GHz, 1 to 14", place,
                       f"write one of 1, 6 or 11, as `channel = {SAMPLES[key]}`")
    if key == "channel" and WIDTH.fullmatch(plain):
        return Finding(f"{quoted(text)} is the width of a channel, and `channel` is its number, 1 to 14", place,
                       f"write `channel = {SAMPLES[key]}`: each channel here is 20 MHz wide")
    if plain.lower() in UNBOUNDED and key != "dtim":
        return Finding(f"`{key}` always has a bound, a whole number of {least} to {most}", place,
                       f"write `{key} = {most}`, the most that there is")
    plain = re.sub(r"^([0-9]+),([0-9]{1,2})$", r"\1.\2", plain)
    meant, unit = number_meant(plain, key), WITH_UNIT.fullmatch(plain)
    said = f"a number has no unit after it, and here {quoted(unit[2])} stands" if unit else \
        f"`{key}` is one whole number, and {quoted(text)} has several" if SEVERAL.fullmatch(plain) and \
        not THOUSANDS.fullmatch(plain) and not re.search(r"\s", plain) else \
        f"`{key}` is a whole number of {least} to {most}, and {quoted(text)} is none" + \
        ": it has marks between its digits, of which TOML has `_` alone" * bool(THOUSANDS.fullmatch(plain))
    if meant is not None and meant > most:
        return Finding(f"{said}; {meant:,} is more than there may be", place, f"write `{key} = {most}`, the most")
    write = meant if meant is not None and least <= meant else SAMPLES[key]
    return Finding(said, place, f"write `{key} = {write}`" + remark_on(plain, key))


def remark_on(text: str, key: str) -> str:
    """What is told beside a number that was changed into another unit."""
    unit = WITH_UNIT.fullmatch(text)
    if key == "interval" and (unit and unit[2].lower() in MICROSECONDS or re.fullmatch(r"[0-9]+\.[0-9]+", text)):
        meant = number_meant(text, key) or 0
        return f", in time units of 1024 microseconds: {meant * TIME_UNIT / 1000:g} ms"
    if unit and key in ("queue", "quota") and unit[2].lower() in ("b", "kb", "mb", "kib", "mib", "bytes", "octets"):
        return f": `{key}` is a number of {'frames' if key == 'queue' else 'units'}, and no size"
    return ""


def number_meant(text: str, key: str) -> int | None:
    """The number that a text without its quotes is meant for; None where it can't be told."""
    parts: tuple[Callable[[str, str], int | None], ...] = (of_frequency, of_time, of_thousands, of_factors, of_exponent,
                                                          of_word, of_digits)
    return next((number for part in parts if (number := part(text, key)) is not None), None)


def of_frequency(text: str, key: str) -> int | None:
    """A channel by its frequency."""
    found = re.fullmatch(NUMBER + r"\s*([GgMm][Hh]z)?", text)
    if key != "channel" or not found:
        return None
    return values.channel_of_frequency(float(found[1]) * FREQUENCIES.get((found[2] or "MHz").lower(), 1))


def of_time(text: str, key: str) -> int | None:
    """A beacon interval in seconds or in parts of one."""
    found = re.fullmatch(NUMBER + r"\s*([a-z\u00b5\u03bc]+)?", text.lower())
    if key != "interval" or not found or found[2] is None and "." not in found[1]:
        return None
    value = float(found[1])
    if found[2] is None:  # a fraction is of milliseconds, as 102.4, or of a second, as 0.1
        found_unit = 1_000_000 if value < 1 else 1000
    else:
        found_unit = MICROSECONDS.get(found[2], 0)
    if not found_unit or found[2] is None and value.is_integer():
        return None
    microseconds = value * found_unit
    return 100 if round(microseconds / 1000) in USUAL_INTERVAL else round(microseconds / TIME_UNIT)


def of_thousands(text: str, _: str) -> int | None:
    """A number with a mark between each three digits."""
    found = THOUSANDS.fullmatch(text)
    return int(re.sub("[^0-9]", "", text)) if found and found[1] != "0" else None


def of_factors(text: str, _: str) -> int | None:
    """A power, a product, or a number with `k` or `M` behind it."""
    power, product, times = POWER.fullmatch(text), PRODUCT.fullmatch(text), re.fullmatch(NUMBER + "([kKM])", text)
    if power:
        return int(power[1]) ** int(power[2])
    if product:
        return int(product[1]) * int(product[2])
    return round(float(times[1]) * TIMES[times[2].lower()]) if times else None


def of_exponent(text: str, _: str) -> int | None:
    """A number that is whole, and written with a fraction or an exponent."""
    if not re.fullmatch(r"[+]?[0-9][0-9_]*\.?[0-9_]*(?:[eE][+]?[0-9]{1,2})?_?", text):
        return None
    value = float(text.replace("_", ""))
    return int(value) if value.is_integer() else None


def of_word(text: str, _: str) -> int | None:
    """A number as a word, up to twelve."""
    found = WORD.fullmatch(text.lower())
    return None if not found else WORDS.index(found[1]) if found[1] in WORDS else 12


def of_digits(text: str, _: str) -> int | None:
    """The one number within other letters, or the first one where a mark and more follow."""
    if re.match(r"[+-]", text) or re.search(r"[0-9]\.[0-9]", text):
        return None
    found = re.findall("[0-9]+", text)
    return int(found[0]) if len({*found}) == 1 or found and re.match(r"[0-9]+ *(?:[(/@#]|[A-Za-z])", text) else None
