"""What is wrong with one value of a configuration, and what to write for it: addresses, names, rates, numbers."""
import re
from collections.abc import Collection

from explaining.source import plain_letter, plain_text, quoted
from explaining.toml_scan import Value

KINDS = {"text": "a text", "integer": "a whole number", "number": "a number with a fraction", "truth": "a truth value",
         "time": "a date or a time", "array": "an array", "table": "a table"}
MOST_NAME, MOST_RATES, MOST_RATE, BASIC = 32, 16, 108, 0x80
TRUE_WORDS = ("1", "true", "yes", "on", "y", "t", "enable", "enabled", "active", "always", "allow", "allowed", "ja",
              "oui", "si", "wahr", "vrai")
FALSE_WORDS = ("0", "false", "no", "off", "n", "f", "disable", "disabled", "inactive", "never", "deny", "denied",
               "nein", "non", "falsch", "faux")
MEGABITS = (1, 2, 5.5, 6, 9, 11, 12, 18, 22, 24, 33, 36, 48, 54)
# The rates of 802.11b and g, in units of 500 kb/s.
UNITS = {int(2 * rate) for rate in (1, 2, 5.5, 6, 9, 11, 12, 18, 24, 36, 48, 54)}
DSSS, DSSS_BASIC, OFDM_BASIC = (1, 2, 5.5, 11), (1, 2), (6, 12, 24)
# What stands for a value in a template, or for a variable of a shell.
UNFILLED = re.compile(r"\{\{.*|\$\{?\w+\}?|%\w+%|@\w+@|<[\w -]+>|__\w+__")
FIRST_MHZ, LAST_MHZ, JAPANESE_MHZ = 2412, 2472, 2484


def address_fault(text: str) -> tuple[str, tuple[int, int], str | None] | None:
    """What is wrong with the form of an address, where in it, and the address that may be meant; None where it is six
    pairs of digits with `:` between."""
    if re.fullmatch(r"[0-9A-Fa-f]{2}(:[0-9A-Fa-f]{2}){5}", text):
        return None
    whole = 0, len(text)
    if not text:
        return "an address has six pairs of hexadecimal digits, and this is empty", whole, None
    if re.fullmatch("0[xX][0-9A-Fa-f]{12}", text):
        return "an address has its six pairs with `:` between", whole, ":".join(re.findall("..", text[2:].lower()))
    word = no_address(text.strip())
    if word:
        return word, whole, None
    core = re.search(r"(?<![0-9A-Fa-f:])[0-9A-Fa-f]{2}(?::[0-9A-Fa-f]{2}){5}(?![0-9A-Fa-f]|:[0-9A-Fa-f])", text)
    if core and text.strip() != core[0]:
        beside = (text[:core.start()] + text[core.end():]).strip()
        return f"{quoted(beside)} stands beside the address", whole, core[0].lower()
    if text.isascii() and re.fullmatch(r"[0-9A-Fa-f]{2}(?:[^0-9A-Za-z:.\- \t][0-9A-Fa-f]{2}){5}", text):
        return "an address has its six pairs with `:` between", whole, ":".join(re.findall("[0-9a-f]{2}", text.lower()))
    stray = re.search(r"[^0-9A-Fa-f:.\-\s]", text)
    return fault_of_stray(text, stray) if stray else fault_of_parts(text)


def fault_of_stray(text: str, stray: re.Match[str]) -> tuple[str, tuple[int, int], str | None]:
    """An address with a character that none has."""
    plain_one = plain_letter(stray[0])
    if plain_one:
        plain = plain_text(text)
        fault = address_fault(plain)
        return (f"{quoted(stray[0])} isn't {quoted(plain_one)}, and an address has six pairs of hexadecimal digits "
                "with `:` between", stray.span(), fault[2] if fault else plain.lower())
    letter = {"O": "0", "o": "0", "l": "1", "I": "1"}.get(stray[0])
    mended = re.sub("[Oo]", "0", re.sub("[lI]", "1", text)) if letter else None
    mended = mended if mended and address_fault(mended) is None else None
    return f"{quoted(stray[0])} is no hexadecimal digit", stray.span(), mended


def fault_of_parts(text: str) -> tuple[str, tuple[int, int], str | None]:
    """Digits that aren't six pairs with `:` between."""
    whole = 0, len(text)
    digits = re.sub(r"[:.\-\s]", "", text)
    parts = re.split(r"[:\-]", text.strip())
    if len(parts) == 6 and all(1 <= len(part) <= 2 for part in parts):
        digits = "".join(part.zfill(2) for part in parts)
    mended = ":".join(re.findall("..", digits.lower())) if len(digits) == 12 else None
    if text != text.strip():
        what = "a line end" if "\n" in text else "a space"
        return f"{what} stands beside the address", whole, mended
    if len(parts) == 6 and ":" in text:
        place = next((match.span() for match in re.finditer("[^:]+", text) if len(match[0]) != 2), whole)
        return "each part of an address has two hexadecimal digits", place, mended
    if mended:
        return "an address has its six pairs with `:` between", whole, mended
    return f"an address has six pairs of hexadecimal digits, and this has {len(digits)} digits", whole, None


def no_address(text: str) -> str | None:
    """What a text is that is no address at all; None where it may be one."""
    if UNFILLED.fullmatch(text) or re.fullmatch(r"[xX?*]{1,2}(?:[:-][xX?*]{1,2}){5}", text):
        return f"{quoted(text)} stands for an address that nothing has put here"
    if re.fullmatch(r"\d{1,3}(?:\.\d{1,3}){3}(?:/\d+)?", text) or text.count(":") < 6 and \
            re.fullmatch(r"[0-9A-Fa-f:]*::[0-9A-Fa-f:]*", text):
        return f"{quoted(text)} is an address of IP, and a network's is one of six pairs of hexadecimal digits"
    if text.lower() in ("auto", "random", "any", "default", "none", "null", "generate", "dynamic"):
        return f"{quoted(text)} is no address, and none is chosen by itself"
    if re.fullmatch(r"(?:wlan|wlp|wl|eth|enp|eno|phy|radio|mon|ath|br)[\w-]*\d\w*", text):
        return f"{quoted(text)} is the name of an interface or a radio, and not its address"
    is_word = re.fullmatch(r"[A-Za-z][\w .!-]*", text) and re.search("[g-zG-Z]", text) and len(
        re.findall("[0-9A-Fa-f]{2}", text)) < 4
    return f"{quoted(text)} is no address" if is_word else None


def bssid_fault(bssid: str, ssid: str | None) -> tuple[str, tuple[int, int], str | None] | None:
    """What is wrong with the form of a network's address, as `address_fault` says it, or that its name stands there."""
    fault = address_fault(bssid)
    if fault is None or ssid is None or address_fault(ssid) is not None:
        return fault
    return (f"{quoted(bssid)} is no address, and `ssid` is one: each of the two has the other's value", (0, len(bssid)),
            ssid)


def truth_of(text: str) -> str | None:
    """The truth value that a text or a number is meant as; None where it is none."""
    word = text.strip().lower()
    return "true" if word in TRUE_WORDS else "false" if word in FALSE_WORDS else None


def unit_in(text: str) -> bool:
    """Whether a text is a number and one short word behind it, as a unit."""
    return bool(re.fullmatch(r"[0-9.]+\s*[A-Za-z%\u00b5\u03bc]{1,8}", text))


def digits_of(number: str) -> str | None:
    """The digits of a hexadecimal number; None where it is none."""
    found = re.fullmatch("0x((?:[0-9A-Fa-f]{2})+)", number.replace("_", ""))
    return found[1] if found else None


def text_in(value: Value, written: str, key: str) -> str | None:
    """The text that a list has first, or a number's digits, as a text of TOML; of an address all of its octets."""
    if key == "bssid":
        numbers = [item.integer for item in value.items if item.integer is not None]
        digits = bytes(numbers).hex() if len(numbers) == 6 and all(0 <= number <= 0xFF for number in numbers) else \
            written.removeprefix("0x").replace("_", "").rjust(12, "0") if value.kind == "integer" else ""
        if re.fullmatch("[0-9A-Fa-f]{12}", digits):
            return f'"{":".join(re.findall("..", digits.lower()))}"'
    first = value.items[0] if value.kind == "array" and value.items else value
    return f'"{first.worth}"' if first.kind == "text" or first.kind == "integer" and key != "bssid" else None


def letters_of(number: str) -> str | None:
    """The letters whose octets a hexadecimal number has; None where it is none, or has others."""
    digits = number[2:] if number[:2].lower() == "0x" else ""
    if not digits or len(digits) % 2 or re.search("[^0-9A-Fa-f]", digits):
        return None
    octets = bytes.fromhex(digits)
    return octets.decode() if octets.isascii() and octets.decode().isprintable() and b'"' not in octets else None


def letters_in(name: str) -> str | None:
    """The letters whose hexadecimal digits a name is; None where it is none's."""
    digits = name.removeprefix("0x")
    if not re.fullmatch("(?:[0-9A-Fa-f]{2}){3,}", digits):
        return None
    text = bytes.fromhex(digits).decode("utf-8", "replace")
    return text if text.isprintable() and re.fullmatch(r"[\w .-]*[A-Za-z]{2}[\w .-]*", text) else None


def single_address(text: str) -> str:
    """A group address with the group's bit off."""
    return f"{int(text[:2], 16) & 0xFE:02x}{text[2:].lower()}"


def rates_of_megabits(numbers: list[float], wanted: Collection[float] = ()) -> str | None:
    """Digits for rates in Mb/s, those that are wanted basic, or the usual ones of them; None where one can't be
    written."""
    octets = [round(2 * rate) for rate in numbers]
    if not octets or len(octets) > MOST_RATES or len(set(octets)) < len(octets):
        return None
    if any(octet != 2 * rate or not 1 <= octet <= MOST_RATE for octet, rate in zip(octets, numbers)):
        return None
    basic = DSSS_BASIC if any(rate in DSSS for rate in numbers) else OFDM_BASIC
    chosen = wanted or [rate for rate in basic if rate in numbers] or [min(numbers)]
    return bytes(octet | (BASIC if rate in chosen else 0) for octet, rate in zip(octets, numbers)).hex()


def channel_of_frequency(number: float) -> int | None:
    """The channel of a frequency in MHz, or in GHz; None where it is none of 2.4 GHz."""
    megahertz = round(number * 1000, 3) if number < 10 else number
    if megahertz == JAPANESE_MHZ:
        return 14
    is_one = FIRST_MHZ <= megahertz <= LAST_MHZ and (megahertz - FIRST_MHZ) % 5 == 0
    return (int(megahertz) - 2407) // 5 if is_one else None


def channel_hint(number: float) -> str | None:
    """What a channel's number may have been meant as."""
    channel = channel_of_frequency(number)
    if channel:
        return f"{number:g} {'GHz' if number < 10 else 'MHz'} is channel {channel}: write `channel = {channel}`"
    if number == 0:
        return "no channel is chosen by itself, as 0 has it elsewhere: write one of 1, 6 or 11, as `channel = 6`"
    if 32 <= number <= 177 or 5160 <= number <= 5885:
        return "this is a channel of 5 GHz, and the program has those of 2.4 GHz alone"
    return None


def interval_hint(number: float) -> str | None:
    """What a beacon interval may have been meant as."""
    if number > 65535 and number % 1024 == 0 and number // 1024 <= 65535:
        return f"in time units of 1024 microseconds, not in microseconds: write `interval = {number // 1024:g}`"
    return "in time units of 1024 microseconds: write `interval = 100` for the usual 102.4 ms"
