"""Values of a configuration that are none of TOML: what a person meant each for, and how it is written."""
import difflib
import re
from dataclasses import replace

from explaining import values
from explaining.in_remarks import is_value
from explaining.keys import LISTED, NETWORK_LIMITS, OPTIONS, RADIO_LIMITS, SAMPLES, TEXT_KEYS, meant
from explaining.no_key import remark_of
from explaining.numbers_meant import number_finding
from explaining.pasted import TAG
from explaining.rates_meant import rates_fault
from explaining.source import Finding, Place, Source, plain_letter, plain_text, quoted
from explaining.toml_scan import NoToml, worth_of_bare
from explaining.unlisted import opposite_line, strange_key
from hostapd import line_for

QUOTES = re.compile("[\u2018-\u201f\u00ab\u00bb\u2039\u203a`\u00b4]")
QUOTED_BY_PRINT, MOST_ALSO = re.compile(rf"[^#]*=\s*{QUOTES.pattern}"), 4
NULLS = ("null", "none", "nil", "undefined", "n/a", "nan", "~", "-", "?")
SIGNS = re.compile(r"(?::=|=>|->|=|:|>)+\s*")
# A text in quotes with something around it, as languages write their texts.
WRAPPED = re.compile(r"[\w(\[{ ]*([\"'])(?P<text>[^\"']*)\1[)\]} ]*")


def of_value(place: Place, line: str, fault: NoToml, source: Source) -> Finding:
    """A value that is none, of a key that may be none either."""
    key = fault.key
    end = source.text.find("\n", fault.begin)
    text = source.text[fault.begin:fault.end].strip()
    if text == "#":
        text = source.text[fault.begin:end if end >= 0 else len(source.text)].strip()
    stands = opposite_line(key, text) or line_for(key, text)
    if stands:
        return Finding(f"`{key}` is one of hostapd's" if line_for(key, text) else
                       f"`{key}` is no key of a configuration", place, f"write `{stands.text()}`")
    strange = strange_key(source, place.line, key, text)
    if strange:
        return strange
    like = key if key in LISTED else meant(key, LISTED)
    finding = of_value_of(place, text, like or key)
    return finding if like in (key, None) else replace(
        finding, text=f"`{key}` is no key of a configuration, `{like}` is; and {finding.text}")


def of_value_of(place: Place, text: str, key: str) -> Finding:
    """What is wrong with a value of this key."""
    name = key or "the key"
    is_last = place.line == len(place.source.lines)
    if text and is_last and key in OPTIONS and any(word.startswith(text) for word in ("true", "false")):
        return Finding("the text ends within this line: it wasn't written or copied to its end", place,
                       f"`{key}` is `true` or `false`")
    if not text:
        return Finding(f"`{name}` has no value", place, f"write `{key} = {SAMPLES[key]}`" if key in SAMPLES else None)
    if text.startswith("#") and is_value(text.lstrip("# ") or "#"):
        return Finding(f"`{name}` has no value: `#` begins a remark, and the value stands in it", place,
                       f"write `{name} = {text.lstrip('# ')}`")
    if text.startswith("#"):
        return Finding(f"`{name}` has no value: `#` begins a remark", place,
                       f'write `{name} = "{text}"` where it is the value' if key == "ssid" else
                       f"write `{name} = {SAMPLES[key]}` before it" if key in SAMPLES else None)
    parts = (of_copied, of_quotes, of_end, of_several_keys, of_null, of_truth, of_text)
    found = next((finding for part in parts if (finding := part(place, text, key, name))), None)
    return found or of_number(place, text, name)


def of_copied(place: Place, text: str, key: str, name: str) -> Finding | None:
    """A value with what another language or a page has around it, or with what stands for a value in a template."""
    sign = SIGNS.match(text)
    if sign and text[sign.end():]:
        return Finding("`=` stands twice" if set(sign[0].strip()) == {"="} else
                       f"`{sign[0].strip()}` stands behind `=`, and the value alone stands there", place,
                       f"write `{name} = {text[sign.end():]}`")
    tag = TAG.search(text)
    if tag and not TAG.fullmatch(text):
        return Finding("this line was copied out of a page of HTML", place.part(tag[0]),
                       f"write `{name} = {TAG.sub('', text).strip()}`")
    if re.fullmatch(r'\\".*\\"', text):
        return Finding("quotes stand without a backslash before them", place, f'write `{name} = "{text[2:-2]}"`')
    if values.UNFILLED.search(text):
        return Finding(f"{quoted(text)} stands for a value that nothing has put here: this text is a template", place,
                       f"write a value, as `{name} = {SAMPLES[name]}`" if name in SAMPLES else None)
    return None


def of_quotes(place: Place, text: str, key: str, name: str) -> Finding | None:
    """Quotes of print, or a text of another language."""
    if QUOTES.search(text):
        return Finding(f"these quotes are of print, and TOML's are `\"` and `'`{also_in_quotes(place)}", place,
                       f"write `{name} = {in_form(QUOTES.sub('', text), key)}`")
    octets = of_octets(text)
    if octets and key == "ssid":
        return Finding("`P\"..\"` is hostapd's, where `\\xc3` is an octet, and in TOML it is a letter", place,
                       f'write `{name} = "{octets}"`')
    wrapped = WRAPPED.fullmatch(text)
    if wrapped and key in TEXT_KEYS:
        return Finding(f"{quoted(text[:wrapped.start(1)])} stands before the text, and a text is between quotes alone",
                       place, f"write `{name} = {in_form(wrapped['text'], key)}`")
    return None


def of_octets(text: str) -> str | None:
    """The letters of a text of hostapd that has octets in it, as `P"caf\\xc3\\xa9"`; None for another text."""
    found = re.fullmatch(r'P"((?:[^"\\]|\\x[0-9A-Fa-f]{2})*)"', text)
    if not found or "\\x" not in found[1]:
        return None
    octets = re.sub(rb"\\x([0-9A-Fa-f]{2})", lambda octet: bytes([int(octet[1], 16)]), found[1].encode())
    return octets.decode("utf-8", "replace")


def also_in_quotes(place: Place) -> str:
    """The lines behind this one that have quotes of print too, the first few of them."""
    source = place.source
    numbers = [str(source.first + number - 1) for number, line in enumerate(source.lines, 1)
               if number > place.line and QUOTED_BY_PRINT.match(line)]
    more = f" and {len(numbers) - MOST_ALSO} more" if len(numbers) > MOST_ALSO else ""
    return f"; so in line{'s' * (len(numbers) > 1)} {', '.join(numbers[:MOST_ALSO])}{more}" if numbers else ""


def of_end(place: Place, text: str, key: str, name: str) -> Finding | None:
    """A value with a mark or a remark behind it."""
    if re.fullmatch(r"[^;]+;\s*", text):
        return Finding("a line ends without `;`", place.part(";"), f"write `{name} = {text.rstrip('; ')}`")
    if re.fullmatch(r"[\d\s.]+(?:[*+/x^-]+[\d\s.]+)+", text):
        return None
    whole = re.match(r"(\S+)\s+(?=\D)(\S.*)", text)
    if whole and worth_of_bare(whole[1])[0] and not re.search(r"\w", whole[2]) and "=" not in text:
        return Finding(f"nothing stands after a value, and here {quoted(whole[2], 12)} does", place.part(whole[2]),
                       f"write `{name} = {whole[1]}`")
    if whole and worth_of_bare(whole[1])[0] and not values.unit_in(text) and "=" not in text:
        return Finding(f"{quoted(whole[2], 12)}: a remark begins with `#`", place.part(whole[2]),
                       f"write `{name} = {whole[1]} # {remark_of(whole[2]) or '..'}`")
    remark = re.search(r"\s*(?:;|//|--).*", text)
    if remark and remark.start() > 0 and "=" not in text:
        return Finding(f"{quoted(remark[0].strip(), 12)}: a remark begins with `#`", place.part(remark[0].strip()),
                       f"write `{name} = {text[:remark.start()]} # {remark_of(remark[0].strip())}`")
    return None


def of_several_keys(place: Place, text: str, key: str, name: str) -> Finding | None:
    """More keys in the line, or a comma at its end."""
    if "\r" in text.rstrip("\r"):
        return Finding("a CR that isn't followed by LF ends no line", place.part("\r"),
                       "`tr '\\r' '\\n'` writes line ends anew")
    if r"\n" in text:
        return Finding("`\\n` stands here as two characters, where a line should end", place,
                       "`printf '%b'` writes such a text with its line ends")
    if "=" in text and re.search(r"[A-Za-z_]+\s*=", text):
        return Finding("two keys stand in one line", place, "write each in a line of its own")
    if text.rstrip(",;") != text and key not in TEXT_KEYS:
        return Finding(f"nothing stands after a value, and here `{text[-1]}` does", place,
                       f"write `{name} = {text.rstrip(',;')}`")
    return None


def of_null(place: Place, text: str, key: str, name: str) -> Finding | None:
    """A word for no value."""
    return Finding(f"{quoted(text)} stands for no value, and each key has one", place,
                   f"write `{name} = {SAMPLES[name]}`") if text.lower() in NULLS and name in SAMPLES else None


def of_truth(place: Place, text: str, key: str, name: str) -> Finding | None:
    """What should be a truth value, or is one in another language."""
    meant_truth = values.truth_of(text.strip("\"'.!@"))
    if key in OPTIONS and meant_truth is None:
        close = difflib.get_close_matches(text.lower(), ("true", "false"), 1, 0.5)
        return Finding(f"`{key}` is `true` or `false`, and {quoted(text)} is neither", place,
                       f"write `{key} = {close[0]}`" if close else f"write `{key} = true` or `{key} = false`")
    if meant_truth and key not in TEXT_KEYS and key not in RADIO_LIMITS and key not in NETWORK_LIMITS:
        return Finding(f"{quoted(text)} is no truth value: TOML has `true` and `false`, in small letters", place,
                       f"write `{name} = {meant_truth}`")
    return None


def of_text(place: Place, text: str, key: str, name: str) -> Finding | None:
    """A text without quotes."""
    if key not in TEXT_KEYS and values.address_fault(text) is not None:
        return None
    return Finding(f"`{name}` is a text, and a text stands in quotes", place,
                   f"write `{name} = {in_form(text, key)}`")


def in_form(text: str, key: str) -> str:
    """A text in quotes as its key takes it: an address or rates in the program's form, where they can be told; a value
    of another key without quotes."""
    plain = text.strip().strip("\"'")
    fault = {"bssid": values.address_fault, "rates": rates_fault}.get(key)
    found = fault(plain) if fault else None
    if key and key not in TEXT_KEYS:
        return plain
    return SAMPLES[key] if found and not found[2] else f'"{found[2] if found else plain}"'


def of_number(place: Place, text: str, name: str) -> Finding:
    """What should be a number and is none."""
    if plain_text(text) != text:
        odd = "".join(letter for letter in text if plain_letter(letter))
        return Finding(f"{quoted(text)} has characters that look like digits and are others", place.part(odd),
                       f"write `{name} = {plain_text(text)}`")
    if re.fullmatch(r"[+-]?0[0-9]+", text):
        return Finding("a number doesn't begin with a zero", place, f"write `{name} = {int(text)}`")
    if re.fullmatch(r"[+-]?[0-9]+", text):
        return Finding("no number of TOML is so large", place)
    if re.fullmatch(r"0[XOB][0-9A-Fa-f]+", text):
        return Finding("`0x`, `0o` and `0b` are written with small letters", place, f"write `{name} = {text.lower()}`")
    limits = RADIO_LIMITS.get(name) or NETWORK_LIMITS.get(name)
    if limits:
        return number_finding(place, text, name, limits)
    unit = re.fullmatch(r"([0-9]+)\s*([A-Za-z%]+)", text)
    if unit:
        return Finding(f"a number has no unit after it, and here {quoted(unit[2])} stands", place,
                       f"write `{name} = {unit[1]}`")
    if re.match(r"[A-Za-z]", text):
        return Finding(f"{quoted(text)} is no value: a text stands in quotes", place,
                       f"write `{name} = {SAMPLES[name]}`" if name in SAMPLES else f'write `{name} = "{text}"`')
    return Finding(f"{quoted(text)} is no value of TOML", place,
                   f"write `{name} = {SAMPLES[name]}`" if name in SAMPLES else None)
