"""Why nobody answers to a name: an SSID that no network has, or that the network that is asked doesn't have."""
import difflib
import html
import unicodedata
from collections.abc import Collection
from urllib.parse import unquote_to_bytes

from explaining.elements_cut import is_followed
from explaining.reason import Reason
from explaining.source import plain_letter, plain_text, quoted
from frames import HEADER_LEN, REASSOCIATION_REQUEST, SSID, Frame, elements, first_of
from in_words import ssid_text
from reading import FIXED_LEN

MOST_NAME, LIKE, MOST_NAMED = 32, 0.6, 4
CURRENT_AT = 28  # where Current AP Address begins in a reassociation request
QUOTES = (b'"', b"'", b"`")
PRINTED = str.maketrans("\u2018\u2019\u00b4\u201c\u201d", "'''\"\"")  # quotes as telephones write them
NO_MARKS = str.maketrans("", "", ":-. ")
BLANKS = b" \t\r\n\0"
WIDE = ("utf-16-le", "utf-16-be")


def name_reason(octets: bytes, names: dict[bytes, bytes], bssid: bytes, homes: Collection[bytes] = ()) -> Reason:
    """Why a request with this name isn't served by a network; `names` are the SSIDs by BSSID, `homes` the networks that
    know its sender."""
    frame = Frame(octets)
    begin = HEADER_LEN + FIXED_LEN[frame.subtype]
    asked = first_of(elements(octets[begin:]) or [], SSID)
    missing = without_current(frame, begin) if asked is None else None
    if missing:
        return missing
    if asked is None:
        return Reason("it has no SSID element, by which a network is named", (begin, len(octets)),
                      f"write `{element(names[bssid])}` for {ssid_text(names[bssid])}")
    span = place_of(octets, begin)
    if not asked:
        return Reason("its SSID is empty, which names any network, and a station joins one that it names", span,
                      f"write `{element(names[bssid])}` for {ssid_text(names[bssid])}")
    if len(asked) > MOST_NAME:
        return Reason(f"its SSID has {len(asked)} octets, and a network's has at most {MOST_NAME}", span)
    cut = length_meant(octets, span[0], asked)
    if cut:
        return cut
    others = [body for identifier, body in elements(octets[begin:]) or [] if identifier == SSID]
    ours = next((name for name in others[1:] if name in names.values()), None)
    if ours is not None and asked not in names.values():
        return Reason(f"no network is called {ssid_text(asked)}; {ssid_text(ours)} stands in a second SSID element, "
                      "and the first one counts", span, "leave the first one out")
    owner = next((other for other, name in names.items() if name == asked), None)
    if owner is not None:
        advice = f"write `{element(names[bssid])}`, since it authenticated to {ssid_text(names[bssid])}" \
            if bssid in homes and owner not in homes else f"write `{owner.hex()}` for `{bssid.hex()}`"
        return Reason(f"it names {ssid_text(asked)}, the network {owner.hex(':')}, and is to {bssid.hex(':')}, "
                      f"{ssid_text(names[bssid])}", span, advice)
    return of_address(asked, names, span) or unknown_name(asked, sorted(set(names.values())), span)


def of_address(asked: bytes, names: dict[bytes, bytes], span: tuple[int, int]) -> Reason | None:
    """A network's address as a name, as digits or as octets."""
    digits = asked.decode("latin-1").lower().translate(NO_MARKS)
    owner = next((bssid for bssid in names if asked == bssid or digits == bssid.hex()), None)
    return Reason(f"its SSID is the address {owner.hex(':')}, and a network is asked for by its name: "
                  f"{ssid_text(names[owner])}", span, f"write `{element(names[owner])}`") if owner else None


def without_current(frame: Frame, begin: int) -> Reason | None:
    """A reassociation request whose elements begin where its Current AP Address stands: an SSID element of six octets
    is read as the address."""
    address = frame.octets[CURRENT_AT:begin]
    if not frame.is_management(REASSOCIATION_REQUEST) or address[0] != SSID or \
            not is_followed(frame.octets[CURRENT_AT:]):
        return None
    name = first_of(elements(frame.octets[CURRENT_AT:]) or [], SSID) or b""
    return Reason(f"the Current AP Address of a reassociation request is missing before its elements: the six octets "
                  f"`{address.hex()}`, of the element SSID ({ssid_text(name)}), are read as the address",
                  (CURRENT_AT, begin), "write the BSSID of the access point that the station comes from before them; "
                  "an association request, which has no such field, begins with `0000`")


def is_utf8(name: bytes) -> bool:
    """Whether octets are UTF-8."""
    return name.decode("utf-8", "replace").encode() == name


def encoded_twice(name: bytes) -> bytes | None:
    """The octets of a name that were encoded a second time, each as a letter; None where they weren't."""
    try:
        octets = name.decode().encode("latin-1")
    except UnicodeError:
        return None
    return octets if not octets.isascii() and is_utf8(octets) else None


def seen_of(name: bytes) -> bytes:
    """A name without the characters that aren't seen."""
    text = name.decode("utf-8", "replace")
    return "".join(letter for letter in text if unicodedata.category(letter) not in ("Cf", "Cc")).encode()


def composed_text(name: bytes) -> str:
    """A name's letters, each with its marks composed."""
    return unicodedata.normalize("NFC", name.decode("utf-8", "replace"))


def length_meant(octets: bytes, place: int, asked: bytes) -> Reason | None:
    """A name whose element has a greater length than its letters: elements that are known stand within it."""
    letters = next((at for at, octet in enumerate(asked) if not 0x20 <= octet < 0x7F), len(asked))
    length = next((count for count in range(letters, 0, -1) if asked[count:] and
                   is_followed(octets[place + 2 + count:])), 0)
    if not length:
        return None
    decimal = ", which are hexadecimal digits" * (f"{len(asked):02x}" == f"{length:02d}")
    return Reason(f"the element SSID says that it has {len(asked)} octets{decimal}, and {length} stand before the next "
                  "element", (place + 1, place + 2), f"its length `{len(asked):02x}` has to be `{length:02x}`")


def unknown_name(asked: bytes, names: list[bytes], span: tuple[int, int]) -> Reason:
    """A name that no network has."""
    return (written_otherwise(asked, names, span) or encoded_otherwise(asked, names, span)
            or like_another(asked, names, span) or near_or_none(asked, names, span))


def written_otherwise(asked: bytes, names: list[bytes], span: tuple[int, int]) -> Reason | None:
    """The configuration has the name with what isn't meant to be a part of it."""
    in_quotes = next((name for name in names if len(name) > 2 and name[:1] == name[-1:] and name[:1] in QUOTES and
                      name[1:-1] == asked), None)
    if in_quotes is not None:
        return Reason(f"no network is called {ssid_text(asked)}; {ssid_text(in_quotes)} is, whose quotes are a part "
                      "of the name",
                      span, f"where they aren't meant write `ssid = \"{asked.decode('utf-8', 'replace')}\"` in "
                      "the configuration")
    of_page = next((name for name in names if name != asked and
                    html.unescape(name.decode("utf-8", "replace")).encode() == asked), None)
    if of_page is not None:
        return Reason(f"no network is called {ssid_text(asked)}: the configuration has it as {ssid_text(of_page)}, as "
                      "the source of a page writes it", span,
                      f"write `ssid = \"{asked.decode('utf-8', 'replace')}\"` in the configuration")
    of_url = next((name for name in names if b"%" in name and unquote_to_bytes(name) == asked), None)
    if of_url is not None:
        return Reason(f"no network is called {ssid_text(asked)}: the configuration has it as {ssid_text(of_url)}, as "
                      "an address of a page (URL) has it", span,
                      f"write `ssid = \"{asked.decode('utf-8', 'replace')}\"` in the configuration")
    unseen = next((name for name in names if name != asked and seen_of(name) == asked), None)
    if unseen is not None:
        return Reason(f"no network is called {ssid_text(asked)}; one is with a character more that isn't seen, "
                      f"`{unseen.hex()}`", span,
                      f"write `ssid = \"{asked.decode('utf-8', 'replace')}\"` anew in the configuration")
    return None


def encoded_otherwise(asked: bytes, names: list[bytes], span: tuple[int, int]) -> Reason | None:
    """The name has other octets for the same letters, or a line end behind them."""
    ended = next((name for name in names if asked.rstrip(b"\r\n") == name), None) if asked[-1:] == b"\n" else None
    if ended is not None:
        return Reason(f"no network is called {ssid_text(asked)}: this is {ssid_text(ended)} with a line end, "
                      f"`{asked[len(ended):].hex()}`, as `echo` writes one behind a "
                      f"text", span, f"write `{element(ended)}`")
    twice = next((name for name in names if encoded_twice(name) == asked), None)
    if twice is not None:
        return Reason(f"no network is called {ssid_text(asked)}: the configuration has it as {ssid_text(twice)}, whose "
                      "letters are encoded twice (UTF-8 of UTF-8)", span,
                      f"write `ssid = \"{asked.decode()}\"` in the configuration")
    latin = next((name for name in names if not asked.isascii() and
                  name.decode("utf-8", "replace").encode("latin-1", "replace") == asked), None)
    if latin is not None:
        return Reason(f"no network is called {ssid_text(asked)}: this is {ssid_text(latin)} in ISO 8859-1, and the "
                      f"network's SSID is in UTF-8", span, f"write `{element(latin)}`")
    alike = next((name for name in names if name != asked and b"\0" not in asked + name and
                  plain_of(name) == plain_of(asked)), None)
    if alike is not None:
        return of_letters(asked, alike, span)
    composed = next((name for name in names if asked != name and composed_text(asked) == composed_text(name)), None)
    if composed is not None:
        return Reason(f"no network is called {ssid_text(asked)} in these octets, `{asked.hex()}`: "
                      f"{ssid_text(composed)} has "
                      f"the same letters composed otherwise, `{composed.hex()}`", span, f"write `{element(composed)}`")
    return None


def plain_of(name: bytes) -> str:
    """A name with the letters of ASCII in the place of others that look like them, and without what isn't seen."""
    return plain_text(seen_of(name).decode("utf-8", "replace").translate(PRINTED))


def of_letters(asked: bytes, name: bytes, span: tuple[int, int]) -> Reason:
    """A name that looks as another does, and of which some letters are others."""
    texts = asked.decode("utf-8", "replace"), name.decode("utf-8", "replace")
    odd = [(text, letter) for text, other in (texts, texts[::-1]) for letter in text if letter not in other]
    text, letter = next((pair for pair in odd if not pair[1].isascii()), odd[0] if odd else (texts[0], texts[0][:1]))
    plain = letter.translate(PRINTED) if letter.translate(PRINTED) != letter else plain_letter(letter)
    what = f"looks like {'a space' if plain == ' ' else quoted(plain)} and is another character" if plain else \
        "isn't seen"
    where = "the frame's" if text == texts[0] else "the configuration's"
    return Reason(f"no network is called {ssid_text(asked)}; {ssid_text(name)} looks the same, and in {where} "
                  f"U+{ord(letter):04X} stands, which {what}", span,
                  f"write `{element(name)}`" if text == texts[0] else
                  f"write `ssid = \"{texts[0]}\"` in the configuration")


def like_another(asked: bytes, names: list[bytes], span: tuple[int, int]) -> Reason | None:
    """The name is hidden, differs from another in one way alone, or stands for its digits."""
    if asked.strip(b"\0") == b"":
        return Reason(f"its SSID is {len(asked)} zeros, as the beacon of a network that hides its name has it", span,
                      f"write the name, as `{element(names[0])}`")
    for difference, plain in ((" but for capital letters", lambda name: name.lower()),
                              (" but for quotes around it", lambda name: name.strip(b"\"'`")),
                              (" but for blanks or zeros around it", lambda name: name.strip(BLANKS)),
                              (" but for a no-break space or the like around it",
                               lambda name: name.decode("utf-8", "replace").strip().encode()),
                              (" but for signs written as in an address of a page (URL)", unquote_to_bytes)):
        like = next((name for name in names if plain(name) == plain(asked)), None)
        if like is not None:
            return Reason(f"no network is called {ssid_text(asked)}; {ssid_text(like)} is the same{difference}", span,
                          instead_of(asked, like))
    written = next((name for name in names if name.hex().encode() == asked.lower()), None)
    if written is not None:
        return Reason(f"no network is called {ssid_text(asked)}: these are the digits of {ssid_text(written)}, "
                      "written as letters once more", span, f"write `{element(written)}`")
    digits = next((name for name in names if name.lower() == asked.hex().encode()), None)
    if digits is not None:
        return Reason(f"no network is called {ssid_text(asked)}; {ssid_text(digits)} is, which are its digits: "
                      "`ssid` is the name as people read it",
                      span, f"write `ssid = \"{asked.decode('utf-8', 'replace')}\"` in "
                      "the configuration")
    return None


def near_or_none(asked: bytes, names: list[bytes], span: tuple[int, int]) -> Reason:
    """The name in UTF-16, a name that is near, or which there are."""
    texts = {name.decode("utf-8", "replace"): name for name in names}
    wide = next((name for text, name in texts.items() if asked in map(text.encode, WIDE)), None)
    if wide is not None:
        return Reason(f"no network is called {ssid_text(asked)}: this is {ssid_text(wide)} in UTF-16, two octets for "
                      "each letter, and the network's SSID is in UTF-8", span, f"write `{element(wide)}`")
    close = difflib.get_close_matches(asked.decode("utf-8", "replace"), texts, 1, LIKE)
    if close:
        return Reason(f"no network is called {ssid_text(asked)}; {ssid_text(texts[close[0]])} is", span,
                      f"write `{element(texts[close[0]])}`")
    more = " .." if len(names) > MOST_NAMED else ""
    return Reason(f"no network is called {ssid_text(asked)}; there are "
                  f"{', '.join(map(ssid_text, names[:MOST_NAMED]))}{more}", span)


def instead_of(asked: bytes, like: bytes) -> str:
    """What to write for a name that is nearly a network's: in the configuration, where the network's has the blank."""
    write = f"write `{element(like)}`"
    if like.strip(BLANKS) != asked:
        return write
    return f"where the blank isn't meant write `ssid = \"{asked.decode()}\"` in the configuration, else {write} here"


def element(name: bytes) -> str:
    """The SSID element of a name, as digits."""
    return (bytes([SSID, len(name)]) + name).hex()


def place_of(octets: bytes, begin: int) -> tuple[int, int]:
    """Where the first SSID element stands."""
    while octets[begin] != SSID:
        begin += 2 + octets[begin + 1]
    return begin, begin + 2 + octets[begin + 1]
