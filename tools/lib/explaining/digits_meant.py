"""L2: what stands among the digits of a frame that are no digits, and what a person meant by it."""
import re
from collections.abc import Callable

import called
from explaining import values
from explaining.joined import of_remark, of_second_line
from explaining.likeness import likeness
from explaining.notations import LIKE_LETTERS, among_marks, behind_words
from explaining.pasted import copied_from_page, unfilled
from explaining.source import Finding, Place, Source, in_full, plain_letter, quoted
from frames import BROADCAST

LEAST_GROUP, MOST_LOOKED = 7, 10_000  # digits of a group that is looked for in other lines, and how many of these
LEAST_LETTERS = 4  # of a dump, at the right
BETWEEN_DIGITS, MOST_AROUND, MOST_MARKS = ":-,.;|_", 20, 6
NO_QUOTES = str.maketrans("", "", "\"'`")
BEFORE_FRAME = re.compile("A +([0-9A-Fa-f]{2}(?::[0-9A-Fa-f]{2}){5}) +(?=[0-9A-Fa-f])")
KINDS = re.compile("(probe|auth|join|assoc|data|null|poll|leave|deauth|beacon)")
# Words that people write for octets.
WORDS = {**dict.fromkeys(("broadcast", "bcast", "all", "any", "*", "everyone", "ff..ff"), "ffffffffffff"),
         "ipv4": "0800", "ip": "0800", "arp": "0806", "ipv6": "86dd", "eapol": "888e", "snap": "aaaa03000000",
         "llc": "aaaa03000000", "llc/snap": "aaaa03000000"}
REPEATED = re.compile(r"([0-9A-Fa-f]{2}|[0-9A-Fa-f])\s*(?:[*x\u00d7]\s*(\d+)|\{(\d+)\})(?![0-9A-Fa-f])")
NAMED_FIELDS = re.compile(r"(?<![\w.])(?=\w*(?:[g-zG-Z]|=))[A-Za-z]\w*[=:] *(?=[0-9A-Fa-f]{2})")
ADDRESSES_AT = (8, 20, 32)  # digits before Address 1, 2 and 3
WITH_LETTERS = re.compile(r"[\"']?([A-Za-z0-9_.!? -]*[g-zG-Z][A-Za-z0-9_.!? -]*)[\"']?$")
TIME_BEFORE = re.compile(r"(\[?\d+[.:]\d[\d.:]*\]?|[-+]\d+(?:\.\d+)? ?(?:dBm)?|"
                         r"\d+ ?(?:dBm|MHz|ms|us|bytes|octets)|\d(?:\d\d)?) +(?=[0-9A-Fa-f]{4})")


def octets_from(line: str) -> int:
    """Where the digits of a line begin."""
    match = re.match(r"A ?|W +[^ ]+ *", line)
    return match.end() if match else 0


def of_digits(source: Source, number: int, line: str, names: dict[str, str]) -> Finding | None:
    """L2: another character among the digits, or an odd number of them; `names` are the networks' SSIDs by their
    addresses."""
    begin, bssids = octets_from(line), list(names)
    second = of_second_line(source, number, line)
    if second:
        return second
    stray = re.search("[^0-9A-Fa-f ]", line[begin:])
    if stray is None:
        return of_odd_digits(source, number, line, begin, bssids)
    at = begin + stray.start()
    parts: tuple[Callable[[], Finding | None], ...] = (
        lambda: copied_from_page(source, number, line), lambda: of_word(source, number, line, at),
        lambda: unfilled(source, number, line, at), lambda: of_time(source, number, line, begin, bssids),
        lambda: of_letters_of_dump(source, number, line, at, bssids),
        lambda: behind_words(source, number, begin, bssids), lambda: of_letters(source, number, line, at, names),
        lambda: of_beginning(source, number, line, at), lambda: of_repeated(source, number, line, at),
        lambda: of_named_fields(source, number, line, begin, bssids), lambda: of_remark(source, number, line, at),
        lambda: of_end(source, number, line, at), lambda: of_stray(source, number, line, at),
        lambda: among_marks(source, number, begin, bssids), lambda: of_text_behind(source, number, line, at, bssids))
    found = next((finding for part in parts if (finding := part())), None)
    return found or of_no_digit(line, at, source.place(number, at + 1))


def of_word(source: Source, number: int, line: str, at: int) -> Finding | None:
    """A word for octets, as `broadcast`."""
    begin, end = line.rfind(" ", 0, at) + 1, line.find(" ", at)
    word = line[begin:end if end >= 0 else len(line)]
    digits = WORDS.get(word.lower())
    return Finding(f"{quoted(word)} is a word for octets, and a frame has their digits",
                   source.place(number, begin + 1, len(word)), f"write `{digits}`") if digits else None


def of_time(source: Source, number: int, line: str, begin: int, bssids: list[str]) -> Finding | None:
    """A time, a strength or another number before the digits of a frame."""
    found = TIME_BEFORE.match(line, begin)
    rest = re.sub("[^0-9A-Fa-f]", "", line[found.end():]) if found else ""
    if not found or values.address_fault(found[1]) is None or len(rest) % 2 or not is_like(rest, bssids):
        return None
    return Finding(f"{quoted(found[1])} stands before the digits of a frame, and a trace has them alone behind their "
                   f"word",
                   source.place(number, begin + 1, len(found[1])),
                   f"write {in_full(line[:begin] + line[found.end():])}")


def of_letters_of_dump(source: Source, number: int, line: str, at: int, bssids: list[str]) -> Finding | None:
    """The letters that a dump shows at the right of a frame, one for each octet or some of them."""
    begin = line.rfind("  ", 0, at + 1)
    digits, letters = line[octets_from(line):begin].replace(" ", ""), line[begin:].strip() if begin >= 0 else ""
    if len(letters) < LEAST_LETTERS or len(letters) > len(digits) // 2 or re.search("[^0-9A-Fa-f]", digits) or \
            letters.count(".") * 2 < len(letters) or not is_like(digits, bssids):
        return None
    return Finding(f"{quoted(letters)} are the letters of its octets, as a hex dump shows them behind these, and a "
                   "line ends with its digits", source.place(number, begin + 3, len(line) - begin - 2),
                   "leave them out")


def is_like(digits: str, bssids: list[str]) -> bool:
    """Whether digits are like a frame to one of these networks or to all."""
    addresses = {bytes.fromhex(bssid.replace(":", "")) for bssid in bssids} | {BROADCAST}
    return len(digits) % 2 == 0 and likeness(bytes.fromhex(digits), addresses) > 0


def of_letters(source: Source, number: int, line: str, at: int, names: dict[str, str]) -> Finding | None:
    """A network's SSID as letters within a frame: where an address stands, the network's address."""
    found = next(((bssid, name) for bssid, name in names.items() if name in line and
                  line.index(name) - 1 <= at <= line.index(name) + len(name)), None)
    if not found:
        return None
    bssid, name = found
    begin = line.index(name)
    before = len(re.sub("[^0-9A-Fa-f]", "", line[octets_from(line):begin]))
    place = source.place(number, begin + 1, len(name))
    for other in names.values():  # a name may stand more than once
        before += 12 * line[:begin].count(f" {other} ") - len(re.sub("[^0-9A-Fa-f]", "", other)) * \
            line[:begin].count(f" {other} ")
    if line[begin - 1] == " " and line[begin + len(name):begin + len(name) + 1] in (" ", "") and before in ADDRESSES_AT:
        return Finding(f"{quoted(name)} stands where an address does, and a network is named by its own",
                       place, f"write `{bssid.replace(':', '')}`")
    return Finding(f"{quoted(name)} stands here as letters, and a frame has the digits of its octets", place,
                   f"write `{name.encode().hex()}`")


def of_beginning(source: Source, number: int, line: str, at: int) -> Finding | None:
    """An address or a word before the frame, or in its place."""
    begin = octets_from(line)
    digits = line[begin:]
    named = BEFORE_FRAME.match(line)
    if named:
        return Finding("behind `A` the frame follows at once: an address stands there in what `live` answers, and "
                       "behind `W`", source.place(number, named.start(1) + 1, len(named[1])),
                       f"write {in_full(f'A {line[named.end():].strip()}')}")
    if values.address_fault(digits.strip()) is None:
        return Finding("an address alone stands here, and a frame has more: Frame Control and Duration stand before it",
                       source.place(number, begin + 1, len(digits.strip())),
                       f"{called.document('FIRST_TRACE.md')} has lines to copy")
    if line.startswith(("...", "\u2026"), at) and not line.startswith("....", at):
        dots = "..." if line[at] == "." else line[at]
        return Finding(f"`{dots}` stands for octets that were left out, and a line has all octets of its frame",
                       source.place(number, at + 1, len(dots)), "write them there")
    return Finding(f"behind `A` the frame's octets stand, and {quoted(digits.split(' ')[0])} is a word for it",
                   source.place(number, begin + 1, len(digits)),
                   f"{called.fellow('frame')} writes the line of such a frame") if KINDS.match(digits) else None


def of_repeated(source: Source, number: int, line: str, at: int) -> Finding | None:
    """An octet with a number of times."""
    found = next((match for match in REPEATED.finditer(line, octets_from(line)) if match.start() <= at < match.end()),
                 None)
    if not found or not 1 < int(found[2] or found[3]) <= 256:
        return None
    return Finding(f"{quoted(found[0])} stands for an octet that is repeated, and a frame has all of its digits",
                   source.place(number, found.start() + 1, len(found[0])),
                   f"write {in_full(found[1].zfill(2) * int(found[2] or found[3]))}")


def of_named_fields(source: Source, number: int, line: str, begin: int, bssids: list[str]) -> Finding | None:
    """Names before the fields of a frame."""
    plain = NAMED_FIELDS.sub("", line[begin:])
    digits = re.sub("[ ,;:|.-]", "", plain)
    found = NAMED_FIELDS.search(line, begin)
    if not found or re.search("[^0-9A-Fa-f]", digits) or not is_like(digits, bssids):
        return None
    return Finding(f"{quoted(found[0].strip())} names a field, and a trace has the digits alone",
                   source.place(number, found.start() + 1, len(found[0])),
                   f"write {in_full(line[:begin] + digits)}")


def of_end(source: Source, number: int, line: str, at: int) -> Finding | None:
    """A mark at the end of a line, as other languages end theirs, and pagers and editors those that go on."""
    if line[at:].strip() in (">", "\u2026", "\u203a", "\u00bb"):
        return Finding(f"{quoted(line[at:].strip())} at the end of a line is a mark of a pager or an editor, as "
                       "`less -S` and nano set it: the line goes on behind it, and was cut",
                       source.place(number, at + 1, len(line) - at), "copy the whole line, with the rest of its octets")
    if line[at:].strip() == "$" and sum(other.endswith("$") for other in source.lines) > 1:
        return Finding("`$` stands at the end of each line, as `cat -A` shows it",
                       source.place(number, at + 1, len(line) - at), "leave it out")
    if line[at:].strip() not in (";", ",", ".", "|", "/", ")", "]", "}", "\"", "'", ";;", "),", "\",", "',") or \
            line[octets_from(line)] in "([{\"'`":
        return None
    return Finding(f"a line ends with its digits, and here {quoted(line[at:].strip())} follows",
                   source.place(number, at + 1, len(line) - at), "leave it out")


def of_stray(source: Source, number: int, line: str, at: int) -> Finding | None:
    """A character among the digits, by what people write there."""
    place, letter, before, behind = source.place(number, at + 1), line[at], line[:at], line[at + 1:]
    if letter in "hH" and before[-1:].isalnum() and (not behind[:1].isalpha() or behind[:1] in "hH"):
        return Finding(f"digits stand without `{letter}` behind them", place, f"leave each `{letter}` out")
    if letter in "\"'`" and not re.search("[g-zG-Z]", line[at:]):
        return Finding("digits stand without quotes", place, f"write {in_full(line.translate(NO_QUOTES))}")
    if letter == "#" and re.fullmatch("[0-9A-Fa-f ]{4,}", behind) and len(behind.replace(" ", "")) % 2 == 0:
        return Finding("`#` stands among the digits of a frame, and what follows are digits of it too", place,
                       f"write {in_full(f'{before.rstrip()} {behind.strip()}')}")
    if letter == "#":
        return Finding("a remark has a line of its own, and here one stands behind a frame", source.place(
            number, at + 1, len(line) - at), "move it to a line before this one")
    if letter in "xX" and before.endswith("0"):
        plain = re.sub(r"\b0[xX]", "", line)
        shown = f": write {in_full(plain)}" if re.fullmatch("[AW] [0-9A-Fa-f: ]+", plain) else ""
        return Finding("digits stand without `0x`", source.place(number, at, 2), f"leave each `0x` out{shown}")
    if letter == "%" and re.search("%[0-9A-Fa-f]{2}%", line):
        return Finding("octets are written as in an address of a page (URL), each with `%` before it", place,
                       f"write {in_full(line.replace('%', ''))}")
    if letter in BETWEEN_DIGITS:
        return of_mark_between(line, at, place)
    if letter == "\t":
        return Finding("a TAB among the digits; spaces alone may stand there", place,
                       "write a space" if behind.strip() else "leave it out")
    if letter == "\r":
        return of_return(source, number, line, place)
    if letter == "\\" and behind.strip() == "":
        return Finding("a frame is one line, and a backslash doesn't join it with the next one", place,
                       "write the next line's digits here")
    return None


def of_text_behind(source: Source, number: int, line: str, at: int, bssids: list[str]) -> Finding | None:
    """Words behind a frame, which may be a remark, or its payload as letters."""
    begin = line.rfind(" ", 0, at) + 1
    before = re.sub("[^0-9A-Fa-f]", "", line[octets_from(line):begin])
    text = line[begin:].strip()
    if re.fullmatch("[0-9A-Fa-f ]+", text.translate(LIKE_LETTERS)):
        return None
    if begin <= octets_from(line) or not re.search("[A-Za-z]{2}", text) or re.search("[0-9A-Fa-f]{6}", text) or \
            line[0] == "A" and not is_like(before[:len(before) // 2 * 2], bssids):
        return None
    plain = WITH_LETTERS.fullmatch(text)
    digits = f"; as a part of the frame it is `{plain[1].encode().hex()}`" if plain else ""
    return Finding(f"{quoted(text)} stands behind the digits of a frame as letters",
                   source.place(number, begin + 1, len(line) - begin),
                   f"a remark has a line of its own, before, and begins with `#`{digits}")


def of_no_digit(line: str, at: int, place: Place) -> Finding:
    """A character that is no digit, and perhaps looks like one."""
    letter = line[at]
    like = {"O": "0", "o": "0", "l": "1", "I": "1"}.get(letter) or plain_letter(letter)
    begin, end = line.rfind(" ", 0, at) + 1, line.find(" ", at)
    word = line[begin:end if end >= 0 else len(line)]
    mended = "".join({"O": "0", "o": "0", "l": "1", "I": "1"}.get(mark) or plain_letter(mark) or mark for mark in word)
    is_whole = like and len(word) <= MOST_AROUND and re.fullmatch("[0-9A-Fa-f]+", mended)
    return Finding(f"{quoted(letter)} is no hexadecimal digit", place,
                   f"write {like}: `{mended}` for {quoted(word)}" if is_whole else f"write {like}" if like else
                   "a frame is digits of 0 to 9 and a to f, with spaces where you like")


def of_mark_between(line: str, at: int, place: Place) -> Finding:
    """A mark between digits, once or between all of them."""
    begin = octets_from(line)
    digits, mark = line[begin:], line[at]
    word = word_around(digits, at - begin)
    mended = "".join(digit for digit in word if digit not in BETWEEN_DIGITS)
    if digits.count(mark) > MOST_MARKS:
        write = f"leave each `{mark}` out: write {in_full(line[:begin] + digits.replace(mark, ''))}"
    else:
        is_all = mended and not re.search("[^0-9A-Fa-f]", mended)
        write = f"write {in_full(mended)} for {quoted(word)}" if is_all else f"leave {quoted(word)} out"
    return Finding(f"digits stand without `{mark}` between them; spaces may stand there", place, write)


def with_returns(source: Source, number: int, line: str) -> Finding:
    """A CR within a line."""
    return Finding("lines end with CR alone, and a trace's end with LF", source.place(number, line.index("\r") + 1),
                   "`tr '\\r' '\\n'` writes such a text anew")


def of_return(source: Source, number: int, line: str, place: Place) -> Finding:
    """A CR behind a frame."""
    if line.rstrip("\r").count("\r"):
        return with_returns(source, number, line)
    if number == len(source.lines):
        return Finding("the last line ends with CR, and no LF follows: a CR is dropped before an LF alone", place,
                       "`sed 's/\\r*$//'` takes the CRs off")
    return Finding("a line ends with at most one CR", place, "`sed 's/\\r*$//'` takes the CRs off")


def word_around(text: str, at: int) -> str:
    """What stands between spaces around a place of a text; of a long word what is near that place."""
    begin, end = text.rfind(" ", 0, at) + 1, text.find(" ", at)
    end = len(text) if end < 0 else end
    return text[max(begin, at - MOST_AROUND):min(end, at + MOST_AROUND)]


def glued_line(line: str, begin: int, bssids: list[str]) -> int | None:
    """Where the word `A` of a second frame stands directly behind the first one's digits."""
    return next((place.start() for place in re.finditer("(?<=[0-9A-Fa-f])A(?= +[0-9A-Fa-f])", line)
                 if place.start() > begin and is_like(line[begin:place.start()].replace(" ", ""), bssids) and
                 is_like(line[place.end():].replace(" ", ""), bssids)), None)


def of_odd_digits(source: Source, number: int, line: str, begin: int, bssids: list[str]) -> Finding | None:
    """Where a digit may be missing or one too many: the first group with an odd number, else the whole."""
    count = len(line[begin:].replace(" ", ""))
    if count % 2 == 0:
        return None
    before = of_time(source, number, line, begin, bssids)
    if before:
        return before
    second = glued_line(line, begin, bssids)
    if second is not None:
        return Finding("a second line begins here, with its word `A`, without a line end before it",
                       source.place(number, second + 1, len(line) - second),
                       f"write {in_full(line[second:])} in the next line")
    following = source.line(number + 1).strip()
    if re.fullmatch("[0-9A-Fa-f ]+", following) and not following.startswith("A ") and \
            len(following.replace(" ", "")) % 2:
        return Finding("the frame goes on in the next line, and a frame is one line",
                       source.place(number, begin + 1, len(line) - begin),
                       f"write {in_full(following)} behind this line, without a space between")
    groups = [match for match in re.finditer("[^ ]+", line[begin:]) if len(match[0]) % 2]
    group = groups[0] if len(groups) == 1 or len(line[begin:].split(" ")) > 1 else None
    text = f"an odd number of digits, {count}: each octet has two"
    if group is None:
        return Finding(text, source.place(number, begin + 1, len(line) - begin), "a digit is missing, or one too many")
    like, at = like_group(source, number, group[0])
    return Finding(text, source.place(number, begin + group.start() + 1, len(group[0])),
                   f"this group has {len(group[0])}: a digit is missing, or one too many" +
                   (f"; write `{like}` where it is that of line {source.first + at - 1}" if like else ""))


def like_group(source: Source, number: int, digits: str) -> tuple[str, int]:
    """The first group of another line that has a digit more than this one, or less, and that line's number."""
    for at, line in enumerate(source.lines[:MOST_LOOKED], 1):
        for group in line.rstrip().split(" ")[1:] if at != number and len(digits) >= LEAST_GROUP else ():
            short, long = sorted((digits.lower(), group.lower()), key=len)
            if len(long) == len(short) + 1 and any(long[:cut] + long[cut + 1:] == short for cut in range(len(long))):
                return group, at
    return "", 0
