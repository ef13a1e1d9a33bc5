"""What a fault L1 to L5 of a trace comes of."""
import difflib
import re

import called
from explaining import values
from explaining.answers import Fault
from explaining.file_kinds import is_binary, other_file
from explaining.digits_meant import is_like, octets_from, of_digits, with_returns
from explaining.joined import of_fields, of_several_intervals, of_table, of_two_words
from explaining.no_key import INCLUDE, REMARK, remark_of
from explaining.keys import HOSTAPD
from explaining.notations import behind_words, over_lines, shown_frame, whole_frame
from explaining.of_access_point import of_access_point
from explaining.other_programs import of_capture, of_other_program, without_words
from explaining.pasted import copied_from_page, foreign, foreign_to_trace, unfilled
from explaining.report_lines import kind_of, of_report
from explaining.source import Finding, Source, in_full, odd_blank, plain_letter, plain_text, quoted
from explaining.unheard import is_slip

MOST_OCTETS, MOST_LINES, MOST_NAMED, MOST_LOOKED = 4096, 1_000_000, 4, 10_000
DIGITS = re.compile("[0-9A-Fa-f]{12,}")
OTHER_WORDS = {"A": "A", "AIR": "A", "RX": "A", "HEARD": "A", "W": "W", "WIRE": "W", "ETH": "W", "T": "T", "TICK": "T",
               "TBTT": "T", "BEACON": "T", "INTERVAL": "T", "WAIT": "T", "SLEEP": "T", "DELAY": "T", "CLOCK": "T"}
MARKS_BEFORE = r"[>+$|*\u2022\u2192\u21d2\u203a\u00bb\u25b6\u2013\u2014\u2713\u2714-]"
BEFORE_WORD = re.compile(rf"(\s*(?:(?:\d+ *[|:.)\t] ?|->|=>|{MARKS_BEFORE}) ?|"
                         r"[\[(]?[\d.,:TZ/-]*\d[\d.,:TZ/-]*[\])]?[:,]? +))"
                         r"(?=[AW] +[0-9A-Fa-f]|T$|#)")
QUOTES = ("\"", "'", "`", "\u201c", "\u2018", "\u00ab")
CLOSING = (*QUOTES, "\u201d", "\u2019", "\u00bb")
SAMPLE, LEAST_ADDRESS, LIKE = "02:00:00:00:00:01", 4, 0.7


def explain(source: Source, fault: Fault, names: dict[str, str], is_live: bool = False) -> list[Finding]:
    """The reason for a fault of a line; none where nothing was found. `names` are the networks' SSIDs by their
    addresses, as the configuration has them, `is_live` where lines are answered as they come."""
    number = fault.line or 0
    finding = other_file(source, "trace", "ASCII") or (whole_frame(source, names) if is_binary(source) else None)
    if finding:
        return [finding]
    if fault.code == "L5" and number > MOST_LINES and not is_live:
        return [Finding(f"a trace has at most {MOST_LINES:,} lines, remarks and empty ones too, and this has more",
                        source.place(number), "`split -l 1000000` cuts it")]
    if not 1 <= number <= len(source.lines):
        return []
    line = source.lines[number - 1]
    line = (line.removesuffix("\r") if number < len(source.lines) else line).rstrip(" ")
    begin = octets_from(line) if fault.code == "L2" else 0
    shown = shown_frame(source, number, begin, names) if fault.code in ("L1", "L2") else None
    strange = foreign(source, number) or of_access_point(source, number, True) or shown or \
        of_other_program(source, number) or (foreign_to_trace(source, number, names) if fault.code == "L1" else None)
    if strange:
        return [strange]
    odd = odd_blank(source, number)
    if odd and fault.code in ("L1", "L2", "L3", "L4"):
        return [odd]
    bssids = list(names)
    named = of_name(source, number, line, names) if fault.code == "L3" else \
        of_digits(source, number, line, names) if fault.code == "L2" else None
    if named:
        return [named]
    parts = {"L1": of_word, "L3": of_address, "L4": of_network, "L5": of_length}
    finding = parts[fault.code](source, number, line, bssids) if fault.code in parts else None
    return [finding] if finding else []


def of_word(source: Source, number: int, line: str, bssids: list[str]) -> Finding | None:
    """L1: the first word, or what follows `T`."""
    first, whole = line.partition(" ")[0], source.place(number, 1, len(line))
    if line.startswith("\ufeff"):
        return Finding("a byte order mark stands before the first line", source.place(number),
                       "`sed '1s/^\\xef\\xbb\\xbf//'` takes it off")
    if line.startswith("---"):
        return Finding("a second line `---`, which belongs to no trace", whole, "leave it out")
    behind = BEFORE_WORD.match(line)
    if line[:1] in " \t" and not behind:
        return after_blank(source, number, line, bssids)
    several = of_several_intervals(line, whole)
    if several:
        return several
    if first.rstrip("\r") == "T" or re.fullmatch(r"T[\r\t].*|T[;,.:!$]+", line):
        return of_tick(source, number, line)
    if "\r" in line:
        return with_returns(source, number, line)
    page = copied_from_page(source, number, line)
    if page:
        return page
    table = of_fields(source, number, line) or of_table(source, number, line)
    if table:
        return table
    if "\t" in first and line.count("\t") > 1 and line[:1].upper() not in OTHER_WORDS:
        return Finding("this is a row of values separated by TABs, as `tshark -T fields` prints them: none of them is "
                       "a frame's octets", whole, of_capture())
    if "\t" in first:
        return Finding("words are separated by spaces, and this is a TAB", source.place(number, line.index("\t") + 1),
                       "write spaces instead")
    return of_first_word(source, number, line, bssids) or of_other_text(source, number, line, bssids)


def beside(source: Source, mark: str) -> str:
    """What is told beside a mark before a line's word: how many more lines have one, and how numbers are taken off."""
    also = sum(bool(BEFORE_WORD.match(other)) for other in source.lines) - 1
    if also < 1:
        return "; a remark has a line of its own, before"
    how = ": `sed 's/^ *[0-9]*[:.)|\\t ]*//'` takes such numbers off, which `cat -n`, `grep -n` and editors write"
    return f"; so in {also} more line{'s' * (also > 1)}" + how * bool(re.fullmatch(r"\d+ *[|:.)\t]*", mark))


def after_blank(source: Source, number: int, line: str, bssids: list[str]) -> Finding:
    """A blank before a line, or before digits without their word."""
    rest = line.strip()
    place = source.place(number, 1, len(line) - len(line.lstrip()))
    if re.fullmatch("[0-9A-Fa-f ]+", rest) and is_like(rest.replace(" ", ""), bssids):
        return Finding("a line begins with its word, which is missing here", place, f"write {in_full(f'A {rest}')}")
    return Finding("a remark begins at the beginning of its line, and here a blank stands before "
                   "it" if rest[:1] == "#" else
                   "a line begins with its word, and not with a blank", place, f"write {in_full(rest)}")


def of_first_word(source: Source, number: int, line: str, bssids: list[str]) -> Finding | None:
    """A word that nearly is one of a trace, or something before it."""
    first, _, rest = line.partition(" ")
    place = source.place(number, 1, len(first))
    behind = BEFORE_WORD.match(line)
    if behind:
        more = beside(source, behind[1].strip())
        return Finding(f"{quoted(behind[1].strip())} stands before the word, and a line begins with its word",
                       source.place(number, 1, len(behind[1].rstrip())), f"write {in_full(line[behind.end(1):])}{more}")
    several = of_two_words(source, number, line)
    if several:
        return several
    bare = re.sub(r"^[^\w#]+|[^\w#]+$", "", first)
    word = OTHER_WORDS.get(bare.upper())
    rest = rest.rstrip("\"'`\u201d\u2019],;") if bare != first.rstrip(":,;.-") else rest
    if word == "W" and word != first.upper() and DIGITS.match(rest) and not kind_of(line):
        return Finding(f"{quoted(first)} is no word of a trace; for a frame on a wire it is `W`, and then the BSSID of "
                       "the network whose wire it is", place,
                       f"write {in_full(f'W {bssids[0] if bssids else SAMPLE} {rest}')}; {having(bssids)}")
    if word and first[:1] in QUOTES and line.rstrip()[1:][-1:] in CLOSING:
        mark = "a backquote" if first[0] == "`" else quoted(first[0])
        return Finding(f"{mark} stands around the line, and a trace has no quotes",
                       source.place(number, 1, len(line)),
                       f"write {in_full((word + ' ' + rest.strip()).strip() if word != 'T' else 'T')}")
    if word and word != first.upper() and not kind_of(line):
        return Finding(f"{quoted(first)} is no word of a trace; `{word}` is: `A` for a frame on the air, `W` for one "
                       "on a wire, `T` for a beacon interval", place,
                       f"write {in_full((word + ' ' + rest.strip()).strip() if word != 'T' else 'T')}")
    plain = plain_letter(line[0])
    if plain and plain.upper() in OTHER_WORDS:
        return Finding(f"{quoted(line[0])} (U+{ord(line[0]):04X}) looks like {quoted(plain)} and is another character",
                       source.place(number), f"write {in_full(plain.upper() + line[1:])}")
    if first == "I":
        return Finding("`I` asks `live` for its tables, and is no line of a trace", place, "leave it out")
    if first.upper() in ("A", "W", "T"):
        return Finding(f"the word is `{first.upper()}`, a capital letter", place,
                       f"write {in_full(first.upper() + line[1:])}")
    return None


def of_tick(source: Source, number: int, line: str) -> Finding:
    """Something after `T`."""
    rest = line[1:]
    if set(rest) <= {"\r"}:
        is_last = number == len(source.lines)
        text = "the last line ends with CR, and no LF follows" if is_last else "a line ends with at most one CR"
        return Finding(text, source.place(number, 2, len(rest)), "`sed 's/\\r*$//'` takes the CRs off")
    if rest.startswith("\r"):
        return with_returns(source, number, line)
    is_remark = re.match(r"\s*(?:#|//|--|;|/\*|%)", rest)
    return Finding("nothing follows `T`, which begins a beacon interval in every network",
                   source.place(number, 2 + len(rest) - len(rest.lstrip()), len(rest.strip())), "write `T` alone" +
                   ("; a remark has a line of its own, which begins with `#`" if is_remark else ""))


def of_other_text(source: Source, number: int, line: str, bssids: list[str]) -> Finding | None:
    """A line of another kind of text."""
    if re.match(r"[AW][0-9A-Fa-f]", line) or re.fullmatch(r"[aw][0-9A-Fa-f ]+", line) and \
            is_like(line[1:].replace(" ", ""), bssids):
        return Finding(f"a space stands after `{line[0].upper()}`", source.place(number, 1),
                       f"write {in_full(f'{line[0].upper()} {line[1:]}')}")
    named = re.match(r"([AWaw])[=:,;]+(?=[0-9A-Fa-f]{2})", line)
    if named:
        return Finding(f"a space alone stands after `{named[1].upper()}`",
                       source.place(number, 2, named.end() - 1),
                       f"write {in_full(f'{named[1].upper()} {line[named.end():]}')}")
    marked = re.fullmatch(r"([AaWw])([^\w\s:])((?:[0-9A-Fa-f]+\2)+[0-9A-Fa-f]+)", line)
    if marked:
        return Finding(f"{quoted(marked[2])} stands where a space does", source.place(number, 2),
                       f"write {in_full(f'{marked[1].upper()} {marked[3].replace(marked[2], chr(32))}')}")
    underscored = re.fullmatch(r"([AaWw])_((?:[0-9A-Fa-f]+_)+[0-9A-Fa-f]+)", line)
    if underscored:
        digits = underscored[2].replace("_", " ")
        return Finding("`_` stands where a space does", source.place(number, 2),
                       f"write {in_full(f'{underscored[1].upper()} {digits}')}")
    return of_foreign_line(source, number, line, bssids) or of_bare_digits(source, number, line, bssids)


def of_foreign_line(source: Source, number: int, line: str, bssids: list[str]) -> Finding | None:
    """A remark, or a line that belongs to another text."""
    place, include = source.place(number, 1, len(line)), INCLUDE.match(line)
    if include:
        return Finding("no other file is read from here: a trace is one text", place.part(include[0]),
                       "write that file's lines in this place")
    signature = of_signature(source, number)
    if signature:
        return signature
    if REMARK.match(line):
        return Finding("a remark begins with `#`", source.place(number, 1, 2),
                       f"write {in_full('# ' + remark_of(line))}")
    report = of_report(source, number)
    if report:
        return report
    if sum(other.partition("=")[0].strip() in HOSTAPD for other in source.lines) > 1:
        return Finding("this is a configuration of hostapd, and no trace", place,
                       f"{called.fellow('config-from-hostapd')} makes a configuration of it; a trace is another text")
    if re.match(r"[a-z_]+ *= *\S|\[\[?network", line):
        return Finding("this is a line of a configuration, and no trace", place,
                       "a configuration stands before the line `---`, or in a file of its own: `run CONFIG TRACE`")
    if re.fullmatch(r"[0-9A-Fa-f]{2}[0-9A-Fa-f ]{6,}", line):
        return over_lines(source, number)
    return behind_words(source, number, 0, bssids) or without_words(source, number)


def of_bare_digits(source: Source, number: int, line: str, bssids: list[str]) -> Finding:
    """Digits without their word, or a word that no trace has."""
    first, place = line.split(" ")[0], source.place(number, 1, len(line))
    if re.fullmatch(r"(?:EOF|EOT|END|quit|exit|stop)\.?", line.strip()):
        return Finding(f"{quoted(first)} is no word of a trace, which ends with its last line",
                       source.place(number, 1, len(first)), "leave it out")
    digits = re.sub("[^0-9A-Fa-f]", "", line)
    if re.fullmatch(r"(?:[0-9A-Fa-f]{2}[ :.,-]?)+", line) and is_like(digits, bssids):
        return Finding("a line begins with its word, which is missing here, and its digits have spaces alone between",
                       place.part(first), f"write {in_full(f'A {digits}')}")
    return Finding(f"{quoted(first)} is no word of a trace: a line begins with `A`, `W` or `T`, or with `#`",
                   source.place(number, 1, len(first)), f"where it is a remark write {in_full(f'# {line.strip()}')}")


def of_signature(source: Source, number: int) -> Finding | None:
    """The line `-- ` with which the signature of a mail begins, and no line of a trace behind it."""
    rest = [line for line in source.lines[number:] if line.strip()]
    if not re.fullmatch(r"-- ?", source.line(number).rstrip("\r")) or not rest or \
            any(re.match(r"[AW] |T\s*$|#", line) for line in rest):
        return None
    return Finding("the signature of a mail begins here, and belongs to no trace", source.place(number, 1, 2),
                   "leave this line out, and those behind it")


def of_name(source: Source, number: int, line: str, names: dict[str, str]) -> Finding | None:
    """A network's SSID behind `W`, with or without quotes."""
    match = re.match("W +([^ ]+)", line)
    word = match[1].strip("\"'`") if match else ""
    owners = [bssid for bssid, name in names.items() if name.lower() == word.lower()]
    close = difflib.get_close_matches(word, list(names.values()), 1, LIKE)
    if match and not owners and close and not re.fullmatch("[0-9A-Fa-f:.-]+", word):
        owners = [bssid for bssid, name in names.items() if name == close[0]]
    if not match or not owners:
        return None
    what = "is" if names[owners[0]].lower() == word.lower() else "is nearly"
    return Finding(f"after `W` a network is named by its address, and {quoted(word)} {what} the SSID of "
                   f"{' and '.join(owners)}",
                   source.place(number, match.start(1) + 1, len(match[1])), f"write `W {owners[0]}`")


def of_address(source: Source, number: int, line: str, bssids: list[str]) -> Finding | None:
    """L3: the address after `W`."""
    match = re.match(r"W +([^ ]*)", line)
    word = match[1] if match else ""
    if not match or not word:
        return Finding("after `W` the address of the network stands, whose wire it is", source.place(number, 1),
                       f"write `W {bssids[0] if bssids else '02:00:00:00:00:01'}` and the frame's digits")
    fault = values.address_fault(word)
    if not fault:
        return None
    text, span, mended = fault
    some = bssids[0] if bssids else "02:00:00:00:00:01"
    whole = source.place(number, match.start(1) + 1, len(word))
    digits = line[match.start(1):].replace(" ", "")
    if re.fullmatch("[0-9A-Fa-f]+", digits) and re.fullmatch("[0-9A-Fa-f]{4}|[0-9A-Fa-f]{8}", word) and \
            is_like(digits, bssids):
        return Finding("a frame on the air (802.11) stands behind `W`, which is for a frame on a wire, and before it "
                       "the address of the network", whole, f"write {in_full(f'A {line[match.start(1):]}')}")
    joined = re.match(r"((?:[0-9A-Fa-f]{2}:){5}[0-9A-Fa-f]{2})[,;]?(?=[0-9A-Fa-f]{6})", word)
    if joined:
        return Finding("a space is missing behind the address of the network",
                       source.place(number, match.start(1) + len(joined[1])),
                       f"write {in_full(f'W {joined[1]} {word[len(joined[0]):]}')}")
    empty = None if mended else unfilled(source, number, line, match.start(1), having(bssids) if bssids else None)
    if empty:
        return empty
    if len(word) < LEAST_ADDRESS or not re.search("[:.-]", plain_text(word)) and re.search("[^0-9A-Fa-f]", word):
        return Finding(f"after `W` a network is named by its address, and {quoted(word)} is none", whole,
                       having(bssids) if bssids else None)
    place = source.place(number, match.start(1) + 1 + span[0], span[1] - span[0])
    second = of_second_place(source, number, line, bssids)
    if second:
        return second
    if DIGITS.fullmatch(word) and (mended is None or mended not in map(str.lower, bssids)):
        return Finding("after `W` the BSSID is missing, the address of the network whose wire it is, before the frame",
                       whole, f"write {in_full(f'W {some} {word}')}" + (f"; {having(bssids)}" if bssids else ""))
    is_one = not bssids or mended is not None and mended in map(str.lower, bssids)
    return Finding(text, place, f"write `W {mended or some}`" if is_one or not mended else
                   f"the address is {mended}, which no network has; {having(bssids)}")


def of_second_place(source: Source, number: int, line: str, bssids: list[str]) -> Finding | None:
    """The address of a network behind a destination, where it should come first."""
    found = re.match(r"W +([0-9A-Fa-f]{12}) +((?:[0-9A-Fa-f]{2}:){5}[0-9A-Fa-f]{2})\b(.*)", line)
    if not found or found[2].lower() not in map(str.lower, bssids):
        return None
    written = f"W {found[2]} {found[1]} {found[3].strip()}"
    return Finding(f"the network {found[2]} stands behind the destination, and comes first after `W`",
                   source.place(number, found.start(1) + 1, found.end(2) - found.start(1)),
                   f"write {in_full(written)}")


def having(bssids: list[str]) -> str:
    """Which addresses the networks have, the first few of them."""
    return f"its networks have {', '.join(bssids[:MOST_NAMED])}" + (" .." if len(bssids) > MOST_NAMED else "")


def of_network(source: Source, number: int, line: str, bssids: list[str]) -> Finding | None:
    """L4: an address that no network has."""
    match = re.match(r"W +([^ ]+)", line)
    if not match or match[1].lower() in (bssid.lower() for bssid in bssids):
        return None
    word, listed = match[1].lower(), [bssid.lower() for bssid in bssids]
    place, sender = source.place(number, match.start(1) + 1, len(match[1])), line_of_sender(source, word)
    if sender and bssids:
        return Finding(f"{match[1]} is the address of a station, which sends line {source.first + sender - 1}, and "
                       "after `W` the network stands whose wire it is", place,
                       f"write `W {bssids[0]}`; {having(bssids)}")
    close = [bssid for bssid in listed if is_slip(word, bssid)] or difflib.get_close_matches(word, listed, 1, 0.8)
    has = having(bssids)
    named = addressed_networks(source)
    if not any(bssid in named for bssid in listed) and named.count(word) > 1:
        return Finding(f"no network of the configuration has the address {match[1]}, to which {named.count(word)} "
                       "lines on the air are, and none is to a network of the configuration: they don't belong "
                       "together", place,
                       f"take the configuration of this trace, or give a network this address; {has}")
    return Finding(f"no network of the configuration has the address {match[1]}", place,
                   f"write {close[0]}, or a network with this address; {has}" if close else has)


def addressed_networks(source: Source) -> list[str]:
    """The address that each line on the air has first, of one receiver."""
    frames = (line[1:].replace(" ", "").lower()[8:20] for line in source.lines[:MOST_LOOKED] if line.startswith("A "))
    return [":".join(re.findall("..", address)) for address in frames if address != "f" * 12]


def line_of_sender(source: Source, address: str) -> int | None:
    """The first line on the air that a sender of this address has."""
    digits = address.replace(":", "")
    frames = ((at, line[1:].replace(" ", "").lower()) for at, line in enumerate(source.lines[:MOST_LOOKED], 1)
              if line.startswith("A "))
    return next((at for at, frame in frames if frame[20:32] == digits), None)


def of_length(source: Source, number: int, line: str, bssids: list[str]) -> Finding | None:
    """L5: a frame that is too long."""
    begin = octets_from(line)
    count = len(line[begin:].replace(" ", "")) // 2
    if count <= MOST_OCTETS:
        longest = 65_536
        return Finding(f"`live` reads lines of at most {longest:,} octets, and this has {len(line):,}",
                       source.place(number, 1, len(line))) if len(line) > longest else None
    return Finding(f"a frame has at most {MOST_OCTETS:,} octets, and this has {count:,}",
                   source.place(number, begin + 1, len(line) - begin),
                   "no frame on the air is so long: several may have been joined into one line")
