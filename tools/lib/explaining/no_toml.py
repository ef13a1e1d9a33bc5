"""What a fault C1 comes of: octets that are no UTF-8, a text that is no TOML, or one that isn't a configuration at
all."""
import re
import tomllib

import called
from explaining.file_kinds import other_file
from explaining.in_remarks import header_in_remark, of_header
from explaining.keys import HOSTAPD, NETWORK_KEYS, SAMPLES
from explaining.no_key import REMARK, of_key, remark_mark, remark_of
from explaining.no_value import QUOTES, in_form, of_value
from explaining.of_access_point import of_access_point
from explaining.other_programs import of_other_program, without_keys
from explaining.pasted import entity, foreign
from explaining.same_again import with_others
from explaining.separators import of_joined, of_trace
from explaining.source import Finding, Place, Source, odd_blank, quoted
from explaining.toml_scan import NoToml, scan

REPORT_LINE = re.compile(r"network [0-9a-f:]{17} ssid [0-9a-f]*|(?:air|wire) [0-9a-f]+|events \d+ clock \d+.*")
BRACED_SIGN = re.compile(r"(?<=[\w\"'])\s*:\s*(?=[\"'\d\[{tf])(?![0-9A-Fa-f]{2}[:\"'])")
HUGE = re.compile(r"^[ \t]*[\w-]+[ \t]*=[ \t]*([+-]?[0-9][0-9_.]*[eE][+]?[0-9]{3,})", re.MULTILINE)
NETWORK_OF_NAME = re.compile(r"^[ \t]*(\[\[? *network *\.[^\]\n]*\]\]?)", re.MULTILINE)
NAMED_HEADER = re.compile(r"\s*\[+ *network[ :=\"'-]+(\w[\w .-]*?)[\"']? *\]*\s*")
LEAST_KEYS = 2  # of a network, by which it is told from a key that was written twice


def explain(source: Source, wants_trace: bool) -> list[Finding]:
    """The reason for a fault C1; none where nothing was found. `wants_trace` where a line `---` and a trace may
    follow in the same text."""
    finding = other_file(source, "configuration", "UTF-8") or not_utf8(source) or other_text(source)
    if finding:
        return [finding]
    try:
        scan(source.text)
    except NoToml as fault:
        return [with_others(source, of_line(source, fault, wants_trace),
                            lambda other: of_line(source, other, wants_trace))]
    except RecursionError:
        return []
    return of_library(source)


def not_utf8(source: Source) -> Finding | None:
    """The first octet that is none of UTF-8."""
    try:
        source.octets.decode("utf-8")
        return None
    except UnicodeDecodeError as fault:
        octet = source.octets[fault.start]
        at = len(source.octets[:fault.start].decode("utf-8"))
    letter = bytes([octet]).decode("cp1252", "replace")
    like = f"; in ISO 8859-1 it is {quoted(letter)}" if octet >= 0xA0 else ""
    return Finding(f"the octet {octet:02x} is no UTF-8{like}", source.at(at, at + 1),
                   "`iconv -f ISO-8859-1 -t UTF-8` writes such a text anew")


def other_text(source: Source) -> Finding | None:
    """A text of another program, or another text of this one."""
    first = next((number for number, line in enumerate(source.lines, 1) if line.strip()), 1)
    line = source.line(first).strip()
    if REPORT_LINE.fullmatch(line):
        return Finding("this is a report of the program, and no configuration", source.place(first, 1, len(line)))
    if re.match(r"\{\s*[\w-]+\s*=", source.text.strip()):
        return Finding("braces stand around the keys, as Nix, libconfig and other languages have them, and TOML has "
                       "none there", source.place(first), "write `channel = 6`, without braces and `;`, a line for "
                       "each key")
    told = of_access_point(source, first, False) if line.startswith(("{", "[")) else None
    if told:
        return told
    if line.startswith("{") or re.match(r"\[\s*\{\s*[\"}]", source.text.strip()):
        return Finding("this is JSON, and a configuration is TOML", source.place(first),
                       "write `channel = 6`, without braces, a line for each key")
    keys = [line.split("=")[0].strip() for line in source.lines if "=" in line and not line.startswith("#")]
    of_hostapd = [key for key in keys if key in HOSTAPD]
    has_tables = any(line.lstrip().startswith("[") for line in source.lines)
    if len(of_hostapd) >= 2 and not has_tables or of_hostapd == ["interface"] and not has_tables and "ssid" in keys:
        number = next(number for number, line in enumerate(source.lines, 1) if line.startswith(of_hostapd[0]))
        return Finding("this is a configuration of hostapd, and the program has its own keys, in TOML",
                       source.place(number, 1, len(of_hostapd[0])),
                       f"{called.fellow('config-from-hostapd')} writes one for it, and says why it left a line out")
    if "\n" not in source.text.strip() and "\r" in source.text.strip():
        return Finding("lines end with CR alone, and TOML's end with LF", source.at(*first_return(source)),
                       "`tr '\\r' '\\n'` writes such a text anew")
    return None


def first_return(source: Source) -> tuple[int, int]:
    """Where the first CR stands."""
    at = source.text.index("\r", len(source.text) - len(source.text.lstrip()))
    return at, at + 1


def of_line(source: Source, fault: NoToml, wants_trace: bool) -> Finding:
    """Why the text stops being TOML in this line."""
    place = source.at(fault.begin, fault.end)
    line = source.line(place.line)
    finding = foreign(source, place.line) or of_entity(place, line) or \
        of_access_point(source, place.line, False) or of_other_program(source, place.line) or \
        of_trace(source, place, line, wants_trace) or of_joined(source, place, line, wants_trace) or \
        of_template(source, place.line)
    if finding:
        return finding
    strange = without_keys(source, place.line)
    if strange:
        return strange
    by_expected = {"`=` after a key": of_key, "a key": of_key, "a value": of_value, "the line's end": of_rest,
                   "a key that isn't there yet": of_key_twice, "a table that isn't there yet": of_table_twice}
    blank = odd_blank(source, place.line, place.column - 1, place.column - 1 + place.length)
    if blank and (fault.expected in ("`=` after a key", "a key", "a value", "the line's end") or
                  fault.expected.startswith("`]")):
        return blank
    within = of_part(source, place, fault)
    if within:
        return within
    if fault.expected in by_expected:
        return by_expected[fault.expected](place, line, fault, source)
    if fault.expected.startswith("`,` between the parts of a table") and "{" not in line[:place.column]:
        return of_braces(source, place, fault)
    if fault.expected.startswith("a closing"):
        return of_closing(place, line, fault.expected, source)
    if fault.expected.startswith("a character that may follow"):
        return of_backslash(place, line, source.text[fault.begin:fault.end])
    if "control character" in fault.expected:
        return Finding(f"a control character, {ord(source.text[fault.begin]):02x}; {fault.expected}", place)
    if fault.expected.startswith("`]"):
        named = NAMED_HEADER.fullmatch(line)
        return Finding(f"{quoted(line.strip())} begins no network: a network begins with a line `[[network]]`", place,
                       f"write `[[network]]`: a network has its name as `ssid = \"{named[1]}\"`") if named else \
            Finding(f"a header ends with {fault.expected.split()[0]}" if line.lstrip().startswith("[")
                       else f"{fault.expected} is missing", place,
                       "write `[[network]]`" if "network" in line else None)
    return Finding(f"expected: {fault.expected}", place)


def of_part(source: Source, place: Place, fault: NoToml) -> Finding | None:
    """A part of a table within braces in one line that isn't a key, `=` and a value, or has no comma before it."""
    line, at = source.line(place.line), place.column - 1
    if "{" not in line[:at] or "{{" in line:
        return None
    if fault.expected == "`=` after a key" or fault.expected == "a key":
        found = re.compile(r"[\"']?[\w-]*[\"']?\s*([:>-]+)").match(line, at)
        return Finding(f"`{found[1]}` stands where TOML has `=`, within braces too",
                       source.place(place.line, found.start(1) + 1, len(found[1])),
                       f"write `{re.sub(BRACED_SIGN, ' = ', line.strip())}`") if found else None
    if not fault.expected.startswith("`,` between the parts of a table"):
        return None
    rest = line[at:].strip()
    if rest.startswith(";"):
        return Finding("`;` stands between the parts of a table, and TOML has `,` there", place,
                       f"write `{line.strip().replace(';', ',')}`")
    if re.match(r"[\w\"'-]+\s*=", rest):
        before = quoted(rest.split("=")[0].strip())
        return Finding(f"`,` is missing between the parts of a table, before {before}", place, "write a comma there")
    return Finding("`}` is missing at the end of a table, or `,` between the parts of a table", place,
                   "write `}` there: each `{` has one") \
        if not rest or rest[0] in "]#" else None


def of_braces(source: Source, place: Place, fault: NoToml) -> Finding:
    """A table within braces whose keys have no commas between them, as those below a header have none."""
    at = source.text.rfind("{", 0, fault.begin)
    begin = source.text.rfind("\n", 0, at) + 1
    header = source.text[begin:at + 1].strip()
    return Finding("the keys of a table within braces have commas between them, and none stands before line "
                   f"{place.line + source.first - 1}", source.at(at, at + 1), f"write `[[network]]` in place of "
                   f"`{header}`, and its keys below it, a line for each, without braces" if "network" in header else
                   "write a comma there")


def of_backslash(place: Place, line: str, text: str) -> Finding:
    """A backslash before a character with which it stands for none."""
    found = re.fullmatch(r"\s*(bssid|rates)\s*=\s*\"(.*)\"\s*", line)
    plain = in_form(found[2].replace("\\", ""), found[1]) if found else ""
    return Finding(f"{quoted(text)} stands for no character", place, f"write `{found[1]} = {plain}`" if found else
                   "write `\\\\` for a backslash, or the text between single quotes")


def of_closing(place: Place, line: str, expected: str, source: Source) -> Finding:
    """A text without the quote that ends it; another quote may stand there, or the whole text may end."""
    mark = expected[10:]
    if REMARK.match(line):
        return of_remark(place, line.strip())
    if place.line == len(source.lines):
        return Finding("the text ends within this line: it wasn't written or copied to its end", place,
                       f"a text begins and ends with {mark}")
    following = source.line(place.line + 1).rstrip()
    if following.endswith(mark) and "=" not in following and len(mark) == 1:
        return Finding("a text stands in one line, and this one goes on in the next", place,
                       f"write `{line.strip()} {following.strip()}`, or `\\n` where the line end is a part of it")
    found = re.match(r"\s*([\w-]+)\s*=\s*[\"']([^\"'#]*)([\"']?)\s*$", line)
    other = f", and {found[3]} stands there" if found and found[3] else ""
    before = re.match(r"\s*([\w-]+)\s*=\s*[\"']([^\"'#]*[^\"'#\s])\s*(#.*)$", line)
    if before and len(mark) == 1:
        return Finding(f"{expected} is missing before the remark, which is a part of the text so", place,
                       f"write `{before[1]} = \"{before[2]}\" {before[3].rstrip()}`")
    print_quote = QUOTES.search(found[2]) if found else None
    other = f", and {quoted(print_quote[0])} stands there, a quote of print" if print_quote else other
    return Finding(f"{expected} is missing{other}", place, f"a text begins and ends with {mark}" +
                   (f": write `{found[1]} = \"{QUOTES.sub('', found[2]).strip()}\"`" if found else ""))


def of_remark(place: Place, text: str) -> Finding:
    """A remark of another language."""
    return Finding(f"{quoted(text, 12)}: a remark begins with `#`", place.part(remark_mark(text)),
                   f"write `# {remark_of(text) or '..'}`")


def of_entity(place: Place, line: str) -> Finding | None:
    """A line that was copied out of the source of a page."""
    meant = entity(line)
    return None if meant is None else Finding("this line was copied out of a page of HTML, which writes `&quot;` for "
                                              "`\"`",
                                              place, f"write `{meant.strip()}`")


def of_template(source: Source, number: int) -> Finding | None:
    """A key whose value is a place of a template, in braces, which TOML takes for a table."""
    match = re.match(r"\s*([\w-]+)\s*=\s*(\{\{.*)", source.line(number))
    return None if match is None else Finding(
        f"{quoted(match[2])} stands for a value that nothing has put here: this text is a template",
        source.place(number, match.start(2) + 1, len(match[2].rstrip())), f"write a value, as `{match[1]} = "
        f"{SAMPLES.get(match[1], '..')}`")


def of_rest(place: Place, line: str, fault: NoToml, source: Source) -> Finding:
    """Something after a value or a header that is whole."""
    text = source.text[fault.begin:fault.end]
    if line.lstrip().startswith("["):
        return of_behind_header(place, line, text)
    single = re.fullmatch(r"\s*([\w-]+)\s*=\s*'(.*)'\s*", line)
    if single and text[:1].isalpha():
        plain = single[2].replace("\\'", "'").strip("'")
        return Finding("the text ends at the second single quote, and goes on behind it", place,
                       f"write `{single[1]} = \"{plain}\"`, between double quotes")
    twice = re.fullmatch(r"\s*([\w-]+)\s*=\s*\"\"([^\"]+)\"\"\s*", line)
    if twice:
        return Finding("quotes stand twice: the text ends at the second one", place,
                       f"write `{twice[1]} = \"{twice[2]}\"`")
    several = re.fullmatch(r"[,;]\s*[A-Za-z_]+\s*=.*", text)
    if several or re.match(r"[A-Za-z_]+\s*=", text):
        return Finding("two keys stand in one line", place, "write each in a line of its own")
    if re.fullmatch(r"[,;]\s*", text):
        return Finding(f"a line ends without `{text[0]}`", place, f"write `{line.strip().rstrip(',; ')}`")
    if REMARK.match(text) and text[0] not in "\"'":
        return of_remark(place, text)
    if text.startswith("\r"):
        return Finding("a CR that isn't followed by LF ends no line", place, "`tr '\\r' '\\n'` writes line ends anew")
    return Finding(f"nothing stands after a value, and here {quoted(text)} does", place,
                   "leave it out; a quote within a text is written `\\\"`")


def of_behind_header(place: Place, line: str, text: str) -> Finding:
    """Something behind the line that begins a network."""
    if re.match(r"[A-Za-z_]+\s*=", text):
        return Finding("a key stands behind a header, which has a line of its own", place,
                       f"write `{text}` in the next line")
    words = remark_of(text).strip(",;: []")
    return Finding(f"{quoted(text)} stands behind a header, which has a line of its own", place, "write `[[network]]`" +
                   (f", and a remark as `# {words}`" if words and "network" not in words else ""))


def of_key_twice(place: Place, line: str, fault: NoToml, source: Source) -> Finding:
    """A key that stands in its table already."""
    table_begin = source.text.rfind("\n[", 0, fault.begin) + 1
    earlier = re.compile(rf"^\s*{re.escape(fault.key)}\s*[.=]", re.MULTILINE).search(source.text, table_begin)
    line_text = ""
    if earlier and earlier.start() < fault.begin:
        hidden = header_in_remark(source, source.text.count("\n", 0, earlier.end()) + 1, place.line)
        if hidden:
            return of_header(hidden)
        number = source.text.count("\n", 0, earlier.end()) + source.first
        line_text = f"; the first is in line {number}"
    rest = re.split(r"^\s*\[", source.text[fault.begin:], maxsplit=1, flags=re.MULTILINE)[0]
    before = source.text[max(table_begin, 0):fault.begin]
    keys = [re.findall(r"^\s*([\w-]+)\s*=", part, re.MULTILINE) for part in (before, rest)]
    listed = {key for key in keys[1] if key in NETWORK_KEYS and key in keys[0]}
    if fault.key in NETWORK_KEYS and len(listed) >= LEAST_KEYS:
        return Finding(f"the keys of a second network begin here, and its line `[[network]]` is missing: `{fault.key}` "
                       f"stands a second time{line_text}", place, "write `[[network]]` in a line before this one")
    lacks = [key for key in NETWORK_KEYS if key not in keys[0] + keys[1]]
    if fault.key in NETWORK_KEYS and len(lacks) == 1 and source.text.startswith("[[network", table_begin):
        return Finding(f"the key `{fault.key}` stands here a second time{line_text}; `{lacks[0]}` is missing, and may "
                       "be meant", place, f"write `{lacks[0]} = {SAMPLES[lacks[0]]}`, or leave one out")
    return Finding(f"the key `{fault.key}` stands here a second time{line_text}", place,
                   "leave one out; the keys of another network stand below a `[[network]]` of its own")


def of_table_twice(place: Place, line: str, fault: NoToml, source: Source) -> Finding:
    """A table that is there already."""
    value = re.compile(rf"^[ \t]*{re.escape(fault.key)}\s*=.*", re.MULTILINE).search(source.text)
    if value and value.start() < fault.begin:
        number = source.text.count("\n", 0, value.start()) + 1
        return Finding(f"`{fault.key}` has a value here, so it can't be an array of tables in line "
                       f"{place.line + source.first - 1}; in OpenWrt that key names the interface of a wire",
                       source.place(number, 1, len(value[0])), "leave that line out: the wire is named by `--wire` of "
                       f"{called.fellow('live')}")
    earlier = re.compile(rf"^[ \t]*\[{{1,2}}\s*{re.escape(fault.key)}\s*\]", re.MULTILINE).search(source.text)
    line_text = ""
    if earlier and earlier.start() < fault.begin:
        line_text = f", in line {source.text.count(chr(10), 0, earlier.end()) + source.first}"
    return Finding(f"`{fault.key}` is there already{line_text}", place, "write `[[network]]` for each network")


def of_library(source: Source) -> list[Finding]:
    """A header that makes one table of the networks; else what Python's own reader says of the text."""
    large = HUGE.search(source.text)
    if large:
        return [Finding(f"no number of TOML is so large as {quoted(large[1])}", source.at(*large.span(1)))]
    header = NETWORK_OF_NAME.search(source.text)
    if header:
        return [Finding(f"`{header[1]}` makes one table of `network`, and networks are an array of tables",
                        source.at(*header.span(1)), "write `[[network]]`: a network has its name as `ssid`")]
    try:
        tomllib.loads(source.text.removeprefix("\ufeff"))
    except tomllib.TOMLDecodeError as fault:
        match = re.search(r"(.*) \(at line (\d+), column (\d+)\)", str(fault))
        if match:
            return [Finding(match[1], source.place(int(match[2]), int(match[3])))]
    except RecursionError:
        pass
    return []
