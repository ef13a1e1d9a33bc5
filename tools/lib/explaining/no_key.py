"""Lines of a configuration that don't begin with a key and `=`: what a person meant each for."""
import re

from explaining.keys import LISTED, OTHER_NAMES, SAMPLES, called_elsewhere, meant
from explaining.rates_meant import rates_fault
from explaining.source import Finding, Place, Source, plain_letter, plain_text, quoted
from explaining.toml_scan import NoToml

REMARK = re.compile(r"\s*(?:;|//|--|/\*|!|%|[Rr][Ee][Mm]\b|<!--|\{#|\\ |\* |[\"'] ?(?=[^\"'=]*$))")
REMARK_MARKS = re.compile(r"(?:;|//|--|/\*|!|%|[Rr][Ee][Mm]\b|<!--|\{#|\\|\*|[\"'])+[-!%;/* ]*")
REMARK_END = re.compile(r"\s*(?:\*/|-->|#\}|[\"'])\s*$")
WORD = re.compile(r"[A-Za-z_][A-Za-z0-9_-]*")
OPTION = re.compile(r"--?([a-z][\w-]*)(?:\s*=\s*|\s+)(.+)")
FOR_YAML = "write `channel = 6`, a line for each key, and a line `[[network]]` before the keys of each network"
JSON_LINE = re.compile(r"[\"']([\w-]+)[\"']\s*:\s*(.*?)\s*,?$")
OPENWRT = re.compile(r"(?:option|list)\s+[\w-]+\s+[^=\s][^=]*|config\s+[\w-]+(?:\s+'[^']*')?")
INCLUDE = re.compile(r"[!@]?(?:include|import|source|require|load|extends?)\b(?!\s*=)", re.I)
SIGNS = re.compile(r"\s*(?:[:+?|.]=|=>|->|==|<-|[:,;|]|\u2192|\u21d2|\uff1d|\uff1a)\s*")
TYPES = r"(?:int|integer|str|string|bool|boolean|float|number|text|u?int(?:8|16|32|64)(?:_t)?|u(?:8|16|32))"
WORD_BEFORE_KEY = re.compile(r"(export|set|let|var|local|const|uci "
                             rf"set|setenv|declare|option|list|static|final|auto|char|def|my|{TYPES})\s+"
                             r"([\w-]+)(?:\s*=\s*|\s+)(.+)")
TYPED = re.compile(rf"\s*(:?\s*{TYPES})\s*=\s*", re.I)
# What stands before each line of a listing, and before each line of a letter that is quoted.
BEFORE_LINE = re.compile(r"\s*((?=[\w/.-]*[A-Za-z])[\w/.-]++:(?:\d+:)?(?=[\w\[\"'#])|"
                         r"\d+ *[:.)|]?|[|>*\u2022\u00b7\u25cf]+|-(?= ))\s*(?=[\w\"'\[#])")
ENTRY = re.compile(r"[\"']?([A-Za-z][\w-]*)[\"']?\s*[=:]|\[\[? *(\w+)")
HEADERS = re.compile(r"\W*(\w+)\W*(?:[\"']?[\w .-]*[\"']?)\W*")


def of_key(place: Place, line: str, fault: NoToml, source: Source) -> Finding:
    """A line that doesn't begin with a key and `=`."""
    text = line.strip()
    parts = (of_number_before, of_include, of_remark, of_other_language, of_header, of_place, of_sign, of_bare_key,
             of_letters)
    found = next((finding for part in parts if (finding := part(source, place, text))), None)
    return found or of_words(source, place, text)


def of_number_before(source: Source, place: Place, text: str) -> Finding | None:
    """A number or a mark before a line, as listings and quoted letters have it."""
    line = source.line(place.line)
    found = BEFORE_LINE.match(line)
    entry = ENTRY.match(line, found.end()) if found else None
    if not found or not entry or not is_known(entry[1] or entry[2]):
        return None
    mark = found[1].strip()
    what = "the number of the line" if mark[0].isdigit() else "a file's name" if mark[0].isalpha() else "a mark"
    return Finding(f"{quoted(mark)} stands before this line, {what} as a listing or a quoted text has it",
                   source.place(place.line, found.start(1) + 1, len(mark)),
                   f"write `{line[found.end():].strip()}`, and take it off the other lines too")


def is_known(word: str) -> bool:
    """Whether a word is a key of a configuration, or another name of one."""
    return word.lower() in LISTED or word.lower() in OTHER_NAMES


def remark_of(text: str) -> str:
    """The words of a remark of another language."""
    return REMARK_END.sub("", REMARK_MARKS.sub("", text, count=1)).strip()


def remark_mark(text: str) -> str:
    """The mark with which a remark of another language begins."""
    found = REMARK.match(text)
    return found[0].strip() if found else ""


def of_remark(source: Source, place: Place, text: str) -> Finding | None:
    """A remark of another language."""
    if not REMARK.match(text) or text.startswith("---") and is_network(text) or text.startswith("%YAML"):
        return None
    option = OPTION.fullmatch(text)
    if option and option[1].replace("-", "_") in LISTED:
        return Finding(f"`{text[:len(text) - len(text.lstrip('-'))]}` stands before the key, as before a program's "
                       f"option", place.part(text[:len(text) - len(text.lstrip("-"))]),
                       f"write `{option[1].replace('-', '_')} = {option[2]}`")
    words = remark_of(text)
    return Finding(f"{quoted(text, 12)}: a remark begins with `#`", place.part(remark_mark(text)),
                   f"write `# {words}`" if words else "begin each line of it with `#`: none goes over several lines")


def of_include(source: Source, place: Place, text: str) -> Finding | None:
    """The name of another file that would be read here."""
    found = INCLUDE.match(text)
    return Finding("no other file is read from here: a configuration is one text", place.part(found[0]),
                   "write that file's lines in this place") if found else None


def of_other_language(source: Source, place: Place, text: str) -> Finding | None:
    """A line as JSON, Python, YAML, a shell, XML or HTML has it."""
    of_json, behind = JSON_LINE.match(text), WORD_BEFORE_KEY.match(text)
    if of_json:
        return Finding("this line is written as in JSON or Python, and TOML has a key without quotes, `=` and a value",
                       place, f"write `{of_json[1]} = {of_json[2]}`")
    if behind and is_known(behind[2]):
        key, value = called_elsewhere(behind[2], LISTED) or behind[2], behind[3].rstrip("; ")
        rates = rates_fault(value.strip("\"'")) if key == "rates" else None
        return Finding(f"`{behind[1]}` stands before the key, and a line begins with its key", place.part(behind[1]),
                       f"write `{key} = " + (f'"{rates[2]}"' if rates and rates[2] else value) + "`")
    if OPENWRT.fullmatch(text):
        return Finding(f"`{text.split()[0]}` begins a line of OpenWrt's configuration, and here a line is a key, `=` "
                       "and a value", place, "leave the line out, or write the program's own key")
    if is_yaml(source, place.line) or text.startswith("%YAML"):
        return Finding("this is YAML, and a configuration is TOML", place, FOR_YAML)
    if text.startswith("<") and not is_network(text):
        return Finding("this is XML or HTML, and a configuration is TOML", place,
                       "leave such lines out: a line is a key, `=` and a value")
    return None


def is_yaml(source: Source, number: int) -> bool:
    """Whether a line is one of YAML: `---` aside, a name and `:`, where some name and `:` stand alone before lines that
    are indented or begin with `-`, or where all lines but headings are names with `:`."""
    is_line = re.match(r"\s*(?:- +)?[\w-]+:(?: |$)", source.line(number).rstrip())
    is_nested = re.search(r"^\s*[\w-]+:[ \r]*\n(?:[ \t]+\S|- )", source.text, re.M)
    are_all = "=" not in source.text and len(re.findall(r"^[\w-]+: +\S", source.text, re.M)) > 1
    return bool(is_line and (is_nested or are_all))


def is_network(text: str) -> bool:
    """Whether a line is the word for a network between marks, perhaps with the network's name."""
    found = HEADERS.fullmatch(text)
    return bool(found and meant(found[1], ("network",)) and not re.match(r"\w+\s*=", text))


def of_header(source: Source, place: Place, text: str) -> Finding | None:
    """The beginning of a network as other languages write one."""
    return Finding(f"{quoted(text)} begins no network: a network begins with a line `[[network]]`", place,
                   "write `[[network]]`, and its keys below it") if is_network(text) else None


def of_place(source: Source, place: Place, text: str) -> Finding | None:
    """A network by its place, as programs name a part of a list."""
    found = re.match(r"network\s*\[\s*(\d*)\s*\]\s*(?:\.\s*([\w-]+)\s*=\s*(.+))?", text)
    if not found:
        return None
    below = f"`{found[2]} = {found[3]}`" if found[2] else "its keys"
    return Finding(f"`{found[0].split('=')[0].strip()}` names a network by its place, and a network begins with a line "
                   "`[[network]]`", place, f"write `[[network]]`, and below it {below}")


def of_sign(source: Source, place: Place, text: str) -> Finding | None:
    """Another sign where `=` stands, or a key of several words."""
    words = WORD.match(text)
    sign = SIGNS.match(text, words.end()) if words else None
    typed = TYPED.match(text, words.end()) if words else None
    if words and typed:
        return Finding(f"{quoted(typed[1])} stands behind the key, and a key has no type", place.part(typed[1]),
                       f"write `{words[0]} = {text[typed.end():]}`")
    if words and sign:
        value = text[sign.end():].rstrip(",").lstrip("= ")
        return Finding(f"`{sign[0].strip().rstrip('=') or '='}` stands where TOML has `=`", place.part(sign[0].strip()),
                       f"write `{words[0]} = {value or SAMPLES.get(words[0], '..')}`")
    spaced = re.fullmatch(r"([A-Za-z]+(?: [A-Za-z]+)+)\s*=\s*(.+)", text)
    key = meant(spaced[1], LISTED) if spaced else None
    return Finding(f"a blank stands in the key {quoted(spaced[1])}, and a key has none", place.part(spaced[1]),
                   f"write `{key} = {spaced[2]}`") if spaced and key else None


def of_bare_key(source: Source, place: Place, text: str) -> Finding | None:
    """A key without `=`, or without a value."""
    words = WORD.match(text)
    if not words or words[0] not in LISTED:
        return None
    rest = text[words.end():].strip()
    if not rest:
        return Finding(f"`{words[0]}` has no value", place, f"write `{words[0]} = {SAMPLES.get(words[0], '..')}`")
    braced = re.fullmatch(r"= *\{ *([^{}=]*?) *\}", rest)
    if braced:
        return Finding("braces stand around the value, and the value alone stands there", place.part(rest[1:].strip()),
                       f"write `{words[0]} = {braced[1]}`")
    return Finding(f"`=` is missing after the key `{words[0]}`", place.part(text[words.end():len(text) - len(rest)]),
                   f"write `{words[0]} = {rest}`")


def of_letters(source: Source, place: Place, text: str) -> Finding | None:
    """Characters that look like others, or stand in no key."""
    if text.startswith(("\u201c", "\u201d", "\u2018", "\u2019")):
        return Finding("a quote of print, and TOML's are `\"` and `'`", place.part(text[0]))
    key, sign, value = text.partition("=")
    odd = next((letter for letter in key if plain_letter(letter)), None)
    if odd:
        return Finding(f"{quoted(odd)} (U+{ord(odd):04X}) looks like {quoted(plain_letter(odd) or '')} and is another "
                       "character", place.part(odd), f"write `{plain_text(key)}{sign}{value}`")
    if not text.isascii() and not WORD.match(text):
        return Finding("a key has letters a to z, digits, `_` and `-`; others stand in quotes", place)
    return None


def of_words(source: Source, place: Place, text: str) -> Finding:
    """Words that are no key, and the end of a text that was cut."""
    is_last = place.line == len(source.lines)
    begun = next((key for key in LISTED if key.startswith(text.rstrip("= "))), None) if is_last else None
    if begun:
        return Finding("the text ends within this line: it wasn't written or copied to its end", place,
                       f"`{begun}` may have stood here")
    if re.fullmatch(r"\W*(?:\.{3}|\u2026)\W*", text):
        return Finding(f"{quoted(text.strip())} stands for lines that were left out, and a configuration has all of "
                       "its keys", place, "write them here")
    if re.fullmatch(r"(?:end|fi|done|esac|endif|endsection|exit|quit)[.;]?", text, re.I):
        return Finding(f"{quoted(text)} alone stands here, as other languages end a part, and a configuration ends "
                       "with its last line", place, "leave the line out")
    if re.fullmatch(r"[{}\[\](),;]+", text):
        return Finding(f"{quoted(text)} alone stands here, as JSON and other languages close what they opened", place,
                       "leave the line out")
    if re.fullmatch(r"[\w'\",.;:()-]+(?: +[\w'\",.;:()-]+)+", text) and "=" not in text:
        return Finding("words alone stand here, and a line is a key, `=` and a value", place,
                       f"where they are a remark write `# {text}`")
    return Finding("a line is a key, `=` and a value, or a table's header", place, "a remark begins with `#`")
