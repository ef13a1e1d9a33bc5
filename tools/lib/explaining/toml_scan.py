"""Where the keys and values of a TOML text stand, and the first place that is no TOML.

Python's `tomllib` reads values and says nothing of places; this finds the extents of keys, values and table headers
(TOML 1.1), and leaves what a string or a number is worth to `tomllib`.
"""
import re
import tomllib
from collections.abc import Iterator
from dataclasses import dataclass, field

BARE_KEY = re.compile(r"[A-Za-z0-9_-]+")
BLANK = " \t"
DECIMAL, DIGITS = r"[+-]?(?:0|[1-9](?:_?[0-9])*)", r"[0-9](?:_?[0-9])*"
INTEGER = re.compile(DECIMAL + r"|0x[0-9A-Fa-f](?:_?[0-9A-Fa-f])*|0o[0-7](?:_?[0-7])*|0b[01](?:_?[01])*")
FLOAT = re.compile(rf"{DECIMAL}(?:\.{DIGITS})?(?:[eE][+-]?{DIGITS})?|[+-]?(?:inf|nan)")
TIME = re.compile(r"\d{4}-\d{2}-\d{2}(?:[Tt ]\d{2}:\d{2}(?::\d{2}(?:\.\d+)?)?(?:[Zz]|[+-]\d{2}:\d{2})?)?"
                  r"|\d{2}:\d{2}(?::\d{2}(?:\.\d+)?)?")
ESCAPES = 'btnfre"\\'
LEAST_INTEGER, MOST_INTEGER = -2**63, 2**63 - 1
MOST_DEPTH = 80


class NoToml(Exception):
    """The first place that is no TOML: from one index up to another, what was expected there, and of which key."""

    def __init__(self, expected: str, begin: int, end: int, key: str = "") -> None:
        super().__init__(expected)
        self.expected, self.begin, self.end, self.key = expected, begin, max(end, begin + 1), key


@dataclass
class Value:
    """A value: its kind, what it is worth, from where to where, and what is in it: values of an array, entries of a
    table."""

    kind: str
    worth: object
    begin: int
    end: int
    items: list["Value"] = field(default_factory=list)
    entries: list["Entry"] = field(default_factory=list)

    @property
    def text(self) -> str | None:
        """The characters of a text; None for another kind."""
        return self.worth if self.kind == "text" and isinstance(self.worth, str) else None

    @property
    def integer(self) -> int | None:
        """The whole number that it is; None for another kind."""
        return self.worth if self.kind == "integer" and isinstance(self.worth, int) else None


@dataclass
class Entry:
    """A key with its value, in one table; a dotted key has several parts."""

    key: tuple[str, ...]
    begin: int
    end: int
    value: Value


@dataclass
class Table:
    """A table with its header: no name at the top."""

    name: tuple[str, ...]
    is_of_array: bool
    begin: int
    end: int
    entries: list[Entry] = field(default_factory=list)


def scan(text: str) -> list[Table]:
    """The tables of a text in order, the first of them the top; NoToml where it is none."""
    return Scanner(text).tables()


class Scanner:
    """Goes once through a text."""

    def __init__(self, text: str) -> None:
        self.text, self.at, self.depth = text, 0, 0
        self.found = [Table((), False, 0, 0)]
        self.headers: dict[tuple[str, ...], bool] = {}

    def tables(self) -> list[Table]:
        """All of it."""
        self.accept("\ufeff")
        while True:
            self.skip_lines()
            if self.at >= len(self.text):
                return self.found
            if self.peek() == "[":
                self.header()
            else:
                self.entry(self.found[-1].entries)
            self.end_line()

    def peek(self) -> str:
        """The next character, or nothing at the end."""
        return self.text[self.at:self.at + 1]

    def accept(self, wanted: str) -> bool:
        """Steps over these characters where they come next."""
        if wanted and self.text.startswith(wanted, self.at):
            self.at += len(wanted)
            return True
        return False

    def skip_blanks(self) -> None:
        """Steps over spaces and tabs."""
        while self.peek() and self.peek() in BLANK:
            self.at += 1

    def rest_of_line(self, begin: int | None = None) -> tuple[int, int]:
        """From here, or from a place, to the last character of the line that is no blank."""
        begin = self.at if begin is None else begin
        end = self.text.find("\n", begin)
        end = len(self.text) if end < 0 else end
        return begin, begin + len(self.text[begin:end].rstrip())

    def skip_lines(self) -> None:
        """Steps over blanks, remarks and line ends."""
        while True:
            self.skip_blanks()
            self.remark()
            if not (self.accept("\n") or self.accept("\r\n")):
                return

    def remark(self) -> None:
        """Steps over a remark, up to the line's end."""
        if self.peek() != "#":
            return
        while self.peek() not in ("", "\n") and not self.text.startswith("\r\n", self.at):
            letter = self.peek()
            if letter == "\x7f" or ord(letter) < 0x20 and letter != "\t":
                raise NoToml("no control character stands in a remark", self.at, self.at + 1)
            self.at += 1

    def end_line(self) -> None:
        """After a key with its value, or a header, nothing but a remark follows."""
        self.skip_blanks()
        self.remark()
        if self.at < len(self.text) and not (self.accept("\n") or self.accept("\r\n")):
            raise NoToml("the line's end", *self.rest_of_line())

    def header(self) -> None:
        """`[name]` or `[[name]]`."""
        begin = self.at
        is_of_array = self.text.startswith("[[", begin)
        self.at += 2 if is_of_array else 1
        name = self.key()
        if not self.accept("]]" if is_of_array else "]"):
            raise NoToml("`]]` after `[[`" if is_of_array else "`]` after `[`", *self.rest_of_line(begin))
        before = self.headers.get(name)
        is_key = any(entry.key == name for entry in self.found[0].entries)
        if is_key or before is not None and not (before and is_of_array):
            raise NoToml("a table that isn't there yet", begin, self.at, ".".join(name))
        self.headers[name] = is_of_array
        for inner in [other for other in self.headers if other[:len(name)] == name and other != name]:
            if is_of_array:
                del self.headers[inner]
        self.found.append(Table(name, is_of_array, begin, self.at))

    def key(self) -> tuple[str, ...]:
        """A key, perhaps of several parts with dots between."""
        parts = []
        while True:
            self.skip_blanks()
            parts.append(self.simple_key())
            self.skip_blanks()
            if not self.accept("."):
                return tuple(parts)

    def simple_key(self) -> str:
        """One part of a key."""
        letter = self.peek()
        if letter and letter in "\"'" and not self.text.startswith(3 * letter, self.at):
            return str(self.string().worth)
        match = BARE_KEY.match(self.text, self.at)
        if not match:
            raise NoToml("a key", *self.rest_of_line())
        self.at = match.end()
        return match[0]

    def entry(self, entries: list[Entry]) -> None:
        """A key, `=` and a value."""
        begin = self.at
        key = self.key()
        end = begin + len(self.text[begin:self.at].rstrip())
        if not self.accept("="):
            raise NoToml("`=` after a key", *self.rest_of_line(begin), ".".join(key))
        for other in entries:
            shorter = min(len(other.key), len(key))
            is_inner = len(other.key) != len(key) and (len(other.key) > len(key) or other.value.kind != "table")
            if other.key[:shorter] == key[:shorter] and (other.key == key or is_inner):
                raise NoToml("a key that isn't there yet", begin, end, ".".join(key))
        self.skip_blanks()
        entries.append(Entry(key, begin, end, self.value(".".join(key))))

    def value(self, key: str) -> Value:
        """A value of any kind."""
        letter = self.peek()
        if letter and letter in "\"'":
            return self.string()
        if letter and letter in "[{":
            self.depth += 1
            value = self.array(key) if letter == "[" else self.inline_table()
            self.depth -= 1
            return value
        return self.bare(key)

    def array(self, key: str) -> Value:
        """An array, which may stand in several lines."""
        begin = self.at
        items: list[Value] = []
        for _ in self.parts("]", "an array", key):
            items.append(self.value(key))
        return Value("array", [item.worth for item in items], begin, self.at, items)

    def inline_table(self) -> Value:
        """A table between braces, which may stand in several lines."""
        begin = self.at
        entries: list[Entry] = []
        for _ in self.parts("}", "a table", ""):
            self.entry(entries)
        return Value("table", {entry.key: entry.value.worth for entry in entries}, begin, self.at,
                     entries=entries)

    def parts(self, closing: str, whole: str, key: str) -> Iterator[None]:
        """Steps over brackets and the commas between them; whoever asks for the next part steps over that."""
        begin, is_due = self.at, True
        self.enter()
        while True:
            self.skip_lines()
            if self.accept(closing):
                return
            if self.at >= len(self.text):
                raise NoToml(f"`{closing}` at the end of {whole}", begin, begin + 1, key)
            if not is_due:
                raise NoToml(f"`,` between the parts of {whole}", *self.rest_of_line(), key)
            yield
            self.skip_lines()
            is_due = self.accept(",")

    def enter(self) -> None:
        """Steps over an opening bracket; not too deep."""
        if self.depth > MOST_DEPTH:
            raise NoToml(f"at most {MOST_DEPTH} arrays and tables in one another", self.at, self.at + 1)
        self.at += 1

    def string(self) -> Value:
        """A text between quotes of any of the four kinds."""
        begin, letter = self.at, self.peek()
        quote = 3 * letter if self.text.startswith(3 * letter, begin) else letter
        self.at += len(quote)
        while not self.text.startswith(quote, self.at):
            self.letter(begin, quote)
        self.at += len(quote)
        for _ in range(2 if len(quote) == 3 else 0):
            self.accept(letter)
        worth = worth_of_string(self.text[begin:self.at])
        if worth is None:
            raise NoToml("characters that Unicode has", begin, self.at)
        return Value("text", worth, begin, self.at)

    def letter(self, begin: int, quote: str) -> None:
        """Steps over one character of a text."""
        letter = self.peek()
        if letter == "" or letter == "\n" and len(quote) == 1:
            raise NoToml(f"a closing {quote}", *self.rest_of_line(begin))
        is_line_end = len(quote) == 3 and (letter == "\n" or self.text.startswith("\r\n", self.at))
        if letter == "\r" and len(quote) == 1 and self.text.startswith("\r\n", self.at):
            raise NoToml(f"a closing {quote}", *self.rest_of_line(begin))
        if not is_line_end and (letter == "\x7f" or ord(letter) < 0x20 and letter != "\t"):
            raise NoToml("no control character stands in a text", self.at, self.at + 1)
        if letter == "\\" and quote[0] == '"':
            self.escape(quote)
        else:
            self.at += 1

    def escape(self, quote: str) -> None:
        """Steps over `\\` and what it stands for."""
        match = re.compile(r"\\(?:x[0-9A-Fa-f]{2}|u[0-9A-Fa-f]{4}|U[0-9A-Fa-f]{8}|[" + re.escape(ESCAPES) + "])").match(
            self.text, self.at)
        if not match and len(quote) == 3:
            match = re.compile(r"\\[ \t]*\r?\n").match(self.text, self.at)
        if not match:
            raise NoToml("a character that may follow `\\`", self.at, self.at + 2)
        self.at = match.end()

    def bare(self, key: str) -> Value:
        """A number, a truth value or a time."""
        stops = "\n#" if self.depth == 0 else "\n#,]}"
        end = self.at
        while end < len(self.text) and self.text[end] not in stops:
            end += 1
        token = self.text[self.at:end].rstrip()
        begin, self.at = self.at, self.at + len(token)
        kind, worth = worth_of_bare(token)
        if kind is None:
            raise NoToml("a value", begin, max(self.at, begin + 1), key)
        return Value(kind, worth, begin, self.at)


def worth_of_bare(token: str) -> tuple[str | None, object]:
    """The kind and the worth of a value without quotes and brackets; no kind where it is none."""
    if token in ("true", "false"):
        return "truth", token == "true"
    if INTEGER.fullmatch(token):
        worth = int(token.replace("_", ""), 0 if token[1:2].isalpha() else 10)
        return ("integer", worth) if LEAST_INTEGER <= worth <= MOST_INTEGER else (None, None)
    if FLOAT.fullmatch(token):
        return "number", float(token.replace("_", ""))
    if TIME.fullmatch(token):
        return "time", token
    return None, None


def worth_of_string(token: str) -> str | None:
    """The characters of a text with its quotes; None where an escape stands for none."""
    if token.startswith('"'):
        token = re.sub(r"\\(?:x([0-9A-Fa-f]{2})|(e)|(.))",
                       lambda match: f"\\u00{match[1]}" if match[1] else "\\u001b" if match[2] else match[0], token,
                       flags=re.DOTALL)
    try:
        return tomllib.loads(f"value = {token}\n")["value"]
    except tomllib.TOMLDecodeError:
        return None
