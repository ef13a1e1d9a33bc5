"""A text that was given to the program, places in it, and what is said of a place, as a compiler says it."""
import unicodedata
from dataclasses import dataclass

MOST_SHOWN, MOST_WRITTEN = 96, 1024
BEFORE_MARK = 40
TAB_SHOWN, BLANK_SHOWN, CONTROL_SHOWN = "\u21e5", "\u237d", 0x2400
MARK = "\ufeff"
# Letters of Cyrillic and Greek that look like letters of ASCII.
LOOK_ALIKES = dict(zip("\u0410\u0412\u0415\u041a\u041c\u041d\u041e\u0420\u0421\u0422\u0425\u0430\u0441\u0435\u043e\u0440\u0445\u0443\u0456"
                       "\u0391\u0392\u0395\u0397\u0399\u039a\u039c\u039d\u039f\u03a1\u03a4\u03a7\u03bf",
                       "ABEKMHOPCTXaceopxyiABEHIKMNOPTXo"))
LINE_ENDS = ("Zl", "Zp")  # the line and paragraph separators of Unicode
# Letters and marks of Unicode that take no ink: fillers, the blank of Braille, and what chooses another letter's form.
UNSEEN = frozenset("\u034f\u115f\u1160\u2800\u3164\uffa0" + "".join(map(chr, range(0xfe00, 0xfe10))))
DASHES = "\u2010\u2011\u2012\u2013\u2014\u2015\u2212"


class Source:
    """A text with its file's name; `lines` begin with 1, and `first` is the number that the first of them has there."""

    def __init__(self, name: str, octets: bytes, first: int = 1) -> None:
        self.name, self.octets, self.first = name, octets, first
        self.text = octets.decode("utf-8", "replace")
        self.lines = self.text.split("\n")

    def line(self, number: int) -> str:
        """A line of this text, counted from 1, without its end; nothing where there is none."""
        return self.lines[number - 1] if 1 <= number <= len(self.lines) else ""

    def place(self, line: int, column: int = 1, length: int = 1) -> "Place":
        """A place by its line in this text and its column, both from 1."""
        return Place(self, line, column, max(1, length))

    def at(self, begin: int, end: int) -> "Place":
        """A place by the indexes of its first character and of the one after its last, within one line."""
        line = self.text.count("\n", 0, begin) + 1
        line_begin = self.text.rfind("\n", 0, begin) + 1
        line_end = self.text.find("\n", begin)
        end = min(end, len(self.text) if line_end < 0 else line_end)
        return self.place(line, begin - line_begin + 1, end - begin)


@dataclass(frozen=True)
class Place:
    """Some characters of one line."""

    source: Source
    line: int
    column: int
    length: int

    def name(self) -> str:
        """File, line and column, as editors read them."""
        return f"{self.source.name}:{self.source.first + self.line - 1}:{self.column}"

    def part(self, characters: str) -> "Place":
        """These characters where they first stand within this place; all of it where they don't."""
        begin = self.column - 1
        at = self.source.line(self.line).find(characters, begin, begin + self.length)
        return self.source.place(self.line, at + 1, len(characters)) if characters and at >= 0 else self

    def shown(self) -> list[str]:
        """The line with its number, and a line with a mark under the place."""
        text = self.source.line(self.line)
        begin = 0
        if len(text) > MOST_SHOWN:
            begin = max(0, min(self.column - 1 - BEFORE_MARK, len(text) - MOST_SHOWN))
        text = "".join(map(visible, text[begin:begin + MOST_SHOWN]))
        more = "\u2026" if begin else ""
        number = f"{self.source.first + self.line - 1:>5} | "
        length = max(1, min(self.length, MOST_SHOWN - (self.column - 1 - begin)))
        return [f"{number}{more}{text}".rstrip(),
                " " * (len(number) - 2) + "| " + " " * (len(more) + self.column - 1 - begin) + "^" * length]


def visible(letter: str) -> str:
    """A character as one that can be seen and takes one column."""
    if letter == "\t":
        return TAB_SHOWN
    if ord(letter) < 0x20:
        return chr(CONTROL_SHOWN + ord(letter))
    if is_odd_blank(letter) and letter != MARK and unicodedata.category(letter) == "Zs":
        return BLANK_SHOWN
    return "\ufffd" if unicodedata.category(letter)[0] == "C" or letter in UNSEEN else letter


def is_odd_blank(letter: str) -> bool:
    """Whether a character looks like a space or like nothing, and is no space of ASCII."""
    return not letter.isascii() and (unicodedata.category(letter) in ("Zs", "Cf", *LINE_ENDS) or letter in UNSEEN)


def odd_blank(source: Source, line: int, begin: int = 0, end: int | None = None) -> "Finding | None":
    """The first character of a line, or of a part of it, that looks like a space or like nothing and is neither."""
    text = source.line(line)
    for at, letter in enumerate(text[begin:end], begin):
        if is_odd_blank(letter) and not (letter == MARK and line == 1 and at == 0):
            name = unicodedata.name(letter, "a character that isn't seen").lower()
            is_seen = unicodedata.category(letter) == "Zs"
            ends_line = unicodedata.category(letter) in LINE_ENDS
            also = text.count(letter) - 1
            more = f"; so in {also} more place{'s' * (also > 1)} of this line" if also else ""
            return Finding(f"a{'n' * (name[0] in 'aeiou')} {name} (U+{ord(letter):04X}) stands here" +
                           (", which looks like a space and is none" if is_seen else ", which isn't seen") + more,
                           source.place(line, at + 1), "write a space" if is_seen else
                           "a line ends with LF: write that there" if ends_line else "leave it out")
    return None


def plain_letter(letter: str) -> str | None:
    """The letter, digit or sign of ASCII that another character stands for, as a full-width digit does; None where it
    stands for none."""
    if letter in DASHES:
        return "-"
    if letter in LOOK_ALIKES:
        return LOOK_ALIKES[letter]
    if letter.isascii() or unicodedata.category(letter) == "No":
        return None
    plain = unicodedata.normalize("NFKC", letter)
    digit = unicodedata.decimal(letter, None)
    return plain if len(plain) == 1 and plain.isascii() else None if digit is None else str(digit)


def plain_text(text: str) -> str:
    """A text with each character of ASCII in the place of one that stands for it."""
    return "".join(plain_letter(letter) or letter for letter in text)


def quoted(text: str, most: int = 40) -> str:
    """Some words of a text, each character visible, cut where they are long."""
    shown = "".join(map(visible, text[:most]))
    return f"`{shown}\u2026`" if len(text) > most else f"`{shown}`"


def in_full(text: str) -> str:
    """A line that a person is to write, cut only where it is too long to be copied from a terminal."""
    return quoted(text, MOST_WRITTEN)


@dataclass(frozen=True)
class Finding:
    """One reason: what it is, where, and what to write or do instead."""

    text: str
    place: Place | None = None
    advice: str | None = None

    def shown(self) -> list[str]:
        """The lines that a person reads."""
        lines = [f"{self.place.name()}: {self.text}", *self.place.shown()] if self.place else [self.text]
        return lines + [f"  {self.advice}"] * (self.advice is not None)


def in_order(findings: list[Finding], config: Source) -> list[Finding]:
    """What is said of the configuration, then of the traces' lines one after the other, then of no line."""
    def key(finding: Finding) -> tuple[int, int]:
        place = finding.place
        return (2, 0) if place is None else (int(place.source is not config), place.line)
    return sorted(findings, key=key)
