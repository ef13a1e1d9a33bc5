"""Lines that belong to no configuration and no trace, and how they came there: marks of git, zeros, pages of HTML, what
the program answers, and words that stand for octets."""
import html
import quopri
import re
import unicodedata
from collections.abc import Callable, Iterable
from functools import lru_cache

import called
from explaining.likeness import MOST_LIKE, likeness
from explaining.other_programs import of_listing
from explaining.source import Finding, Source, in_full, quoted
from frames import BROADCAST

MERGE_MARK = re.compile(r"(?:<{7}|>{7}|\|{7})(?: .*)?|={7}")
PATCH_HEAD = re.compile(r"diff --git |index [0-9a-f]{7,}\.\.|(?:---|\+\+\+) [\w/.]|@@ -\d")
PATCHED = re.compile(r"[+-]\s*[\w\[\"#]")
# A command of a shell: a path, or one of those that people use to show and edit texts.
COMMANDS = r"(?:(?:\.{0,2}|~|[\w.-]+)/[\w./-]+|cat|cd|ls|vi|vim|nano|less|head|tail|grep|sed|apctl|sudo|echo|make)"
HOST = r"(?:[\w.-]+@[\w.-]+:?\S*)?"
PROMPT = re.compile(rf"{HOST}\$ +[a-z./~][\w./-]*(?: .*)?|{HOST}% +{COMMANDS}(?: .*)?|[\w.-]+@[\w.-]+:[~/]\S*# .*")
FENCE = re.compile(r"\s*(?:`{3}|~{3}).*")
# Rows of a hex dump, of which the first one stands behind a word of a trace.
FIRST_ROW = re.compile(r"([AW](?: +[0-9A-Fa-f:]{17})?) +(0{3,8}):? +((?:[0-9A-Fa-f]{2} *)+)")
NEXT_ROW = re.compile(r" *([0-9A-Fa-f]{3,8}):? +((?:[0-9A-Fa-f]{2} *)+)")
LEAST_ROWS = 2
LEAST_PATCHED, MOST_AROUND = 2, 8
TAG = re.compile(r"</?(?:br|p|pre|code|span|div|td|tr|th|table|b|i|u|tt|li|ul|ol|a|em|strong|html|body|font|kbd|samp)"
                 r"(?: [^<>]*)?/?>", re.I)
# A line by which a piece of code of a page is one of the program's texts.
OWN_LINE = re.compile(r"\[\[network\]\]|(?:version|channel) *= *\d|[AW] +[0-9A-Fa-f]{2}|T$")
PAGER = re.compile(r"\(END\)|~|--More--(?:\(\d+%\))?|:|lines \d+-\d+(?:/\d+)?(?: \(END\))?")
COLOURS = re.compile("\x1b\\[[0-9;]*[A-Za-z]")
HERE_DOCUMENT = re.compile(r"(?:sudo +)?(?:cat|tee|apctl|build/apctl)\b.*<<-? *[\"']?\w+[\"']?.*|EOF|EOT|HERE")
ENTITY = re.compile(r"&(?:quot|amp|lt|gt|apos|nbsp|#\d+);")
ANSWER = re.compile(r"ok \d+|(?:air|wire) [0-9a-f]{2}(?::[0-9a-f]{2}){5} [0-9a-f]*|fault \S+ line \d+.*")
# What stands for octets: a variable of a shell, a place of a template, a word in capitals as pages have it, or crosses.
UNFILLED = re.compile(r"\$\{?\w+\}?|\{\{?.*\}?\}|<[\w .:-]+>|%\w+%|@\w+@|(?=.*[G-HJ-NP-Z])[A-Z][A-Z0-9_]{2,}|"
                      r"[xX*?_:.-]*[xX*?]{2}[xX*?_:.-]*")


def foreign(source: Source, number: int) -> Finding | None:
    """What a line is, where it belongs to no text of the program."""
    line = source.line(number)
    whole = source.place(number, 1, len(line.rstrip()) or 1)
    if MERGE_MARK.fullmatch(line.rstrip("\r")):
        return Finding("a mark of a merge conflict of git: two versions of the text stand here", whole,
                       "keep one of them, and take the marks `<<<<<<<`, `=======` and `>>>>>>>` out")
    if "\0" in line:
        return zeros(source, number)
    control = next((letter for letter in line.rstrip("\r")
                    if unicodedata.category(letter) == "Cc" and letter not in "\t\r"), None)
    if control:
        return of_control(source, number, line, control)
    if HERE_DOCUMENT.fullmatch(line.strip()):
        return around(source, number, "this is a line of a shell around a text (a here-document), copied along with "
                      "it", lambda other: bool(HERE_DOCUMENT.fullmatch(other.strip())))
    mail = of_mail(source, number)
    if mail:
        return mail
    if PATCH_HEAD.match(line) and (line[:3] != "---" or re.search(r"^(?:\+\+\+ |@@ )", source.text, re.M)):
        return Finding("this is a line of a patch (diff), which git or diff writes", whole,
                       "`patch` applies one to the text that it is of")
    if PATCHED.match(line) and is_patch(source):
        return Finding("a mark of a patch (diff) stands before this line", source.place(number, 1),
                       "`patch` applies one; else take the lines with `-` out, and each `+`")
    shown = of_listing_marks(source, number)
    if shown:
        return shown
    if FENCE.fullmatch(line):
        return around(source, number, "this marks a piece of code in Markdown, and belongs to no configuration and no "
                      "trace", lambda other: bool(FENCE.fullmatch(other)))
    if PROMPT.fullmatch(line.rstrip()) and not line.startswith("#"):
        return around(source, number, "this is a command of a shell with its prompt, copied along with the text",
                      lambda other: bool(PROMPT.fullmatch(other.rstrip())) and not other.startswith("#"))
    return None


@lru_cache(maxsize=4)
def is_ended_by_dollars(source: Source) -> bool:
    """Whether each line of a text ends with `$`, and there are several."""
    lines = [line.rstrip() for line in source.lines if line.strip()]
    return len(lines) > 1 and all(line.endswith("$") for line in lines)


@lru_cache(maxsize=4)
def fences_in(source: Source) -> list[int]:
    """The numbers of the lines that mark a piece of code in Markdown."""
    return [number for number, line in enumerate(source.lines, 1) if FENCE.fullmatch(line)]


def of_listing_marks(source: Source, number: int) -> Finding | None:
    """A mark that a command, a pager or an editor shows and that belongs to no text; or a line of a page in Markdown
    around the piece of code that is meant."""
    line = source.line(number).rstrip()
    whole = source.place(number, 1, len(line) or 1)
    if line.endswith("$") and is_ended_by_dollars(source):
        return Finding("`$` stands at the end of each line, as `cat -A` shows it", source.place(number, len(line)),
                       "`sed 's/\\$$//'` takes it off")
    if PAGER.fullmatch(line):
        return around(source, number, f"{quoted(line)} is a mark of a pager or an editor, as `less` and vi show it, "
                      "and belongs to no text", lambda other: bool(PAGER.fullmatch(other.rstrip())))
    fences = fences_in(source)
    if len(fences) > 1 and line and not FENCE.fullmatch(line) and not fences[0] < number < fences[-1]:
        first, last = next(((first, last) for first, last in zip(fences[::2], fences[1::2])
                            if any(map(OWN_LINE.match, source.lines[first:last]))), (fences[0], fences[1]))
        return Finding("this is a page in Markdown, and a part of it alone may be meant, between two marks of code",
                       whole, f"give what stands between the lines {source.first + first - 1} and "
                       f"{source.first + last - 1} alone")
    return None


def around(source: Source, number: int, said: str, is_one: Callable[[str], bool]) -> Finding:
    """A line that stands around a text, with the numbers of the others of its kind behind it."""
    others = [str(source.first + other - 1) for other, line in enumerate(source.lines, 1)
              if other > number and is_one(line)]
    more = f" and {len(others) - MOST_AROUND} more" * (len(others) > MOST_AROUND)
    also = f"; so in line{'s' * (len(others) > 1)} {', '.join(others[:MOST_AROUND])}{more}" if others else ""
    return Finding(said + also, source.place(number, 1, len(source.line(number).rstrip()) or 1),
                   "leave these lines out" if others else "leave the line out")


def of_control(source: Source, number: int, line: str, letter: str) -> Finding:
    """A character that isn't seen, as the colours of a terminal have it, or an end of a page or of a file."""
    place = source.place(number, line.index(letter) + 1)
    if COLOURS.search(line):
        return Finding("the colours of a terminal (ESC) stand in this line", place,
                       f"write {in_full(COLOURS.sub('', line))}, in all lines: `sed "
                       f"'s/\\x1b\\[[0-9;]*[mK]//g'`; `--color=never` leaves them out")
    name = {"\x1a": " (Ctrl-Z, the end of a file in DOS)", "\f": " (form feed, the end of a page)",
            "\v": " (vertical tab)", "\b": " (backspace)"}.get(letter, "")
    return Finding(f"a control character, {ord(letter):02x}{name}, stands here, which isn't "
                   f"seen", place, "leave it out")


def is_patch(source: Source) -> bool:
    """Whether a text has lines that a patch takes out, or is of a patch's lines alone; a list has `- ` before each."""
    lines = [line for line in source.lines if line.strip()]
    marked = [line for line in lines if line[0] in "+-"]
    if all(line.startswith("- ") for line in marked) and not any(line.startswith("@@") for line in lines):
        return False
    return any(re.match(r"-\s*[\w\[\"]", line) for line in lines) or \
        len(marked) >= LEAST_PATCHED and all(line[0] in "+- @\\" for line in lines)


def zeros(source: Source, number: int) -> Finding:
    """Octets 0 in a text."""
    line = source.line(number)
    at = line.index("\0")
    count = source.text.count("\0")
    is_end = not source.text[source.text.index("\0"):].strip("\0\r\n")
    text = f"{count} octet{'s' * (count > 1)} 0 (NUL) stand{'s' * (count == 1)} " + \
        ("at the end: the text wasn't written to its end" if is_end else "in this text")
    return Finding(text, source.place(number, at + 1, len(line) - at), "`tr -d '\\000'` takes them out")


def entity(text: str) -> str | None:
    """A text whose signs are written as in the source of a page, with those signs; None where it has none."""
    return html.unescape(text) if ENTITY.search(text) else None


def copied_from_page(source: Source, number: int, line: str) -> Finding | None:
    """A line with the signs of a page's source in it."""
    plain = TAG.sub("", html.unescape(line)).replace("\u00a0", " ")
    if not ENTITY.search(line) and not TAG.search(line) or plain == line:
        return None
    sign = ENTITY.search(line) or TAG.search(line)
    return Finding("this line was copied out of the source of a page (HTML)",
                   source.place(number, 1, len(line)).part(sign[0] if sign else ""),
                   f"write {in_full(plain.strip())}")


def of_mail(source: Source, number: int) -> Finding | None:
    """A line as the source of a mail has it (quoted-printable), with `=3D` for `=`, or with `=` where it breaks."""
    line = source.line(number).rstrip("\r")
    is_broken = line.endswith("=") and ("=3D" in source.text or re.match(r"[AW] +[0-9A-Fa-f]", line))
    sign = re.search("=3D|=20$", line) or (re.search("=$", line) if is_broken else None)
    if sign is None:
        return None
    plain = quopri.decodestring(line.removesuffix("=").encode()).decode("utf-8", "replace")
    plain += source.line(number + 1).strip() if is_broken else ""
    return Finding("this is the source of a mail (quoted-printable), which has `=3D` for `=` and breaks lines by `=`",
                   source.place(number, sign.start() + 1, len(sign[0])),
                   f"write {in_full(plain.strip())}")


def foreign_to_trace(source: Source, number: int, bssids: Iterable[str] = ()) -> Finding | None:
    """What a line is that was meant for a trace, and is written as another program writes frames."""
    line = source.line(number).rstrip()
    whole = source.place(number, 1, len(line) or 1)
    if ANSWER.fullmatch(line):
        return Finding("this is an answer of `live`, and a trace has the lines that it was given", whole,
                       "what a network sends it doesn't hear: leave the lines `ok`, `air`, `wire` and `fault` out")
    return of_listing(source, number) or continued(source, number, bssids)


def continued(source: Source, number: int, bssids: Iterable[str] = ()) -> Finding | None:
    """Digits without a word, behind a frame or behind its word: they go on it, where they are no frame themselves."""
    line, before = source.line(number).rstrip(), source.line(number - 1).rstrip()
    digits = line.replace(" ", "")
    if not re.fullmatch(r" *[0-9A-Fa-f]{2}[0-9A-Fa-f ]*", line) or not re.match(r"[AW](?: +[0-9A-Fa-f:]|$)", before):
        return None
    addresses = {bytes.fromhex(bssid.replace(":", "")) for bssid in bssids} | {BROADCAST}
    if len(digits) % 2 and digits[0] in "aA" and likeness(bytes.fromhex(digits[1:]), addresses):
        return None
    if len(digits) % 2 == 0 and likeness(bytes.fromhex(digits), addresses) == MOST_LIKE:
        return Finding("a line begins with its word, which is missing here",
                       source.place(number, 1, len(line)).part(line.split()[0]),
                       f"write {in_full('A ' + line.strip())}")
    dumped = of_places(source, number)
    if dumped:
        return dumped
    rows = [line.strip()]
    while re.fullmatch(r" *[0-9A-Fa-f]{2}[0-9A-Fa-f ]*", following := source.line(number + len(rows)).rstrip()):
        rows.append(following.strip())
    lines = f", for the lines {source.first + number - 2} to {source.first + number + len(rows) - 2}"
    return Finding("a line begins with its word, and these digits may go on the frame of the line before: a frame is "
                   "one line", source.place(number, 1, len(line)),
                   f"write {in_full(' '.join([before, *rows]))}{lines}"
                   if len(rows) > 1 or before in "AW" else
                   f"write them behind that line, or {quoted('A ' + line.strip())} where they are a frame")


def of_places(source: Source, number: int) -> Finding | None:
    """Rows of a hex dump of which the first one stands behind a word: each begins with the place of its first octet."""
    before = FIRST_ROW.fullmatch(source.line(number - 1).rstrip())
    rows, count = [before[3]] if before else [], 0
    while before and (row := NEXT_ROW.fullmatch(source.line(number + len(rows) - 1).rstrip())):
        count += len(rows[-1].replace(" ", "")) // 2
        if int(row[1], 16) != count:
            break
        rows.append(row[2])
    if before is None or len(rows) < LEAST_ROWS:
        return None
    digits = "".join(rows).replace(" ", "")
    return Finding(f"`{before[2]}` of the line before, and what stands before the digits here, are places of a hex "
                   "dump, and a frame is one line without them",
                   source.place(number, 1, len(source.line(number).rstrip())),
                   f"write {in_full(f'{before[1]} {digits}')} for the lines {source.first + number - 2} to "
                   f"{source.first + number + len(rows) - 3}")


def unfilled(source: Source, number: int, line: str, at: int, advice: str | None = None) -> Finding | None:
    """A word that stands for what a person has to write there, as pages and scripts have them."""
    begin, end = line.rfind(" ", 0, at) + 1, line.find(" ", at)
    word = line[begin:end if end >= 0 else len(line)]
    if not UNFILLED.fullmatch(word):
        return None
    return Finding(f"{quoted(word)} stands for octets or an address that nothing has put here",
                   source.place(number, begin + 1, len(word)),
                   advice or f"{called.document('FIRST_TRACE.md')} has lines to copy")
