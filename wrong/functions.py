"""The functions whose bodies, claims or proofs the edits of a wrong body turn. A function is named by its home: its
module or its type, and its name."""
import enum
import os
import re

from bodies import ROOT, read

# Where a function begins.
FUNCTION = re.compile(r"(\s*)(?:pub(?:\([^)]*\))? )?(?:const )?(?:extern \"C\" )?fn (\w+)")
CLAUSE = re.compile(r"\s*(?:requires|ensures|ghost)\b")
# What a method belongs to: a type, and a trait where it is one of the trait's.
OWNER = re.compile(
    r"impl(?:<(?P<parameters>.*?)>)? (?:(?:\w+::)*(?P<trait>\w+)(?:<(?P<given>.*)>)? for )?(?:\w+::)*(?P<type>\w+)"
)
# The files of a function's proof.
PROOFS = ("Answers.antt", "Invariants.antt", "Proof.antt")


class Part(enum.Enum):
    """What of a function a line stands in: its body or its proof, what it claims (its `ensures`), or anything else."""
    BODY = enum.auto()
    CLAIM = enum.auto()
    OTHER = enum.auto()


def without_brackets(words):
    """A list of types or of parameters, each without what stands in brackets behind it."""
    while (shorter := re.sub(r"<[^<>]*>", "", words)) != words:
        words = shorter
    return [word.strip() for word in words.split(",") if word.strip()]


def owner_at(lines, number):
    """What a method in a line belongs to, as the folder of its proofs is named: its type, and its trait where it has
    one, with the types that the trait is given but for the parameters."""
    found = next(filter(None, map(OWNER.match, lines[number::-1])), None)
    if not found:
        return ""
    parameters = {it.partition(":")[0] for it in without_brackets(found["parameters"] or "")}
    given = [it for it in without_brackets(found["given"] or "") if it not in parameters and not it.startswith("'")]
    names = ["Unit" if it == "()" else it.rpartition("::")[2] for it in given]
    return "".join([found["type"], found["trait"] or "", *names])


def part_of(lines, first, begin, end, number):
    """What of a function a line stands in, where the function and its body begin and end in these lines."""
    if begin < number < end:
        return Part.BODY
    clause = next((line for line in lines[number:first:-1] if CLAUSE.match(line)), "")
    return Part.CLAIM if number < begin and clause.lstrip().startswith("ensures") else Part.OTHER


def function_at(path, lines, number):
    """The function of a source file that a line stands in, by its home, and what of it that is. Its attributes and
    comments above it belong to it."""
    while number + 1 < len(lines) and lines[number].lstrip().startswith(("#[", "//")):
        number += 1
    for first in range(number, -1, -1):
        head = FUNCTION.match(lines[first])
        if head:
            rest = range(first, len(lines))
            opened = (it for it in rest if lines[it].endswith(("{", "{}")) and not CLAUSE.match(lines[it]))
            begin, closing = next(opened, first), (head[1] + "}", head[1] + "{}")
            end = next((it for it in rest if it >= begin and lines[it].startswith(closing)), begin)
            module = path.removeprefix("src/").removesuffix(".rt").removesuffix("/mod")
            above = owner_at(lines, first) if head[1] else module
            part = part_of(lines, first, begin, end, number)
            return (f"{above}/{head[2]}", part) if number <= end else (None, Part.OTHER)
    return None, Part.OTHER


def home_of(folder):
    """The home of the function that a folder of proofs is of. A method's is its type and its name, whichever file of
    the type's module has its body; another function's is its module and its name. The name of a type alone begins with
    a capital."""
    above, _, function = folder.rpartition("/")
    owner = above.rpartition("/")[2]
    return f"{owner}/{function}" if owner[:1].isupper() else folder


def changed_lines(text, old, new):
    """The first and the last line of a text that an edit changes, counted from 0."""
    lines, others = old.splitlines(), new.splitlines()
    same = len(os.path.commonprefix([lines, others]))
    behind = len(os.path.commonprefix([lines[same:][::-1], others[same:][::-1]]))
    first = text.partition(old)[0].count("\n")
    return first + min(same, len(lines) - 1), first + max(len(lines) - behind - 1, same)


def turned_by(path, text, edit):
    """The function, by its home, of which an edit of this text of a file turns a part, and that part; or the law that
    the edit names."""
    if edit.law:
        return edit.law, Part.CLAIM
    above, _, file = path.rpartition("/")
    if above.startswith("proofs/") and file in PROOFS:
        return home_of(above.removeprefix("proofs/")), Part.BODY
    if not path.startswith("src/") or edit.old not in text:
        return None, Part.OTHER
    changed = changed_lines(text, edit.old, edit.new)
    begin, end = (function_at(path, text.splitlines(), it) for it in changed)
    return begin if begin == end else (None, Part.OTHER)


def all_turned(name, edits):
    """What the edits of a crate turn, one after the other: for each its function and the part of it."""
    texts = {}
    for edit in edits:
        text = texts.get(edit.file) or read(f"{ROOT}/crates/{name}/{edit.file}")
        yield turned_by(edit.file, text, edit)
        texts[edit.file] = text.replace(edit.old, edit.new)


def functions_of(name, edits):
    """The functions whose bodies, claims or proofs these edits turn, one after the other, by their homes, and the laws
    that they name; none where they turn anything else."""
    found = {(None if part is Part.OTHER else function) for function, part in all_turned(name, edits)}
    return set() if None in found else found


def turn_a_claim(name, edits):
    """Whether any of these edits turns what a function claims: those that cite it would be proved by that."""
    return any(part is Part.CLAIM for _, part in all_turned(name, edits))
