"""Files that aren't there, or are no files: which one may be meant."""
import difflib
import glob
import os
import re
import shlex
from collections.abc import Callable

from explaining.answers import SUBCOMMANDS
from explaining.source import Finding, quoted

ENDINGS, MOST_FILES = (".toml", ".trace", ".input"), 4
QUOTES = "\"'`\u2018\u2019\u201c\u201d\u201e\u00ab\u00bb"
# How much a file's name has to be like the one that was given, for it to be meant: all of it, and what stands before
# its ending.
LIKE, STEM_LIKE = 0.75, 0.65


def in_folder(name: str) -> str | None:
    """The files of a folder that may be meant, the newest first."""
    try:
        paths = [path for path in (os.path.join(name, file) for file in os.listdir(name)) if os.path.isfile(path)]
        paths.sort(key=os.path.getmtime, reverse=True)
    except OSError:
        return None
    more = len(paths) - MOST_FILES
    files = ", ".join(map(os.path.basename, paths[:MOST_FILES]))
    if more > 0:
        return f"the newest of its files are {files}, and there are {more} more"
    return f"in it are {files}" if paths else None


def missing_file(name: str, advice: str | None, reason: OSError) -> Finding:
    """A name that no file has."""
    if os.path.islink(name):
        return Finding(f"{quoted(name)} is a link to {quoted(os.readlink(name))}, which isn't there", None, advice)
    if not isinstance(reason, FileNotFoundError):
        return Finding(f"{quoted(name)} can't be read: {reason.strerror}", None, advice)
    folder = os.path.dirname(name) or "."
    if names_within(name):
        return Finding(f"{quoted(name)} isn't there, and is one word for {len(names_within(name))} files", None,
                       f"write `{shlex.join(names_within(name))}`")
    if re.search(r"[*?]|\[.+\]", name) and not advice:
        return Finding(f"{quoted(name)} isn't there: the shell puts files in the place of a pattern, and leaves one as "
                       "it is that no file fits, or that stands in quotes", None, matching(name))
    if name.startswith("$"):
        advice = "a shell puts a variable's value in its place where no single quotes stand around it"
    if name.startswith("~"):
        home = os.path.expanduser(name)
        advice = "a shell puts the home in the place of `~` where no quotes stand around it" + \
            (f": write {home}" if os.path.exists(home) else "; there is no " + home)
    if not os.path.isdir(folder):
        return Finding(f"{quoted(name)} isn't there: there is no folder {quoted(folder)}", None, advice)
    marked = name.rstrip(",;")
    if marked != name and os.path.exists(marked):
        return Finding(f"{quoted(name)} isn't there: {quoted(name[len(marked):])} is a part of this name, since blanks "
                       "alone separate names", None, f"write {marked}, without a mark behind it")
    plain = name.strip(QUOTES)
    if plain != name and os.path.exists(plain):
        return Finding(f"{quoted(name)} isn't there: the quotes are a part of this name", None, f"write {plain}")
    longer = with_more(name, folder)
    if longer:
        return Finding(f"{quoted(name)} isn't there, and {quoted(longer)} is", None,
                       f"write {longer}, or rename it: editors and browsers add an ending to a name")
    close = nearest_file(name, folder)
    if close and not advice:
        advice = f"`{os.path.join(os.path.dirname(name), close)}` is there, and may be meant"
    where = f"the folder {os.path.realpath(folder)} has none of this name"
    return Finding(f"{quoted(name)} isn't there: {where}", None, advice)


def nearest_file(name: str, folder: str) -> str | None:
    """The file of a folder that a name may mean: the same but for its dots, or nearly the same."""
    base = os.path.basename(name).lower()
    try:
        there = os.listdir(folder)
    except OSError:
        return None
    files = {file.lower(): file for file in filter(like(name), there)}
    close = [files[file] for file in difflib.get_close_matches(base, files, 1, LIKE)]
    dotless = (file for file in there if base and file.lower().replace(".", "") == base.replace(".", ""))
    stem, ending = os.path.splitext(base)
    other = (file for file in sorted(there) if ending not in ENDINGS and os.path.splitext(file.lower())[0] == stem and
             os.path.splitext(file)[1] in ENDINGS)
    return next(dotless, None) or next(iter(close), None) or next(other, None)


def with_more(name: str, folder: str) -> str | None:
    """The file of a folder that has this name and another ending behind it, or has it without its ending."""
    base = os.path.basename(name)
    try:
        files = sorted((file for file in os.listdir(folder) if base and file != base and (
            file.lower().startswith(f"{base.lower()}.") or file.lower() == os.path.splitext(base)[0].lower())),
                       key=lambda file: (os.path.splitext(file)[1] not in ENDINGS, file))
    except OSError:
        return None
    return os.path.join(os.path.dirname(name), files[0]) if files else None


def matching(name: str) -> str:
    """Which files fit a pattern, or that none does."""
    found = sorted(glob.glob(name))[:MOST_FILES]
    folder = os.path.dirname(name) or "."
    return f"without quotes it is {', '.join(found)}" if found else f"`ls {folder}` shows which files are there"


def like(name: str) -> Callable[[str], bool]:
    """Whether a file may be meant by a name, by what stands before its ending: many files share that."""
    stem = os.path.splitext(os.path.basename(name))[0].lower()
    return lambda file: difflib.SequenceMatcher(None, stem, os.path.splitext(file)[0].lower()).ratio() >= STEM_LIKE


def is_like_file(word: str) -> bool:
    """Whether a word names a file, or is written as a file's name."""
    return os.path.exists(word) or bool(os.path.splitext(word)[1]) or "/" in word


def names_within(word: str) -> list[str]:
    """The words that stand in one, with commas or blanks between, each of which the program has or is a file's name;
    none where there are fewer than two, or a file has that name."""
    parts = [part for part in re.split(r"[,;\s]+", word) if part]
    is_meant = len(parts) > 1 and not os.path.exists(word) and all(
        part in SUBCOMMANDS or is_like_file(part) for part in parts)
    return parts if is_meant else []
