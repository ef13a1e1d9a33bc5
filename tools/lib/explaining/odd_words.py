"""Words that are no file's name and no word of the program, by how they look: signs of a shell, words of a page that
stand for a file, addresses of the web, paths of Windows, and names of interfaces."""
import os
import re
import shlex
from collections.abc import Collection

import called
from explaining.source import Finding, quoted

# What a shell reads itself, where no quotes stand around it.
SHELL = re.compile(r"\d?>>?(?:&\d)?\S*|<{1,3}\S*|\|{1,2}|&{1,2}|;|2>&1")
PLACES = ("CONFIG", "TRACE", "TRACE...", "FILE", "FILES", "LINES", "NAME", "<CONFIG>", "<TRACE>", "[TRACE]", "<FILE>")
OUTPUT, LEAST_WITH_OUTPUT = re.compile(r"(?:-o|--(?:out(?:put)?|report|save|write)(?:-file)?)(?:=.+)?"), 5
INTERFACE = re.compile(r"(?:wlan|wlp\w|wlx\w|wl|ath|ra|phy|eth|mon|en\w|radio)\d+\w*")
FORMS = {1: "check", 2: "run"}  # by the number of files
PORT = re.compile(r"(?:[\w.-]+|\[[0-9a-f:]+\])?:\d{1,5}|\d+(?:\.\d+){3}")
WEB, WINDOWS = re.compile(r"[a-z]+://.*"), re.compile(r"[A-Za-z]:[\\/].*|.*\\.+")


def of_shell(words: list[str]) -> Finding | None:
    """A word that a shell acts on where it stands alone and without quotes."""
    output = of_output(words)
    if output:
        return output
    at = next((at for at, word in enumerate(words) if at and SHELL.fullmatch(word) and not os.path.lexists(word)), None)
    if at is None:
        return None
    said = f"{quoted(words[at])} is a sign of a shell, which came to the program as a word: a shell acts on it where " \
        "no quotes stand around it"
    if words[at] == "<" and words[0] in ("run", "play"):
        return Finding(f"{said}; `{words[0]}` reads files, and not standard input", None,
                       f"write `{shlex.join([word for word in words if word not in ('<', '-')])}`")
    return Finding(said, None, f"in a shell write `{shlex.join(words[:at])} {' '.join(words[at:])}`, without quotes "
                   f"around {quoted(words[at])}")


def of_output(words: list[str]) -> Finding | None:
    """An option that names the file of the report, which goes to standard output."""
    at = next((at for at, word in enumerate(words)
               if at and OUTPUT.fullmatch(word) and not os.path.lexists(word)), None)
    if at is None or words[0] not in ("run", "play"):
        return None
    option, sign, value = words[at].partition("=")
    name = value if sign else "".join(words[at + 1:at + 2])
    if not name or os.path.lexists(name) and not sign and len(words) < LEAST_WITH_OUTPUT:
        return None
    rest = words[:at] + words[at + (1 if sign else 2):]
    return Finding(f"{quoted(option)} is no option of the program: its report goes to standard output", None,
                   f"write `{shlex.join(rest)} > {shlex.quote(name)}`")


def of_joined_words(words: list[str], commands: Collection[str]) -> Finding | None:
    """A word that holds a command or a name, and a file's name behind it without a space."""
    for at, word in enumerate(words):
        command = next((command for command in commands if word.startswith(command) and word != command), "")
        rest = word.removeprefix(command).lstrip("-=:_") if command and not at else ""
        before, sign, value = word.partition("=")
        if os.path.lexists(word):
            continue
        if rest and os.path.isfile(rest):
            return Finding(f"{quoted(word)} is one word, and a space stands behind {quoted(command)}", None,
                           f"write `{shlex.join([command, rest, *words[1:]])}`")
        if sign and before and not before.startswith("-") and os.path.isfile(value):
            files = [other.partition("=")[2] or other for other in words if other not in commands]
            named = next((other for other in words if other in commands), FORMS.get(len(files), "play"))
            return Finding(f"{quoted(word)} is one word, and a file's name has no name and no `=` before it", None,
                           f"write `{shlex.join([named, *files])}`")
    return None


def of_two_commands(command: str, rest: list[str], commands: Collection[str]) -> Finding | None:
    """Two commands, one behind the other."""
    if not rest or rest[0] not in commands or os.path.lexists(rest[0]):
        return None
    what = f"the command {quoted(command)} stands twice" if rest[0] == command else \
        f"two commands stand there, {quoted(command)} and {quoted(rest[0])}"
    return Finding(f"{what}, and one begins the words", None, f"write `{shlex.join(rest)}`")


def of_name(name: str, command: str) -> Finding | None:
    """A name that no file has, and that looks like something else."""
    said = f"{quoted(name)} isn't there"
    if name in PLACES:
        return Finding(f"{said}: this word stands for the name of a file, which is yours to write", None,
                       f"write your file's name, as `{command} my.toml{' my.trace' * (command in ('run', 'play'))}`")
    if WEB.fullmatch(name):
        path = name.removeprefix("file://")
        return Finding(f"{said}: it is an address of the web (URL), and the program reads files", None,
                       f"write its path, {path}" if name.startswith("file:") else
                       "fetch it into a file, as by `curl -O`, and name that")
    if WINDOWS.fullmatch(name):
        plain = name.replace("\\", "/")
        path = re.sub(r"^([A-Za-z]):/", lambda drive: f"/mnt/{drive[1].lower()}/", plain)
        return Finding(f"{said}: it is written as a path of Windows, and here `/` stands between folders", None,
                       f"write {plain}, or {path} where WSL has that drive" if path != plain else f"write {plain}")
    if PORT.fullmatch(name):
        return Finding(f"{said}: it looks like an address with a port, and the program opens none", None,
                       "`live CONFIG` reads its lines from standard input")
    if INTERFACE.fullmatch(name):
        return Finding(f"{said}: it looks like the name of an interface or a radio, and `{command}` reads a "
                       "configuration's file", None, f"a radio is named to {called.fellow('live')}, as "
                       f"`{called.fellow('live')} my.toml --phy phy0`")
    return None
