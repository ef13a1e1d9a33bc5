"""What a fault of the program's words, files, memory or streams comes of."""
import difflib
import os
import re
import shlex
import stat

import called
from explaining import odd_words
from explaining.answers import SUBCOMMANDS, Fault
from explaining.files import in_folder, is_like_file, missing_file, names_within
from explaining.source import DASHES, Finding, quoted

FORMS = ("check CONFIG, run CONFIG TRACE, play CONFIG TRACE..., live CONFIG and live --octets CONFIG; without words it "
         "reads standard input")
OCTETS = "--octets"
# What the program writes of itself, by the words that ask for it alone.
PAGES = {**dict.fromkeys(("--help", "-h", "help"), "usage"), "--version": "version"}
# Words of tools, by those that people give the program; of them the tools themselves have no word for what they do.
OF_OTHERS = {"status": "live", "events": "live", "kick": "live", "reload": "live", "check-radio": "live",
             "check-networks": "live", "explain": "explain", "frame": "frame", "picture": "picture"}
# Tools with other names than the program's words, which take what stands behind them.
FELLOWS = ("config-from-hostapd", "trace-from-capture", "capture-from-run", "capture-from-report", "report-to-json",
           "live-demo", "open-status")
# What people call what the program does, and the program itself where its name stands among its words.
CALLED = {**dict.fromkeys(("validate", "verify", "lint", "test", "parse", "config", "load", "syntax"), "check"),
          **dict.fromkeys(("exec", "simulate", "replay", "trace", "execute"), "run"),
          **dict.fromkeys(("serve", "server", "daemon", "ap", "start", "listen", "stream"), "live")}
ITSELF = ("apctl", "sudo", "explain", "waltigon-explain", "waltigon")
CONFIGURATION = re.compile(r"^\[\[network", re.M)
BINARY = ("--binary", "--bytes", "--raw", "--octet", "--records", "--octects", "-octets", "-o", "-b")
FOR_OCTETS = ("octets", "octet", "binary")
OF_ITSELF: dict[str, list[str]] = {"explain": ["CONFIG"], "frame": ["--help"], "picture": ["--help"]}
# How many words follow each at least.
LEAST = {"check": 1, "run": 2, "play": 2, "live": 1}
# The options of the tool that starts the program on a radio.
OF_BRIDGE = ("--phy", "--wire", "--wires", "--share", "--monitor", "--by", "--country", "--idle", "--no-update",
             "--record", "--record-limit", "--tables", "--status", "--status-host", "--status-from",
             "--station-metrics", "--names", "--as-root", "--bridge", "--program", "--json", "--watch", "--since")
MOST_TRACES, MOST_READ, MOST_SHOWN = 64, 65_536, 4
LIKE = 0.75  # how much an option has to be like another one


def explain(fault: Fault, words: list[str]) -> list[Finding]:
    """The reasons for a fault that is of no text; none where nothing was found."""
    parts = {"words": of_words, "file": of_file, "sources": of_sources, "memory": of_memory, "output": of_output,
             "thread": of_thread, "clock": of_clock, "F3": of_uncovered}
    return parts[fault.code](fault, words) if fault.code in parts else []


def of_words(fault: Fault, words: list[str]) -> list[Finding]:
    """Words that the program doesn't have."""
    return [of_all_words(words) or of_known_word(words) or of_other_word(words)] if words else []


def of_all_words(words: list[str]) -> Finding | None:
    """What is wrong with the words whatever the first one is."""
    unreadable = [word for word in words if not word.isascii() and os.fsencode(word) != utf8_of(word)]
    if unreadable:
        return Finding("a word isn't UTF-8, and the program reads no other words", None,
                       "give the file another name, or a link to it")
    dashed = next((word for word in words if word[:1] in DASHES), None)
    if dashed:
        return of_dashes(words, dashed)
    cut = cut_name(words) or odd_words.of_shell(words) or odd_words.of_joined_words(words, SUBCOMMANDS)
    if not cut and words[0] in SUBCOMMANDS:
        cut = odd_words.of_two_commands(words[0], words[1:], SUBCOMMANDS)
    if cut:
        return cut
    begin = next((at for at, word in enumerate(words) if os.path.basename(word) not in ITSELF), len(words))
    if 0 < begin < len(words) and not os.path.isfile(words[begin - 1]) and words[begin] in SUBCOMMANDS:
        return Finding(f"{quoted(words[begin - 1])} stands among the program's words, which begin with its command",
                       None, f"write `{shlex.join(words[begin:])}` behind the program's name alone")
    return None


def of_known_word(words: list[str]) -> Finding | None:
    """A first word that is the program's, another tool's, or several in one."""
    first, rest = words[0], words[1:]
    if not rest and first in PAGES:
        return Finding(f"{quoted(first)} asks for the program's {PAGES[first]}, which it writes to standard output, "
                       "and for nothing to be done", None, f"its words are {FORMS}")
    if first in (*PAGES, "-V"):
        return Finding(f"the program has no word {quoted(first)} beside others" if first in PAGES else
                       f"the program has no word {quoted(first)}", None, f"its words are {FORMS}")
    if first in SUBCOMMANDS:
        return of_subcommand(first, rest)
    several = names_within(first)
    if several:
        return of_several(several + rest, first)
    if first in OF_OTHERS:
        tool = called.fellow(OF_OTHERS[first])
        return Finding(f"the program has no word {quoted(first)}: it is one of {tool}", None,
                       f"write `{shlex.join([*tool.split(), *OF_ITSELF.get(first, [first])])}`")
    if first in FELLOWS:
        return Finding(f"the program has no word {quoted(first)}: it is a tool of its own", None,
                       f"write `{shlex.join([*called.fellow(first).split(), *rest])}`")
    return None


def is_strange(words: list[str]) -> bool:
    """Whether nothing is known of these words, and they are like no word of the program: a file may be meant."""
    return not (of_all_words(words) or of_known_word(words) or meant_by(words[0]))


def meant_by(word: str) -> list[str]:
    """The command that a word means by another name or nearly, if any."""
    return [CALLED[word.lower()]] if word.lower() in CALLED else \
        difflib.get_close_matches(word.lower(), list(SUBCOMMANDS), 1, 0.6)


def of_other_word(words: list[str]) -> Finding:
    """A first word that nobody has."""
    first, rest = words[0], words[1:]
    close = meant_by(first)
    if close:
        write = shlex.join([close[0], *rest]) if len(rest) >= LEAST[close[0]] else SUBCOMMANDS[close[0]]
        return Finding(f"the program has no word {quoted(first)}", None, f"write `{write}`")
    command = next((word for word in rest if word in SUBCOMMANDS), None)
    if command is not None:
        files = [word for word in words if word != command and not word.startswith("-")]
        options = [OCTETS] * (command == "live" and OCTETS in words)
        return Finding(f"the command comes first, and here {quoted(first)} does", None,
                       f"write `{shlex.join([command, *options, *files])}`")
    if first.startswith("-"):
        files = [value_of(word) for word in words if not word.startswith("-") or is_like_file(value_of(word))]
        more = f"write `{form_for(files)}`; " if files else ""
        return Finding(f"the program has no word {quoted(first)}, and no options", None, f"{more}its words are {FORMS}")
    if is_like_file(first):
        return of_missing_command(words)
    said = f"the program has no word {quoted(first)}, and no file of this name is there"
    write = f"write `{form_for(rest)}`; " if rest and all(os.path.isfile(word) for word in rest) else ""
    return Finding(said, None, f"{write}its words are {FORMS}")


def of_missing_command(files: list[str]) -> Finding:
    """Names of files alone: which command is missing before them, or that a file is both texts and needs none."""
    first = files[0]
    said = f"a file's name, {quoted(first)}, is no first word"
    whole = f"`{called.program()} < {shlex.quote(first)}`"
    if len(files) == 1 and is_joined(text_of(first)):
        return Finding(f"{said}: it is a configuration and a trace in one, with a line `---`", None, f"write {whole}")
    meant = sorted(files, key=lambda name: not CONFIGURATION.search(text_of(name)))
    command = form_for(meant).split()[0]
    given = standard_input_file() if len(files) == 1 and CONFIGURATION.search(text_of(first)) else None
    if given:
        return Finding(f"the command `run` is missing: {said}; the trace is on standard input, which `run` doesn't "
                       "read", None, f"write `{shlex.join(['run', first, given])}`, without `<`")
    other = "" if len(files) > 1 or os.path.isfile(first) else f", or {whole} where it is a configuration and a trace"
    return Finding(f"the command `{command}` is missing: {said}", None, f"write `{form_for(meant)}`{other}")


def cut_name(words: list[str]) -> Finding | None:
    """A file's name with blanks, of which the shell made several words."""
    for begin in range(len(words)):
        for end in range(begin + 2, len(words) + 1):
            name = " ".join(words[begin:end])
            dotted = ".".join(words[begin:end])
            if begin and os.path.isfile(dotted) and not any(map(os.path.exists, words[begin:end])):
                return Finding(f"{quoted(name)} is no file, and {quoted(dotted)} is one", None,
                               f"write `{shlex.join([*words[:begin], dotted, *words[end:]])}`")
            if os.path.isfile(name) and not all(map(os.path.exists, words[begin:end])):
                meant = [*words[:begin], name, *words[end:]]
                write = shlex.join(meant) if meant[0] in SUBCOMMANDS else form_for(meant)
                return Finding(f"{quoted(name)} is a file, and its blanks make {end - begin} words of its name: a "
                               f"name with blanks stands in quotes", None, f"write `{write}`")
    return None


def of_dashes(words: list[str], dashed: str) -> Finding:
    """A word that begins with a dash of print, as texts that were printed have it, for two hyphens."""
    meant = [f"--{word.lstrip(DASHES + '-')}" if word[:1] in DASHES else word for word in words]
    options = [word for word in meant[1:] if word.startswith("--")]
    write = shlex.join([meant[0], *options, *(word for word in meant[1:] if not word.startswith("--"))])
    return Finding(f"{quoted(dashed)} begins with a dash of print (U+{ord(dashed[0]):04X}), and an option with two "
                   f"hyphens",
                   None, f"write `{write}`")


def value_of(word: str) -> str:
    """What stands behind `=` in an option; another word as it is, and nothing of an option alone."""
    return word.partition("=")[2] if word.startswith("-") else word


def form_for(files: list[str]) -> str:
    """The program's words for these files."""
    command = {1: "check", 2: "run"}.get(len(files), "play")
    return f"{command} {shlex.join(files)}"


def utf8_of(word: str) -> bytes | None:
    """A word as UTF-8, or None where it is none."""
    try:
        return word.encode()
    except UnicodeEncodeError:
        return None


def of_subcommand(first: str, rest: list[str]) -> Finding:
    """One of the program's words, with others that don't fit it."""
    form, is_octets = SUBCOMMANDS[first], first == "live" and OCTETS in rest
    if first == "live" and rest[:1] == [OCTETS]:
        form, rest = f"live {OCTETS} CONFIG", rest[1:]
    dashed = next((word for word in rest if word.startswith("-") and word not in ("-", "--")), None)
    if dashed and "--" not in rest:
        return of_option(first, rest, dashed, is_octets)
    files = [word for word in rest if word != "--"]
    if len(files) < LEAST[first]:
        return of_missing(first, files, form)
    return of_live(rest, is_octets) if first == "live" else of_more_files(first, files, form)


def of_option(first: str, rest: list[str], dashed: str, is_octets: bool) -> Finding:
    """An option that the program doesn't have, and what to write without it."""
    if first == "live" and dashed.partition("=")[0] in OF_BRIDGE:
        return Finding(f"{quoted(dashed)} is an option of {called.fellow('live')}, which starts the program and the "
                       "bridge", None, f"`{called.fellow('live')} --help` shows how it is used")
    if dashed in ("-h", "--help", "--version"):
        return Finding(f"the program has no word {quoted(dashed)}", None, f"its words are {FORMS}")
    others = [value_of(word) for word in rest if not word.startswith("-") or is_like_file(value_of(word))]
    there = [word for word in others if os.path.exists(word)]
    if len(others) > LEAST[first] == len(there):  # the value of an option is among them
        others = there
    name = dashed.partition("=")[0]
    is_octets = is_octets or first == "live" and (
        name in BINARY or difflib.SequenceMatcher(None, name, OCTETS).ratio() > LIKE)
    is_whole = len(others) == LEAST[first] or first == "play" and len(others) > LEAST[first]
    write = f"write `{shlex.join([first] + [OCTETS] * is_octets + others)}`" if is_whole else ""
    of_name = f"for a file of this name write `{first} -- {' '.join(rest)}`" * (os.path.lexists(dashed) or not write)
    options = f"no option but `{OCTETS}` before CONFIG" if first == "live" else "no options"
    return Finding(f"{quoted(dashed)} begins with `-`, and `{first}` has {options}", None,
                   "; ".join(filter(None, (write, of_name))))


def of_live(rest: list[str], is_octets: bool) -> Finding:
    """More words than one behind `live`."""
    files = [word for word in rest if word not in ("--", OCTETS)]
    missing = [word for word in files if not os.path.exists(word)]
    word = next((word for word in missing if word in FOR_OCTETS), None)
    radio = next((word for word in missing if odd_words.INTERFACE.fullmatch(word)), None)
    if rest[0] in OF_OTHERS and not os.path.exists(rest[0]):
        return of_bridge(rest)
    others = [other for other in files if other not in (word, radio)]
    if word:
        return Finding(f"{quoted(word)} is no file: the option has two hyphens", None,
                       f"write `{shlex.join(['live', OCTETS, *others])}`")
    if radio:
        return Finding(f"{quoted(radio)} looks like the name of an interface or a radio, which is named to "
                       f"{called.fellow('live')}, and `live` of the program reads lines", None,
                       f"write `{shlex.join([*called.fellow('live').split(), *others, '--phy', 'phy0'])}`")
    if len(files) < 2:
        return Finding(f"behind `--` stand names of files, and `{OCTETS}` stands there", None,
                       f"write `{shlex.join(['live', OCTETS, *files])}`")
    return Finding(f"`live` reads its {'records' if is_octets else 'lines'} from standard input, and takes one word "
                   f"and no more", None, f"write `live {f'{OCTETS} ' * is_octets}{files[0]} < {files[1]}`")


def of_more_files(first: str, files: list[str], form: str) -> Finding:
    """More files than `check` or `run` takes."""
    count, least = len(files), LEAST[first]
    if first == "run" and count == least + 1 and not os.path.exists(files[-1]):
        return Finding(f"`run` writes its report on standard output, and takes no word for it, as {quoted(files[-1])}",
                       None, f"write `{shlex.join([first, *files[:-1]])} > {files[-1].lstrip('>')}`")
    if first == "run" and all(map(os.path.isfile, files)):
        meant = sorted(files, key=lambda name: not CONFIGURATION.search(text_of(name)))
        return Finding(f"`run` takes two words and no more, one trace, and there are {count}", None,
                       f"write `{shlex.join(['play', *meant])}`: `play CONFIG TRACE...` plays several at once")
    if first == "check" and all(CONFIGURATION.search(text_of(file)) for file in files):
        each = ", then ".join(f"`{shlex.join([first, file])}`" for file in files[:MOST_SHOWN])
        return Finding(f"`check` takes one configuration, and there are {count} words", None, f"write {each}")
    if first == "check" and count == 2 and not files[1].endswith(".toml"):
        return Finding(f"`check` takes a configuration alone, and there are {count} words", None,
                       f"write `{shlex.join(['run', *files])}` for a trace")
    return Finding(f"`{first}` takes {'one word' if least == 1 else 'two words'} and no more, and there are {count}",
                   None, f"write `{form}`" + (", or `play CONFIG TRACE...` for several traces" if first == "run"
                                              else ", and `run CONFIG TRACE` for a trace" if first == "check" else ""))


def of_bridge(words: list[str]) -> Finding:
    """What the tool does that has the name of one of the program's words."""
    return Finding(f"{quoted(words[0])} is asked of {called.fellow('live')}, which is another program than "
                   f"`{called.program()} "
                   f"live`", None, f"write `{shlex.join([*called.fellow('live').split(), *words])}`")


def of_missing(first: str, files: list[str], form: str) -> Finding:
    """Too few words behind one of the program's: which one is missing, by what the file is that is there."""
    several = next((word for word in files if names_within(word)), None)
    if several:
        return of_several([first, *(name for word in files for name in names_within(word) or [word])], several)
    text = text_of(files[0]) if files else ""
    if is_joined(text):
        return Finding(f"after `{first}` the word TRACE is missing, and {quoted(files[0])} is a configuration and a "
                       "trace in one, with a line `---`", None, f"write `{called.program()} < {files[0]}`")
    if re.search(r"^(?:A|W [0-9A-Fa-f:]{17}) +[0-9A-Fa-f]{2}|^T$", text, re.M):
        return Finding(f"{quoted(files[0])} is a trace, and after `{first}` a configuration stands before it", None,
                       f"write `{first} CONFIG {files[0]}`")
    what = "TRACE" if files else "CONFIG"
    given = standard_input_file() if files or first == "check" else None
    if given and first == "check":
        return Finding("after `check` the word CONFIG is missing, and standard input isn't read for it", None,
                       f"write `{shlex.join([first, given])}`, without `<`")
    if given:
        return Finding(f"after `{first}` the word TRACE is missing, and the trace is on standard input, which "
                       f"`{first}` doesn't read", None, f"write `{shlex.join([first, *files, given])}`, without `<`")
    return Finding(f"after `{first}` the word {what} is missing", None, f"write `{form}`")


def standard_input_file() -> str | None:
    """The name of the file on standard input; None where it is none."""
    try:
        if not stat.S_ISREG(os.fstat(0).st_mode):
            return None
        path = os.readlink("/proc/self/fd/0")
    except OSError:
        return None
    near = os.path.relpath(path)
    return near if len(near) < len(path) else path


def of_several(meant: list[str], word: str) -> Finding:
    """A word that holds several."""
    return Finding(f"{quoted(word)} is one word, and names {len(names_within(word))}: a space that no quotes hold "
                   f"stands between words", None, f"write `{shlex.join(meant)}`")


def is_joined(text: str) -> bool:
    """Whether a text is a configuration and a trace with a line `---` between."""
    return bool(re.search("^---$", text, re.M) and CONFIGURATION.search(text))


def text_of(name: str) -> str:
    """How a file's text begins; nothing of one that can't be read."""
    try:
        with open(name, encoding="utf-8", errors="replace") as file:
            return file.read(MOST_READ) if os.path.isfile(name) else ""
    except (OSError, ValueError):
        return ""


def of_file(fault: Fault, words: list[str]) -> list[Finding]:
    """A file that can't be read."""
    name = fault.file or ""
    if words[:1] == ["live"] and name in OF_OTHERS:
        return [of_bridge(words[1:])]
    if name == "-" and "-" not in words:
        return [Finding("standard input can't be read: it is closed, or a folder", None,
                        f"give a text by `{called.program()} < my.input`, or `live CONFIG < LINES`")]
    advice = "`-` names a file here, and not standard input: name the file, or /dev/stdin" if name == "-" else None
    if name == "":
        which = {1: "CONFIG", 2: "TRACE"}.get(words.index(""), "a TRACE") if "" in words else ""
        return [Finding("the name of a file is empty" + f": {which}, the word {words.index('')} behind the command" *
                        bool(which), None, "a variable of the shell may be unset")]
    try:
        mode = os.stat(name).st_mode
    except NotADirectoryError:
        return [Finding(f"{quoted(name)}: a part of this path is a file, and no folder", None, advice)]
    except OSError as reason:
        odd = None
        if words and not os.path.lexists(name):
            odd = odd_words.of_two_commands(words[0], words[1:], SUBCOMMANDS) or \
                odd_words.of_joined_words(words, SUBCOMMANDS) or odd_words.of_name(name, words[0])
        return [odd or missing_file(name, advice, reason)]
    if stat.S_ISDIR(mode):
        return [Finding(f"{quoted(name)} is a folder, and no file", None, in_folder(name))]
    if not os.access(name, os.R_OK):
        return [Finding(f"{quoted(name)} may not be read by this user", None, f"`ls -l {name}` shows whose it is")]
    return []


def of_sources(fault: Fault, words: list[str]) -> list[Finding]:
    """More traces than may be played."""
    count = len([word for word in words[2:] if word != "--"])
    return [Finding(f"{count} traces, and `play` takes 1 to {MOST_TRACES}" if count > MOST_TRACES else
                    f"`play` takes 1 to {MOST_TRACES} traces", None, "join some of them, or leave some out")]


def of_memory(fault: Fault, words: list[str]) -> list[Finding]:
    """Memory that isn't there: for what a line would have one network of `live` keep or send, for `live` to begin, or
    for a run."""
    if fault.line is not None:
        return [Finding("the process may not have the memory for what this network would keep or send: the network has "
                        "not changed, and others may have taken what came", None,
                        "`ulimit -v` shows what it may have; give it more, or the networks a smaller `quota`")]
    if words[:1] == ["live"]:
        return [Finding("the process may not have the memory that `live` takes before its first answer", None,
                        "`ulimit -v` shows what it may have")]
    return [Finding("the process may not have the memory that this run takes: until the report is written it "
                    "keeps all frames that the networks send, `play` its traces' lines besides, and the form without "
                    "words all events besides", None,
                    "`ulimit -v` shows what it may have; cut the trace, or use `live`, which keeps none of these")]


def of_output(fault: Fault, words: list[str]) -> list[Finding]:
    """Standard output that can't be written."""
    return [Finding("standard output can't be written: it is closed, its disk is full, or what reads it has ended, as "
                    "`head` does", None, "write the report into a file on a disk that has room")]


def of_thread(fault: Fault, words: list[str]) -> list[Finding]:
    """A thread that can't be started."""
    return [Finding("`play` starts a thread for each trace, and the system gave it one too few", None,
                    "`ulimit -u` shows how many a user may have; play fewer traces at once")]


def of_clock(fault: Fault, words: list[str]) -> list[Finding]:
    """A clock that can't go on."""
    return [Finding("this network has begun 4,294,967,295 beacon intervals, and its clock counts no more", None,
                    "start the program again")]


def of_uncovered(fault: Fault, words: list[str]) -> list[Finding]:
    """What no run has met."""
    return [Finding("a network was not given all lines of each trace, or a frame of it still waits: this is a mistake "
                    "of the program, and not of these texts", None, "keep the texts, and tell whoever maintains it")]
