"""How crates are proved and built: what crates.txt says of them, what of them was proved before and still holds, and
how the prover is called. The scripts beside this one, wrong/try and tools/bridge/build do so by it.

A crate that was proved before is proved again only where its files have changed, or one that it stands on has. Crates
that don't stand on each other are proved side by side, as many as there are processors and as far as memory allows,
those first that most is waiting for; those for which much less waits give way. A crate that takes long gets a process
for each processor: they are copies of the one that has read what the crate stands on, so together they take hardly more
than one.

A library is proved over what those below it state, as over the toolchain's own libraries, and what it states itself is
kept for those above (`rattle build --statements`): its proofs are read once, when it is proved. So the prover is called
itself, since `rt lib` keeps the proofs of a library too, and reads them again for each crate above. The gate proves as
this does.
"""
import contextlib
import fcntl
import hashlib
import os
import re
import shutil
import subprocess
import sys
import time
from concurrent.futures import FIRST_COMPLETED, ThreadPoolExecutor, wait
from typing import NamedTuple

import machines
from machines import AMD64, ROOT

PROGRAM = "apctl"
# What a crate is proved and built of.
PARTS = ("src", "specs", "proofs")
# What a check takes of memory, in kB, with one process, and for each further one.
KB_OF_A_CHECK, KB_OF_A_PROCESS = 2_000_000, 750_000
# More than four processes don't pay, nor do several for less work, in seconds.
MOST_PROCESSES, LONG = 4, 35
# About how many seconds a check by one process takes; of another crate it takes ten, and one for each ten lines of its
# code. Only the order of the work, how many processes a crate gets, and who gives way hang on it.
SECONDS = {"mac_frame": 60, "elements": 27, "tim": 30, "beacon": 30, "encapsulation": 30, "address_hash": 11,
           "powersave": 68, "station_state": 11, "aid_pool": 24, "association": 45, "ap_config": 35, "events": 26,
           "address_map": 95, "stations": 37, "roster": 64, "network": 220, "versions": 10,
           "networks": 61, "bss_core": 100, "air_queue": 60, "play": 215,
           "text_io": 58, "config_text": 62, "report": 33, "trace": 71, "network_report": 48,
           "live_rules": 16, "live": 172, "replay": 118, "play_text": 110, "words": 73, "text_files": 110,
           "apctl": 20}
# The sum of the logic, as `rt version` says it, by which all was proved.
LOGIC = "dac8208d650f15bf"
# By how much those give way whose chain is shorter than this share of the longest.
NICE, NEAR = "10", 0.8

begun = time.monotonic()


def say(text):
    seconds = int(time.monotonic() - begun)
    print(f"{seconds // 60:3}:{seconds % 60:02} {text}", file=sys.stderr, flush=True)


def kit():
    """The toolchain's folder."""
    found = shutil.which("rt")
    if not found:
        sys.exit(f"{sys.argv[0]}: the toolchain's command rt is not on the path, and nothing was begun")
    return os.path.dirname(os.path.dirname(os.path.realpath(found)))


def of_kit(*names):
    """A file of the toolchain."""
    return os.path.join(kit(), *names)


def folder(name):
    return os.path.join(ROOT, "crates", name)


def made(name):
    """Where what a library states is kept, and the program's own files while it is built: where `rt` looks for no text
    that it hasn't read, and from where the gate takes nothing and leaves what it finds."""
    return os.path.join(folder(name), "out", "rlib", "stated")


def proved_by_gate(name):
    """Where `rt ci` leaves a library that it has proved and built; its line says when that is there whole."""
    return os.path.join(folder(name), "out", "rlib")


def static_library(name, machine=AMD64):
    """Where the static library of a crate is built for a machine."""
    return os.path.join(machines.below(os.path.join(folder(name), "out"), machine), f"lib{name}.a")


def made_program(machine):
    """Where the program's own files are while it is built for a machine."""
    return made(PROGRAM) if machine == AMD64 else os.path.join(folder(PROGRAM), "out", machine.arch)


def text_of(path):
    """A file's octets, or none where there is no such file."""
    try:
        with open(path, "rb") as file:
            return file.read()
    except FileNotFoundError:
        return b""


class Listed(NamedTuple):
    """What a line of crates.txt says: the line itself, whether the crate is a static library, on which it stands."""
    line: str
    is_static: bool
    stands_on: list


def listed():
    """The crates of crates.txt, by name."""
    found = {}
    with open(os.path.join(ROOT, "crates.txt"), encoding="utf-8") as lines:
        for line in lines:
            if match := re.match(r"(\w+)([^:]*):(.*)", line):
                found[match[1]] = Listed(line.strip(), "staticlib" in match[2].split(), match[3].split())
    return found


class Crate:
    """A crate of the repository: those that it stands on, here and in the toolchain, and about how many seconds its
    check takes."""

    def __init__(self, name, stands_on, ported):
        self.name, self.stands_on, self.ported = name, stands_on, ["std", *ported]
        lines = sum(text_of(it).count(b"\n") for it in self.files() if it.endswith(".rt"))
        self.seconds = SECONDS.get(name, 10 + lines // 10)

    def files(self):
        """What it is proved of, as that stands now."""
        parts = [os.walk(os.path.join(folder(self.name), part)) for part in PARTS]
        return sorted(os.path.join(at, file) for part in parts for at, _, files in part for file in files)


def crates_of(*names):
    """The crates of these names and all that they stand on, by name, lowest first."""
    every, found = listed(), {}

    def visit(name):
        if name not in found:
            stands_on = every[name].stands_on
            for it in stands_on:
                if it in every:
                    visit(it)
            found[name] = Crate(name, [it for it in stands_on if it in every],
                                [it for it in stands_on if it not in every])

    for name in names:
        visit(name)
    return found


def below(crates, name):
    """All that a crate stands on, directly or not."""
    found = set()
    for it in crates[name].stands_on:
        found |= {it} | below(crates, it)
    return found


def sum_of(paths, top):
    """The checksum of files, with their names below a folder."""
    whole = hashlib.sha256()
    for path in sorted(paths):
        whole.update(f"{os.path.relpath(path, top)} {hashlib.sha256(text_of(path)).hexdigest()}\n".encode())
    return whole.hexdigest()


def stamp_of(crates, name):
    """The checksum of all that a crate is proved of: its files with their names, what those below it state, as it was
    built, and the toolchain."""
    crate, whole = crates[name], hashlib.sha256(text_of(of_kit("KIT-ID")))
    whole.update(repr([crate.stands_on, crate.ported]).encode() + sum_of(crate.files(), ROOT).encode())
    for it in sorted(below(crates, name)):
        whole.update(text_of(os.path.join(made(it), "stamp")))
    return whole.hexdigest()


def sum_of_made(place):
    """The checksum of all that was made in a folder, as it stands now."""
    files = [os.path.join(at, file) for at, _, files in os.walk(place) for file in files]
    return sum_of([it for it in files if it != os.path.join(place, "stamp")], place)


def words_for(crates, name, processes, place=made):
    """The words of the prover for a crate: what it stands on, by the folder of each, and by how many processes it is
    proved."""
    crate, rlibs = crates[name], of_kit("rlibs")
    words = [of_kit("bin", "rattle"), "build", "--crate-name", name]
    words.append("src/main.rt" if name == PROGRAM else "src/lib.rt")
    for it in crate.ported:
        words += ["--extern", f"{it}={os.path.join(rlibs, it)}.rlib"]
    for it in crate.stands_on:
        words += ["--extern", f"{it}={os.path.join(place(it), it)}.rlib"]
    for it in [rlibs, *map(place, sorted(below(crates, name)))]:
        words += ["-L", f"dependency={it}"]
    words += ["--antt-project", of_kit("rattle", "logic", "antt-project.json")]
    return [*words, "--logic-built", of_kit("logic_built"), "--jobs", str(processes)]


def called(name, words):
    """Runs a command in the folder of a crate: its status, and what it said."""
    how = {"stdin": subprocess.DEVNULL, "stdout": subprocess.PIPE, "stderr": subprocess.STDOUT}
    ran = subprocess.run(words, cwd=folder(name), text=True, errors="replace", **how)
    return ran.returncode, ran.stdout


def run_prover(name, words):
    """Runs the prover for a crate: its status, which isn't 0 where it gave no verdict, and what it said."""
    status, said = called(name, words)
    return status or int(not re.search("^logic=proved ", said, re.M)), said


def is_kept(place, stamp):
    """Whether what was made in a folder was made of this, and stands as it was made."""
    return text_of(os.path.join(place, "stamp")).decode() == f"{stamp} {sum_of_made(place)}"


def begin(place):
    """Leaves nothing of what was made in a folder before."""
    shutil.rmtree(place, ignore_errors=True)
    os.makedirs(place)


def keep(place, stamp, now):
    """Writes down of what something was made, unless that was changed meanwhile: who knows what was read then."""
    if now == stamp:
        with open(os.path.join(place, "stamp"), "w") as file:
            file.write(f"{stamp} {sum_of_made(place)}")


def prove(crates, name, processes, gives_way):
    """Proves a library by this number of processes, which may give way to others, unless that was done before: the
    status, and what the prover said."""
    stamp = stamp_of(crates, name)
    if is_kept(made(name), stamp):
        return 0, ""
    begin(made(name))
    words = [*words_for(crates, name, processes), "--statements", "-o", os.path.join(made(name), f"{name}.rlib")]
    status, said = run_prover(name, ["nice", "-n", NICE, *words] if gives_way else words)
    if status == 0:
        keep(made(name), stamp, stamp_of(crates, name))
    return status, said


def free():
    """The memory that is free, in kB."""
    with open("/proc/meminfo") as lines:
        return next(int(line.split()[1]) for line in lines if line.startswith("MemAvailable:"))


def waited_for(crates):
    """For each crate the seconds of the longest chain that waits for it, its own among them."""
    longest = {name: crate.seconds for name, crate in crates.items()}
    for name in reversed(crates):
        for it in crates[name].stands_on:
            longest[it] = max(longest[it], crates[it].seconds + longest[name])
    return longest


def prove_libraries(crates, lanes):
    """Proves all crates but the program by so many processors, each once those that it stands on are proved: whether
    all were."""
    memory, longest = 0.85 * free(), waited_for(crates)
    left, running, proved = sorted({*crates} - {PROGRAM}, key=lambda it: (-longest[it], it)), {}, set()
    with ThreadPoolExecutor(lanes) as pool:
        while left or running:
            ready = [it for it in left if proved.issuperset(crates[it].stands_on)]
            for name in ready:
                processes = processes_for(crates[name], lanes)
                room = memory - sum(kb_of(each) for _, each in running.values())
                if len(running) == lanes or (running and room < kb_of(1)):
                    break
                while processes > 1 and kb_of(processes) > room:
                    processes -= 1
                left.remove(name)
                gives_way = longest[name] < NEAR * max(longest[it] for it in crates if it not in proved)
                running[pool.submit(prove, crates, name, processes, gives_way)] = name, processes
            for ended in wait(running, return_when=FIRST_COMPLETED).done:
                name, _ = running.pop(ended)
                status, said = ended.result()
                if status:
                    say(f"{name}: not proved")
                    print(said, file=sys.stderr)
                    return False
                proved.add(name)
                say(f"{name}: proved")
    return True


def lanes_here():
    """How many processors there are for this."""
    return len(os.sched_getaffinity(0))


def processes_for(crate, lanes):
    """How many processes pay for a crate, of so many processors."""
    return min(lanes, MOST_PROCESSES) if crate.seconds >= LONG else 1


def kb_of(processes):
    return KB_OF_A_CHECK + KB_OF_A_PROCESS * (processes - 1)


def processes_that_fit(crate):
    """How many processes pay for a crate that is proved alone, as far as the memory that is free goes."""
    processes = processes_for(crate, lanes_here())
    while processes > 1 and kb_of(processes) > 0.85 * free():
        processes -= 1
    return processes


def verdict(said):
    """The prover's verdict in what it said."""
    return re.search("^logic=.*", said, re.M)[0]


def words_of(machine):
    """The words of the prover for what is built for a machine. Where that can't be built, this ends."""
    words = ["--toolchain", machines.tools_for(machine, kit())]
    return words if machine == AMD64 else [*words, "--target", machine.target]


def make_program(crates, processes, machine=AMD64, place=made):
    """Proves the program over what its libraries state, each in its folder, builds it for a machine, and links it: the
    status, and what was said."""
    linked, calls = os.path.join(made_program(machine), PROGRAM), machines.calls_for(machine, kit())
    words = [*words_for(crates, PROGRAM, processes, place), *words_of(machine)]
    status, said = run_prover(PROGRAM, [*words, "--backend", "llvm", "-o", f"{linked}.o"])
    if status:
        return status, said
    words = [of_kit("bin", "rattle-link"), "--target", machine.target, *words_of(machine)[:2]]
    status, told = called(PROGRAM, [*words, "-o", linked, f"{linked}.o", *calls])
    return status, said + told


def program_stamp(crates, machine):
    """The checksum of all that the program is built of for a machine."""
    stamp = stamp_of(crates, PROGRAM)
    if machine == AMD64:
        return stamp
    calls = b"".join(map(text_of, machines.calls_for(machine, kit())))
    return hashlib.sha256(f"{stamp} {machine.target} ".encode() + calls).hexdigest()


def build_program(crates, machine=AMD64, place=made):
    """Has the program made for a machine, unless that was done before: whether it is there. Over libraries in other
    folders than its own it is made anew."""
    say(f"{PROGRAM}: proving and building it" + told_of(machine))
    folder_of_it = made_program(machine)
    stamp = program_stamp(crates, machine)
    if place is made and is_kept(folder_of_it, stamp):
        return True
    begin(folder_of_it)
    status, said = make_program(crates, processes_that_fit(crates[PROGRAM]), machine, place)
    if status:
        say(f"{PROGRAM}: not built")
        print(said, file=sys.stderr)
        return False
    if place is made:
        keep(folder_of_it, stamp, program_stamp(crates, machine))
    say(f"{PROGRAM}: proved and built{told_of(machine, said)}")
    return True


def told_of(machine, said=None):
    """Of another machine than the toolchain's: which it is, and the verdict for it, which is one of its own."""
    if machine == AMD64:
        return ""
    return f" for {machine.arch}" + (f", by a verdict of its own: {verdict(said)}" if said else "")


def is_older(crates, name, machine=AMD64):
    """Whether the static library of a crate is missing, or older than a file of it or of what it stands on. One that
    was brought here from another machine counts by its time too, so it is told by no sum."""
    try:
        built = os.stat(static_library(name, machine)).st_mtime_ns
    except FileNotFoundError:
        return True
    files = [file for it in (name, *below(crates, name)) for file in crates[it].files()]
    return any(os.stat(it).st_mtime_ns > built for it in files)


def build_static(crates, name, processes, place=made, machine=AMD64):
    """Proves a crate over what its libraries state, each in its folder, and builds its static library for a machine:
    the status, and what was said."""
    library = static_library(name, machine)
    os.makedirs(os.path.dirname(library), exist_ok=True)
    with contextlib.suppress(FileNotFoundError):
        os.remove(library)
    words = [*words_for(crates, name, processes, place), "--crate-type", "staticlib", *words_of(machine)]
    status, said = run_prover(name, [*words, "-o", f"{library}.part"])
    if status == 0:
        os.replace(f"{library}.part", library)
    return status, said


def wait_for(lock):
    """Of two runs in one checkout the second waits, which is told, and finds what the first has proved."""
    try:
        fcntl.flock(lock, fcntl.LOCK_EX | fcntl.LOCK_NB)
    except BlockingIOError:
        say("another run proves in this checkout: waiting until it has ended")
        fcntl.flock(lock, fcntl.LOCK_EX)


@contextlib.contextmanager
def in_turn():
    """Has what follows prove in this checkout while nothing else does."""
    os.makedirs(os.path.join(ROOT, "build"), exist_ok=True)
    with open(os.path.join(ROOT, "build", f"{PROGRAM}.lock"), "w") as lock:
        wait_for(lock)
        yield


def say_logic():
    """Says whether the sum of the toolchain's logic is the one by which all was proved: what it proves hangs on it."""
    found = re.search(rb"\blogic (\w+)", text_of(of_kit("KIT-ID")))
    logic = found[1].decode() if found else "unknown"
    say(f"the sum of the toolchain's logic is {logic}: " + ("it matches" if logic == LOGIC else
                                                         f"it does not match {LOGIC}, by which all was proved"))
