"""An access point with a radio of this script, for tests of what its parts may do: the compiled bridge and a program run
as `tools/live` starts them, without systemd, in a network namespace and with a list of users of their own. The words name
what an attacker in one of them does; what came of it is printed as JSON.

Usage: unshare --net --mount --pid --fork --kill-child --mount-proc tools/tests/confined.py BRIDGE PROGRAM FOLDER CASE, as
root.
"""
import ctypes
import json
import os
import platform
import signal
import socket
import subprocess
import sys
import threading
import time
from contextlib import ExitStack, suppress
from typing import NamedTuple
from unittest import mock

TOOLS = os.path.dirname(os.path.dirname(os.path.realpath(__file__)))
sys.path[:0] = [os.path.join(TOOLS, "lib"), os.path.join(TOOLS, "guest")]
sys.dont_write_bytecode = True
from configurations import ONE_NETWORK  # noqa: E402
from frames import address_of  # noqa: E402
from live import changes, serving  # noqa: E402
from live.checks import Plan, Wanted  # noqa: E402
from live.faults import Fault  # noqa: E402
from live.setting_up import SettingUp, WirePart  # noqa: E402
from live.settings import read_settings  # noqa: E402
from stations import read, run, wait_for, write  # noqa: E402
from status.endpoint import Endpoint  # noqa: E402

OURS = address_of("02:00:00:00:01:01")
USERS = "waltigon:x:930:930::/:/usr/sbin/nologin\nwaltigon-status:x:931:931::/:/usr/sbin/nologin\n"
GROUPS = "waltigon:x:930:\nwaltigon-status:x:931:\n"
SEIZE, INTERRUPT, DETACH, GET, SET, STEP, POKE = 0x4206, 0x4207, 17, 0x4204, 0x4205, 9, 4
GENERAL, WORD = 1, 8  # NT_PRSTATUS, the general registers; the octets that POKE writes


class Processor(NamedTuple):
    """How a process makes a call of the system on it: by which instruction, and in which registers. `registers` are all
    in the kernel's order, and `others` are set besides."""
    instruction: bytes
    registers: str
    code: str
    stack: str
    number: str
    answer: str
    arguments: tuple[str, ...]
    others: dict[str, int]
    calls: tuple[int, int, int]  # openat, socket, execve


# Without a number of the call in which it was stopped, the kernel doesn't begin that again.
X86_64 = Processor(b"\x0f\x05", "r15 r14 r13 r12 rbp rbx r11 r10 r9 r8 rax rcx rdx rsi rdi orig_rax rip cs eflags rsp "
                   "ss fs_base gs_base ds es fs gs", "rip", "rsp", "rax", "rax", ("rdi", "rsi", "rdx", "r10"),
                   {"orig_rax": (1 << 64) - 1}, (257, 41, 59))
ARM64 = Processor(b"\x01\x00\x00\xd4", f"{' '.join(f'x{number}' for number in range(31))} sp pc pstate", "pc", "sp",
                  "x8", "x0", ("x0", "x1", "x2", "x3"), {}, (56, 198, 221))
PROCESSORS = {"x86_64": X86_64, "aarch64": ARM64}
HERE = PROCESSORS.get(platform.machine(), X86_64)
OPEN, SOCKET, EXECVE = HERE.calls
WRITING = os.O_WRONLY | os.O_CREAT
HERE_FOLDER = (1 << 64) - 100  # AT_FDCWD
SECONDS = 30
# A program that was built with a checker of addresses has more address space than there is memory.
MEMORY = int(os.environ.get("MEMORY", serving.MOST_MEMORY))


class Registers(ctypes.Structure):
    """Those of a process (user_regs_struct, user_pt_regs)."""

    _fields_ = [(name, ctypes.c_ulonglong) for name in HERE.registers.split()]


class Place(ctypes.Structure):
    """Where registers stand here (iovec)."""

    _fields_ = [("address", ctypes.c_void_p), ("size", ctypes.c_size_t)]


def trace(request, process, address=0, data=0):
    """ptrace(2)."""
    library = ctypes.CDLL(None, use_errno=True)
    library.ptrace.argtypes = [ctypes.c_long, ctypes.c_long, ctypes.c_void_p, ctypes.c_void_p]
    library.ptrace.restype = ctypes.c_long
    if library.ptrace(request, process, address, data) == -1:
        raise OSError(ctypes.get_errno(), f"ptrace {request}")


def move(request, process, registers):
    """Takes the registers of a process that is stopped (GET), or gives it these (SET)."""
    place = Place(ctypes.addressof(registers), ctypes.sizeof(registers))
    trace(request, process, GENERAL, ctypes.addressof(place))


def give(registers, place, number, arguments):
    """Registers by which a call is made with these arguments, of which None is this place."""
    # arm64 begins a call again in which it was stopped where it goes on from the same place
    setattr(registers, HERE.code, getattr(registers, HERE.code) + len(HERE.instruction))
    values = dict(zip(HERE.arguments, (place if value is None else value for value in arguments)))
    for name, value in {**HERE.others, **values, HERE.number: number}.items():
        setattr(registers, name, value)


def call(process, number, *arguments, text=b""):
    """A process makes a call of the system, as whoever has taken it over would have it; its answer, or how it ended. A text
    stands on its stack, where an argument is None."""
    # stopped so, it gets no signal that could come in the place of the step
    trace(SEIZE, process)
    trace(INTERRUPT, process)
    os.waitpid(process, 0)
    registers = Registers()
    move(GET, process, registers)
    before = Registers.from_buffer_copy(registers)
    place = (getattr(registers, HERE.stack) - 1024) & ~(WORD - 1)
    padded = text + bytes(WORD - len(text) % WORD)
    for offset in range(0, len(padded), WORD):
        trace(POKE, process, place + offset, int.from_bytes(padded[offset:offset + WORD], "little"))
    give(registers, place, number, arguments)
    with open(f"/proc/{process}/mem", "r+b", buffering=0) as memory:
        at = getattr(registers, HERE.code)
        memory.seek(at)
        code = memory.read(len(HERE.instruction))
        memory.seek(at)
        memory.write(HERE.instruction)
        move(SET, process, registers)
        trace(STEP, process)
        _, status = os.waitpid(process, 0)
        if os.WIFSIGNALED(status):
            return f"killed by {signal.Signals(os.WTERMSIG(status)).name}"
        move(GET, process, registers)
        memory.seek(at)
        memory.write(code)
    move(SET, process, before)
    trace(DETACH, process)
    return ctypes.c_longlong(getattr(registers, HERE.answer)).value


def have_call(process, number, *arguments, text=""):
    """The same by a process of its own, which is no parent of what it traces."""
    words = [sys.executable, os.path.realpath(__file__), json.dumps([process, number, *arguments, text])]
    done = subprocess.run(words, capture_output=True, text=True, check=True)
    return json.loads(done.stdout)


def status_of(process):
    """What the kernel says of a process."""
    lines = read(f"/proc/{process}/status").splitlines()
    return dict(line.split(":\t", 1) for line in lines if ":\t" in line)


def process_of(executable):
    """The one process that runs this file."""
    found = []
    for name in filter(str.isdigit, os.listdir("/proc")):
        with suppress(OSError):
            if os.readlink(f"/proc/{name}/exe") == os.path.realpath(executable):
                found.append(int(name))
    assert len(found) <= 1, found
    return found[0] if found else None


def descriptors_of(process):
    """What the descriptors of a process are."""
    folder = f"/proc/{process}/fd"
    return sorted(os.readlink(os.path.join(folder, name)).split(":")[0] for name in os.listdir(folder))


def reflect(name):
    """A radio: what is sent is shown as sent, which is how a radio acknowledges by its monitor interface."""
    air = socket.socket(socket.AF_PACKET, socket.SOCK_RAW, socket.htons(3))
    air.bind((name, 0))

    def go_on():
        while True:
            frame, address = air.recvfrom(4096)
            if address[2] != socket.PACKET_OUTGOING:
                air.send(frame)
    threading.Thread(target=go_on, daemon=True).start()


def look(parts):
    """What the kernel says of the parts' rights."""
    return {name: {key: status_of(process).get(key) for key in (
        "Uid", "Gid", "Groups", "CapInh", "CapPrm", "CapEff", "CapBnd", "CapAmb", "NoNewPrivs", "Seccomp")}
        | {"descriptors": descriptors_of(process)} for name, process in parts.items()}


def wire_goes(folder):
    """The wire is deleted and made again, and its host's frame comes by it."""
    run("ip", "link", "del", "wire1")
    log = os.path.join(folder, "log")
    wait_for("the end of the wire", SECONDS, lambda: "has ended" in read(log))
    time.sleep(1.5)
    make_wire()
    wait_for("the wire", SECONDS, lambda: "wire1: there, the wire of" in read(log))
    return "there again"


def make_wire():
    """A wire with a host's end."""
    run("ip", "link", "add", "wire1", "type", "veth", "peer", "name", "host1")
    run("ip", "link", "set", "host1", "addrgenmode", "none")
    run("ip", "link", "set", "host1", "up")
    run("ip", "link", "set", "wire1", "addrgenmode", "none")


CASES = {
    "look": lambda parts, folder: look(parts),
    "wire": lambda parts, folder: wire_goes(folder),
    "bridge-runs": lambda parts, folder: have_call(parts["bridge"], EXECVE, None, 0, 0, text="/bin/sh"),
    "bridge-connects": lambda parts, folder: have_call(parts["bridge"], SOCKET, socket.AF_INET, socket.SOCK_STREAM, 0),
    "bridge-writes": lambda parts, folder: have_call(parts["bridge"], OPEN, HERE_FOLDER, None, WRITING, 0o600,
                                                     text=f"{folder}/written"),
    "program-reads-another": lambda parts, folder: have_call(parts["program"], OPEN, HERE_FOLDER, None, os.O_RDONLY, 0,
                                                             text="/etc/passwd"),
    "program-reads-its-own": lambda parts, folder: have_call(parts["program"], OPEN, HERE_FOLDER, None, os.O_RDONLY, 0,
                                                             text=f"{folder}/radio.toml"),
    "program-writes-its-own": lambda parts, folder: have_call(parts["program"], OPEN, HERE_FOLDER, None, os.O_WRONLY, 0,
                                                              text=f"{folder}/radio.toml"),
    "program-connects": lambda parts, folder: have_call(parts["program"], SOCKET, socket.AF_UNIX, socket.SOCK_STREAM, 0),
    "program-runs": lambda parts, folder: have_call(parts["program"], EXECVE, None, 0, 0, text="/bin/sh"),
}


def set_up(folder):
    """The users, the radio and the wire."""
    for path, more in (("/etc/passwd", USERS), ("/etc/group", GROUPS)):
        lines = [line for line in read(path).splitlines(True) if not line.startswith("waltigon")]
        own = os.path.join(folder, os.path.basename(path))
        write(own, "".join(lines) + more, 0o644)
        run("mount", "--bind", own, path)
    run("mount", "-t", "sysfs", "sysfs", "/sys")
    run("ip", "link", "set", "lo", "up")
    run("ip", "link", "add", "mon0", "type", "veth", "peer", "name", "air0")
    for name in ("mon0", "air0"):
        run("ip", "link", "set", name, "addrgenmode", "none", "mtu", "2304")
        run("ip", "link", "set", name, "up")
    reflect("air0")
    make_wire()
    run("ip", "link", "set", "wire1", "up")
    write(os.path.join(folder, "radio.toml"), ONE_NETWORK, 0o644)


class NoRadio(SettingUp):
    """Sets wires up, and no radio."""

    def parts_of(self, plan):
        return [part for part in super().parts_of(plan) if isinstance(part, WirePart)]


def attack(bridge, program, folder, case, found, ended):
    """Waits until frames go, does what the case says, and ends all where nothing has ended it."""
    log = os.path.join(folder, "log")
    try:
        wait_for("the bridge", SECONDS, lambda: ended.is_set() or "networks are on channel" in read(log))
        if ended.is_set():
            return
        parts = {"bridge": process_of(bridge), "program": process_of(program)}
        found["outcome"] = CASES[case](parts, folder)
        time.sleep(0.5)
    except Exception as fault:  # told as what came of it
        found["outcome"] = repr(fault)
    if not ended.is_set():
        os.kill(os.getpid(), signal.SIGINT)


def serve(bridge, program, folder, thread, status=None, patches=()):
    """Serves by the configuration of a folder, with a log there, while a thread does what a case says: the fault that
    ended it, or None. Signals are handled by this thread, as ever."""
    config, wires = os.path.join(folder, "radio.toml"), ((OURS, "wire1"),)
    record, plan = os.path.join(folder, "record"), Plan(read_settings(config), wires)
    wanted = Wanted(config, program, bridge, "phy0", "mon0", wires, record, None, status=status)
    os.dup2(os.open(os.path.join(folder, "log"), os.O_WRONLY | os.O_CREAT | os.O_APPEND, 0o644), 2)
    thread.start()
    with ExitStack() as stack:
        for where, name, value in ((changes, "RUN", os.path.join(folder, "run")), (serving, "SettingUp", NoRadio),
                                   (serving, "check", lambda *_: plan), (serving, "MOST_MEMORY", MEMORY), *patches):
            stack.enter_context(mock.patch.object(where, name, value))
        try:
            serving.serve(wanted)
        except Fault as fault:
            return str(fault)
    return None


def main():
    """Runs the case."""
    if len(sys.argv) == 2:
        *asked, text = json.loads(sys.argv[1])
        print(json.dumps(call(*asked, text=text.encode() + b"\0")))
        return
    bridge, program, folder, case = sys.argv[1:]
    set_up(folder)
    found, ended = {}, threading.Event()
    attacker = threading.Thread(target=attack, args=(bridge, program, folder, case, found, ended))
    found["fault"] = serve(bridge, program, folder, attacker, Endpoint(9617))
    ended.set()
    attacker.join()
    found |= {"left": [name for name, path in (("bridge", bridge), ("program", program)) if process_of(path)],
              "log": read(os.path.join(folder, "log")), "made": sorted(os.listdir(os.path.join(folder, "run"))),
              "record": oct(os.stat(os.path.join(folder, "record")).st_mode & 0o777)}
    print(json.dumps(found))


if __name__ == "__main__":
    main()
