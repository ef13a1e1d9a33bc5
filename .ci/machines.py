"""For which machines is built, and by what. ARCH in the environment is Debian's name of one; without it that is the
machine on which this runs. What is built for another one stands in folders of its name: build/ARCH, and
crates/NAME/out/ARCH.

The toolchain compiles for both, and has a C library and a few calls of it for x86-64 alone. For arm64 the former is
Debian's for cross-building, and the latter are tools/c_calls.
"""
import contextlib
import os
import subprocess
import sys
from typing import NamedTuple

ROOT = os.path.dirname(os.path.dirname(os.path.abspath(__file__)))


class Machine(NamedTuple):
    """What is built for: Debian's name of it, and the compiler's."""
    arch: str
    target: str


AMD64 = Machine("amd64", "x86_64-unknown-linux-gnu")
ARM64 = Machine("arm64", "aarch64-unknown-linux-gnu")
# By what the kernel calls each.
MACHINES = {"x86_64": AMD64, "aarch64": ARM64}
# What the linker takes of the toolchain for its own machine: its folder, and the calls of C.
TOOLS, CALLS = "toolchain", ("c/libos_c.a", "c/liblibc_c.a")
# Of these the way to the C library's memory.
MEMORY = {AMD64: CALLS[-1], ARM64: "libc_calls.a"}
# The same for arm64: the toolchain's commands, and what Debian has in each of these folders.
COMMANDS = ("clang", "ld.lld", "llvm-ar")
CROSS = {"/usr/aarch64-linux-gnu/lib": ("Scrt1.o", "crti.o", "crtn.o", "libc_nonshared.a", "libc.so.6", "libm.so.6",
                                        "ld-linux-aarch64.so.1", "libgcc_s.so.1"),
         "/usr/lib/gcc-cross/aarch64-linux-gnu/{}": ("crtbeginS.o", "crtendS.o", "libgcc.a")}
CROSS_PACKAGES = "gcc-aarch64-linux-gnu, libc6-dev-arm64-cross and libstd-rust-dev:arm64"


def own():
    """The machine on which this runs, or None where nothing is built for it."""
    return MACHINES.get(os.uname().machine)


def wanted():
    """What is built for. Where that can't be, this ends."""
    arch, here = os.environ.get("ARCH") or (own() or AMD64).arch, own()
    known = {it.arch: it for it in MACHINES.values()}
    fault = None
    if arch not in known:
        fault = f"there is no ARCH {arch}; there are {', '.join(known)}"
    elif known[arch] not in (here, ARM64):
        fault = f"for {arch} is built on {arch} alone"
    if fault:
        print(f"{sys.argv[0]}: {fault}, and nothing was begun", file=sys.stderr)
        sys.exit(2)
    return known[arch]


def below(folder, machine):
    """Where what is built for a machine stands in a folder."""
    return folder if machine == own() else os.path.join(folder, machine.arch)


def built(machine):
    """Where the program and the bridge stand."""
    return below(os.path.join(ROOT, "build"), machine)


def installed_libraries(machine):
    """Where the package libwaltigon-dev has proved libraries."""
    return os.path.join("/usr/lib", machine.target.replace("-unknown", ""), "waltigon")


def cross_folders():
    """Debian's folder of the newest compiler for arm64, and that of its C library, with the names of what is taken."""
    found = {}
    for folder, names in CROSS.items():
        top, place = os.path.split(folder)
        with contextlib.suppress(FileNotFoundError):
            newest = max(filter(str.isdigit, os.listdir(top)), key=int, default="") if place == "{}" else place
            found[os.path.join(top, newest)] = names
    return found


def link(target, path):
    """Makes a link, in place of what is there."""
    with contextlib.suppress(FileNotFoundError):
        os.remove(path)
    os.symlink(target, path)


def tools_for(machine, kit):
    """The folder of what compiles and links, of a toolchain's folder. Where it can't be had, this ends."""
    if machine == AMD64:
        return os.path.join(kit, TOOLS)
    tools = os.path.join(built(machine), TOOLS)
    files = {os.path.join(tools, "bin", it): os.path.join(kit, TOOLS, "bin", it) for it in COMMANDS}
    for folder, names in cross_folders().items():
        files |= {os.path.join(tools, "lib", it): os.path.join(folder, it) for it in names}
    missing = [it for it in files.values() if not os.path.exists(it)]
    if missing or len(files) != len(COMMANDS) + sum(map(len, CROSS.values())):
        sys.exit(f"{sys.argv[0]}: {(missing or [*CROSS])[0]} is missing: Debian's packages {CROSS_PACKAGES} have what "
                 "building for arm64 takes, once `dpkg --add-architecture arm64` was said")
    for place in ("bin", "lib"):
        os.makedirs(os.path.join(tools, place), exist_ok=True)
    for path, target in files.items():
        link(target, path)
    return tools


def calls_for(machine, kit):
    """The static libraries of the calls of C that proved code makes. Where they can't be built, this ends."""
    if machine == AMD64:
        return [os.path.join(kit, it) for it in CALLS]
    calls = os.path.join(built(machine), MEMORY[machine])
    words = [os.path.join(ROOT, "tools", "c_calls", "build")]
    if subprocess.run(words, env={**os.environ, "ARCH": machine.arch}, stdout=sys.stderr, check=False).returncode:
        sys.exit(f"{sys.argv[0]}: {calls} isn't built")
    return [calls]


def main():
    """Tells scripts in bash what is built for: Debian's name, the compiler's, the folder, and whether this is it."""
    machine = wanted()
    print(*machine, built(machine), "own" if machine == own() else "other")


if __name__ == "__main__":
    main()
