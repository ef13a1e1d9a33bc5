"""Compiles a program of a checkout without any proof, so that its instructions can be counted within minutes.

The toolchain's `rt try` makes the program's module, with checks in it. Here a stand-in for its compiler keeps that
module and ends `rt try`. Then all checks are taken out, and the hints of inlining that the sources give are set again,
which `rt try` leaves out. It is compiled as the proved program is: for x86-64-v2, by -O3. A look-up of 16 octets at
once, which `rt try` writes out octet by octet, becomes the instruction that the proved program has.
"""
import os
import re
import shutil
import subprocess
import sys
import tempfile
from collections import defaultdict
from typing import NamedTuple

TARGET, PROCESSOR = "x86_64-unknown-linux-gnu", "x86-64-v2"
# The module that `rt try` compiles first, to see whether the compiler works, is smaller, and a program's is larger.
PROBE_OCTETS = 65536
# The stand-in: it keeps the program's module, and compiles nothing after that.
STAND_IN = """#!/bin/bash
[ -s module.bc ] && [ "$(stat -c %s module.bc)" -lt {probe} ] && exec {compiler} "$@"
cp module.bc {kept}
exit 1
"""
# Those by which `rt try` compiles, but for the processor and how much is optimized.
FLAGS = (f"--target={TARGET}", f"-march={PROCESSOR}", "-mllvm", "-no-trap-after-noreturn", "-ffunction-sections",
         "-fdata-sections", "-mllvm", "-trap-unreachable", "-mllvm", "-no-x86-call-frame-opt", "-mllvm",
         "-disable-machine-licm", "-mllvm", "-disable-postra-machine-licm", "-mllvm", "-sink-common-insts=false",
         "--no-default-config", "-no-canonical-prefixes", "-fno-crash-diagnostics", "-fPIE", "-O3")
WORD_OF = {None: "inlinehint", "always": "alwaysinline", "never": "noinline"}
HINT = re.compile(r"\s*#\[inline(?:\((always|never)\))?\]")
FUNCTION = re.compile(r"(\s*)(?:pub(?:\([^)]*\))? )?(?:const )?(?:unsafe )?(?:extern \"C\" )?fn (\w+)")
OWNER = re.compile(r"(?:pub(?:\([^)]*\))? )?(?:unsafe )?(?:impl|trait)\b(.*)")
CHECK = re.compile(r'  call void @"rattle-(?:llvm-checks::|try::site-)|'
                   r"  call void @llvm\.memset\.p0\.i64\(ptr %[\w.]+, i8 -86, ")
DEFINED = re.compile(r'define internal .*?@(?:"([^"]+)"|([\w.$]+))\(')
MASKED = re.compile(r"  %r\d+ = and <16 x i8> (%r\d+), splat \(i8 15\)")
INDEXED = re.compile(r"  %r\d+ = getelementptr i8, ptr (%r\d+), i64 ")
COMPARED = re.compile(r"  (%r\d+) = icmp sge <16 x i8> (%r\d+), zeroinitializer")
SELECTED = re.compile(r"  (%r\d+) = select <16 x i1> (%r\d+), <16 x i8> %r\d+, <16 x i8> zeroinitializer")
LOOK_UP = "@llvm.x86.ssse3.pshuf.b.128"


class Function(NamedTuple):
    """A function of the sources: the modules that it stands in, the names of what it is of, and its hint, as a word of
    the compiler, or nothing."""

    path: tuple[str, ...]
    owner: str
    hint: str | None


def named(text):
    """The name that the toolchain gives a type or a trait in a function's name, as `RefStr` for `&str`."""
    text = text.strip()
    if text.startswith("&"):
        return "Ref" + named(re.sub(r"^&(?:'\w+ )?(?:mut )?", "", text))
    if text.startswith("["):
        return "Slice"
    word = re.split(r"[<( {]", text, maxsplit=1)[0].split("::")[-1]
    return word[:1].upper() + word[1:]


def owner_of(header):
    """The name of what is behind `impl` or `trait`: the type's, and behind it the trait's."""
    depth = 0
    header = header.strip()
    for at, sign in enumerate(header if header.startswith("<") else ""):
        depth += {"<": 1, ">": -1}.get(sign, 0) if header[at - 1:at + 1] != "->" else 0
        if not depth:
            header = header[at + 1:]
            break
    trait, is_of, of = header.partition(" for ")
    return named(of) + named(trait) if is_of else named(trait)


def functions_of(lines, path):
    """The functions of a source file, with their names."""
    hint, owner = None, ""
    for line in lines:
        if found := HINT.match(line):
            hint = WORD_OF[found[1]]
        elif found := OWNER.match(line):
            owner = owner_of(found[1])
        elif found := FUNCTION.match(line):
            yield found[2], Function(path, owner if found[1] else "", hint)
            hint = None


class Hints:
    """The hints of inlining that sources give."""

    def __init__(self):
        self.functions = defaultdict(list)

    def read(self, crate, folder):
        """Takes the sources of a crate in."""
        for place, _, names in os.walk(folder):
            for name in (name for name in names if name.endswith(".rt")):
                file = os.path.join(place, name)
                parts = os.path.relpath(file, folder).removesuffix(".rt").split(os.sep)
                path = (crate, *(parts[:-1] if parts[-1] in ("lib", "main", "mod") else parts))
                with open(file, encoding="utf-8") as lines:
                    for function, found in functions_of(lines, path):
                        self.functions[crate, function].append(found)

    def of(self, name):
        """The hint of a function of the module, by its name: `crate::module::Type::function::<..>`. None where the
        sources have no such function, or several of different hints."""
        *before, function = name.split("::<")[0].split("::")
        path = tuple(word for word in before if word[:1].islower() or word[:1] == "_")
        owner = "".join(before[len(path):])
        found = self.functions.get((path[0] if path else "", function), [])
        closest = ([it for it in found if it.owner == owner],
                   [it for it in found if it.owner and owner.startswith(it.owner)], found)
        for chosen in closest:
            for within in (chosen, [it for it in chosen if it.path == path]):
                if len({it.hint for it in within}) == 1:
                    return within[0].hint
        return None


class LookUp:
    """A look-up of 16 octets in a table of 16, as the lines of the module tell of it."""

    def __init__(self):
        self.places = self.table = self.condition = None

    def take(self, line):
        """The line that stands for this one: the last of a look-up becomes one instruction."""
        if found := MASKED.match(line):
            self.places, self.table = found[1], None
        elif self.places and not self.table and (found := INDEXED.match(line)):
            self.table = found[1]
        elif found := COMPARED.match(line):
            self.condition = found[1] if self.table and found[2] == self.places else None
        elif self.condition and (found := SELECTED.match(line)) and found[2] == self.condition:
            line = (f"  {found[1]}.table = load <16 x i8>, ptr {self.table}, align 1\n  {found[1]} = call <16 x i8> "
                    f"{LOOK_UP}(<16 x i8> {found[1]}.table, <16 x i8> {self.places})\n")
            self.condition = None
        return line


def without_checks(lines, hints):
    """The lines of a module without what `rt try` checks, and with hints."""
    look_up = LookUp()
    for line in lines:
        if CHECK.match(line):
            continue
        if found := DEFINED.match(line):
            hint = hints.of(found[1] or found[2])
            line = re.sub(r"(?= #\d+ \{$)", f" {hint}" if hint else "", line)
        elif line.startswith("attributes"):
            line = line.replace(" sanitize_address", " nounwind", 1).replace("nounwind nounwind", "nounwind")
            line = line.replace(' "frame-pointer"="all"', "").replace('"x86-64"', f'"{PROCESSOR}"')
        yield look_up.take(line)
    yield f"declare <16 x i8> {LOOK_UP}(<16 x i8>, <16 x i8>)\n"


def kit():
    """The toolchain's folder."""
    found = shutil.which("rt")
    if not found:
        sys.exit("the toolchain's command rt is not on the path, and nothing was compiled")
    return os.path.dirname(os.path.dirname(os.path.realpath(found)))


def with_stand_in(folder, kept):
    """The command `rt` of a toolchain in a folder whose compiler keeps the program's module in a file."""
    real, made = kit(), os.path.join(folder, "kit")
    for part in ("", "bin", "toolchain", "toolchain/bin"):
        there, here = os.path.join(real, part), os.path.join(made, part)
        os.makedirs(here, exist_ok=True)
        for name in os.listdir(there):
            file = os.path.join(here, name)
            if name in ("rt", "rtlib.py"):  # which look for the toolchain where they stand
                shutil.copy(os.path.join(there, name), file)
            elif os.path.relpath(file, made) not in ("bin", "toolchain", "toolchain/bin", "toolchain/bin/clang"):
                os.symlink(os.path.join(there, name), file)
    stand_in = os.path.join(made, "toolchain", "bin", "clang")
    with open(stand_in, "w", encoding="utf-8") as file:
        file.write(STAND_IN.format(probe=PROBE_OCTETS, compiler=os.path.join(real, "toolchain/bin/clang"), kept=kept))
    os.chmod(stand_in, 0o755)
    return os.path.join(made, "bin", "rt")


def hints_of(checkout):
    """The hints of a checkout's crates, and of the toolchain's libraries."""
    hints, libraries = Hints(), os.path.join(kit(), "rattle")
    crates = os.path.join(checkout, "crates")
    for folder in (crates, libraries):
        for crate in os.listdir(folder):
            if os.path.isdir(os.path.join(folder, crate, "src")):
                hints.read(crate, os.path.join(folder, crate, "src"))
    return hints


def compile_module(module, hints, program):
    """Compiles a module that `rt try` made, and links it."""
    tools, text, made = os.path.join(kit(), "toolchain"), module + ".ll", module + ".o"
    compiler = [os.path.join(tools, "bin", "clang"), f"--sysroot={tools}", "-x", "ir"]
    subprocess.run([*compiler, f"--target={TARGET}", "-S", "-emit-llvm", "-Xclang", "-disable-llvm-passes", module,
                    "-o", text + ".checked"], check=True)
    with open(text + ".checked", encoding="utf-8") as lines, open(text, "w", encoding="utf-8") as file:
        file.writelines(without_checks(lines, hints))
    subprocess.run([*compiler, *FLAGS, "-c", text, "-o", made], check=True)
    libraries = [os.path.join(kit(), "c", name) for name in ("libos_c.a", "liblibc_c.a")]
    subprocess.run([os.path.join(kit(), "bin", "rattle-link"), "--target", TARGET, "--toolchain", tools, "-o", program,
                    made, *libraries], check=True, stdout=subprocess.DEVNULL, stderr=subprocess.DEVNULL)


def compile_unproved(checkout, crate, program):
    """Compiles the program of a crate of a checkout without any proof. Ends the script where that can't be done."""
    with tempfile.TemporaryDirectory(prefix="unproved-") as folder:
        kept = os.path.join(folder, "kept.bc")
        said = subprocess.run([with_stand_in(folder, kept), "try"], cwd=os.path.join(checkout, "crates", crate),
                              stdin=subprocess.DEVNULL, capture_output=True, text=True, check=False)
        if not os.path.exists(kept):
            sys.exit(f"{checkout}: {crate} was not compiled: {said.stderr or said.stdout}")
        compile_module(kept, hints_of(checkout), program)
