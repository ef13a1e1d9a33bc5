"""The wrong bodies of wrong/NAME.toml: a table of arrays, with a name for each body and its edits in their order."""
import os
import re
import tomllib
from typing import NamedTuple

ROOT = os.path.dirname(os.path.dirname(os.path.abspath(__file__)))
NAME = re.compile(r"[a-z0-9_]+")
PATH = re.compile(r"(src|specs|proofs)/[A-Za-z0-9_/-]+\.(rt|antt)")
# How many wrong bodies one check may try.
BODIES_OF_A_CHECK = 16


class Edit(NamedTuple):
    """In this file of the crate the old text, which stands there once, becomes the new one. Where it turns a definition
    it may name the law that has to refuse it, by its home."""
    file: str
    old: str
    new: str
    law: str = ""


class NotApplied(Exception):
    """Why a body can't be put in."""


def read(path):
    with open(path, encoding="utf-8") as file:
        return file.read()


def crates():
    """The names of the crates of crates.txt."""
    lines = [line.partition("#")[0] for line in read(f"{ROOT}/crates.txt").splitlines()]
    return [line.partition(":")[0].split()[0] for line in lines if ":" in line]


def bodies_of(crate):
    """The wrong bodies of a crate by their names, each a list of edits; none where it has no file."""
    path = f"{ROOT}/wrong/{crate}.toml"
    if not os.path.isfile(path):
        return {}
    made = {}
    for name, edits in tomllib.loads(read(path)).items():
        if not NAME.fullmatch(name):
            raise NotApplied(f"{name}: no name of a body")
        if not isinstance(edits, list) or not all({*edit} - {"law"} == {"file", "old", "new"} for edit in edits):
            raise NotApplied(f"{name}: not a list of edits, each with file, old and new, and perhaps a law")
        made[name] = [Edit(**edit) for edit in edits]
    return made


def applied(edits, folder):
    """What the files of a crate hold before these edits and after them, two dictionaries by path. Refuses, by
    `NotApplied`, an edit whose file isn't there, whose old text doesn't stand there once, or that changes nothing."""
    were, texts = {}, {}
    for file, old, new, _ in edits:
        path = f"{folder}/{file}"
        if not PATH.fullmatch(file):
            raise NotApplied(f"{file} is no file of src/, specs/ or proofs/")
        if not os.path.isfile(path):
            raise NotApplied(f"there is no {file}")
        if path not in texts:
            were[path] = texts[path] = read(path)
        if texts[path].count(old) != 1:
            raise NotApplied(f"this stands {texts[path].count(old)} times in {file}: {old}")
        if new == old:
            raise NotApplied(f"the new text is the old one: {old}")
        texts[path] = texts[path].replace(old, new)
    return were, texts


def of_gate():
    """The wrong bodies that the gate tries, by crate: those that wrong/gate.txt names, where a line that begins with a
    space goes on with the crate before. Refuses, by `NotApplied`, a name that stands in no file here."""
    wanted, crate = {}, ""
    for line in read(f"{ROOT}/wrong/gate.txt").splitlines():
        line = line.partition("#")[0]
        names = line.split()
        if names and not line.startswith(" "):
            crate = names.pop(0).removesuffix(":")
        bodies = bodies_of(crate)
        unknown = [name for name in names if name not in bodies]
        if unknown:
            raise NotApplied(f"{crate} has no wrong body {unknown[0]}")
        wanted.setdefault(crate, {}).update({name: bodies[name] for name in names})
    return {crate: wanted[crate] for crate in crates() if wanted.get(crate)}
