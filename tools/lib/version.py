"""Which program this is: the word `--version` of each tool, and of scripts by way of words.sh. It tells what stands
beside the program in build/apctl.origin, which .ci/origin writes, and in a checkout whether its sources have changed.
"""
import argparse
import hashlib
import os
import subprocess

VERSION = "0.9.0"
ROOT = os.path.dirname(os.path.dirname(os.path.dirname(os.path.realpath(__file__))))
PROGRAM = os.path.join(ROOT, "build", "apctl")
LOOKS = os.path.join(ROOT, ".ci", "origin")


class TellVersion(argparse.Action):
    """The word `--version` among those of a tool."""

    def __init__(self, option_strings, dest, **_):
        super().__init__(option_strings, dest, nargs=0, help="tell of which commit the program is, and end")

    def __call__(self, parser, *_):
        print(version_text())
        parser.exit()


def read_origin():
    """What stands beside the program, by the first word of each line."""
    try:
        with open(f"{PROGRAM}.origin", encoding="utf-8") as file:
            return dict(line.rstrip("\n").partition(" ")[::2] for line in file)
    except OSError:
        return {}


def is_of(told):
    """Whether the program is the one that is told of."""
    with open(PROGRAM, "rb") as file:
        return hashlib.sha256(file.read()).hexdigest() == told.get("program")


def commit_text(told):
    """A commit as people read it."""
    commit, _, changed = told.partition(" ")
    return f"commit {commit}{', with changes' if changed else ''}"


def program_text(told):
    """Of which commit the program is."""
    if not os.path.exists(PROGRAM):
        return "apctl isn't built"
    if not is_of(told):
        return "apctl: of which commit it is isn't known"
    return f"apctl of {commit_text(told['commit'])}, proved and built {told['built']}\nwith {told['toolchain']}"


def version_text():
    """What `--version` tells."""
    told = read_origin()
    lines = [f"waltigon {VERSION}", program_text(told)]
    if "tools" in told:
        lines.append(f"tools of {commit_text(told['tools'])}")
    if os.access(LOOKS, os.X_OK) and os.path.exists(PROGRAM):
        looked = subprocess.run([LOOKS, "check"], capture_output=True, text=True, check=False)
        lines += [looked.stdout.strip()] if looked.returncode else []
    return "\n".join(lines)


if __name__ == "__main__":
    print(version_text())
