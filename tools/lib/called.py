"""How a tool names itself, its fellows, the program and the documents: itself by the name that it was called by, the
others as `tools/live` and `build/apctl` in a checkout, and as `waltigon-live` and `apctl` where all is installed."""
import os
import re
import sys

TOP = os.path.dirname(os.path.dirname(os.path.dirname(os.path.realpath(__file__))))
DOCUMENTS = os.path.join("..", "..", "share", "doc", "waltigon")  # from there, where it is installed


def is_installed() -> bool:
    """Whether this tool is one that share/install has put in its place."""
    return not os.path.exists(os.path.join(TOP, "Makefile"))


def name() -> str:
    """The name by which this tool was called."""
    return os.path.basename(sys.argv[0])


def fellow(tool: str) -> str:
    """What a person types for another tool."""
    return f"waltigon-{tool}" if is_installed() else f"tools/{tool}"


def program() -> str:
    """What a person types for the program."""
    return "apctl" if is_installed() else "build/apctl"


def bridge() -> str:
    """Where the bridge is."""
    return "the one that is installed" if is_installed() else "build/bridge/release/bridge"


def program_comes() -> str:
    """Where the program comes from, for who has none."""
    return "install Waltigon anew" if is_installed() else "`make apctl` builds it"


def document(file: str, folder: str = "docs") -> str:
    """Where a document of a folder is."""
    return os.path.normpath(os.path.join(TOP, DOCUMENTS, folder, file)) if is_installed() else f"{folder}/{file}"


def helped(text: str) -> str:
    """A text of help in which each document stands with the place where it is."""
    return re.sub(r"\bdocs/(\w+\.md)", lambda found: document(found[1]), text)
