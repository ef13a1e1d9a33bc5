"""The socket by which a bridge that runs is asked, from both sides: made for the bridge, and asked for a person."""
import glob
import json
import os
import socket
from contextlib import ExitStack

from live import changes
from live.faults import Fault
from status.asking import SECONDS, answer_of
from status.document import printable


def socket_path(phy: str) -> str:
    """Where the bridge of a radio is asked."""
    return os.path.join(changes.RUN, f"{phy}.sock")


def listen(phy: str, group: int, stack: ExitStack) -> socket.socket:
    """A socket that listens there, in place of one that an earlier start left; it goes in the end. Besides root this
    group alone may connect, that of the page that shows what is going on; only root may ask for more."""
    path = socket_path(phy)
    if os.path.lexists(path):
        os.unlink(path)
    listening = socket.socket(socket.AF_UNIX, socket.SOCK_STREAM | socket.SOCK_CLOEXEC)
    stack.callback(listening.close)
    mask, before = os.umask(0o117), os.getegid()
    try:
        os.setegid(group)  # whose the socket is then: giving it away would take another right
        listening.bind(path)
    finally:
        os.setegid(before)
        os.umask(mask)
    stack.callback(os.unlink, path)
    listening.listen()
    return listening


def sole_phy() -> str:
    """The radio of the one bridge that runs."""
    found = [os.path.basename(path).removesuffix(".sock") for path in sorted(glob.glob(socket_path("*")))]
    if not found:
        raise Fault(f"no bridge runs: there is no {socket_path('PHY')}")
    if len(found) > 1:
        raise Fault(f"bridges run for {', '.join(found)}: say which by --phy")
    return found[0]


def ask(phy: str | None, question: str) -> dict:
    """What a bridge that runs answers to a question; its error is a fault."""
    path = socket_path(phy or sole_phy())
    try:
        answer = json.loads(answer_of(path, question))
    except TimeoutError:
        raise Fault(f"{path}: no answer within {SECONDS:.0f} seconds") from None
    except (OSError, ValueError) as fault:
        raise Fault(f"{path}: no bridge answers: {fault}") from None
    if not isinstance(answer, dict):
        raise Fault(f"{path}: no bridge answers: its answer is no object")
    if "error" in answer:
        raise Fault(printable(str(answer["error"])))
    return answer
