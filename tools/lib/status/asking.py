"""Asks the bridge of a running access point for its status, over its socket: a line of ASCII for each question, and a
line of JSON for each answer."""
import json
import socket
import time

from status.document import Untold

SECONDS = 5.0
QUESTION = "status"
MOST_ANSWER = 1 << 26
PIECE = 1 << 16


def status_of(path: str) -> dict:
    """The status document of the bridge whose socket is at this path; Untold where it gives none in time."""
    try:
        answer = json.loads(answer_of(path))
    except TimeoutError:
        raise Untold("the bridge doesn't answer") from None
    except (FileNotFoundError, ConnectionRefusedError):
        raise Untold(f"no access point runs at {path}") from None
    except OSError as fault:
        raise Untold(f"{path}: {fault.strerror}") from None
    except ValueError:
        raise Untold("the answer of the bridge isn't whole") from None
    if not isinstance(answer, dict) or "error" in answer:
        raise Untold(f"the bridge says: {answer['error'] if isinstance(answer, dict) else answer}")
    return answer


def answer_of(path: str, question: str = QUESTION) -> bytes:
    """The line that the bridge answers to a question, or as much of it as came before it closed. Neither its time nor its
    length is more than an answer's: a stranger may have taken the bridge over."""
    until = time.monotonic() + SECONDS
    answer = bytearray()
    with socket.socket(socket.AF_UNIX) as bridge:
        bridge.settimeout(SECONDS)
        bridge.connect(path)
        bridge.sendall(f"{question}\n".encode())
        while not answer.endswith(b"\n") and len(answer) < MOST_ANSWER:
            bridge.settimeout(max(0.001, until - time.monotonic()))
            piece = bridge.recv(PIECE)
            if not piece:
                break
            answer += piece
    return bytes(answer)
