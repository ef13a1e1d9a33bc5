"""Why a frame did nothing or was refused."""
from dataclasses import dataclass
from typing import NamedTuple

Span = tuple[int, int]


class Lack(NamedTuple):
    """A station that a network doesn't know, or has not associated."""

    bssid: bytes
    station: bytes
    is_associated: bool


@dataclass(frozen=True)
class Reason:
    """The reason, the octets of the frame that it is about (the first, and the one after the last), what would have
    done something, and which station a network doesn't have, where a later line may bring it."""

    text: str
    span: Span | None = None
    advice: str | None = None
    lacks: "Lack | None" = None
