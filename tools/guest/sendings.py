"""Which units go on the air to a station, as another radio hears them: what answers its polls, and in which order units
go for the first time."""
from collections.abc import Iterable
from dataclasses import dataclass

from frames import CONTROL, DATA, NULL, PS_POLL, Frame
from made_up import stamp_of

# The frames of the air, each with its time in seconds.
Heard = Iterable[tuple[float, Frame]]


@dataclass
class Polls:
    """What a station's polls brought: how many polls there were, how many tries of them came before the answer to an
    earlier try, and how many units went that none of the others asked for. Such tries ask for nothing (IEEE Std
    802.11-2016, 11.2.3.6). One that comes behind the answer asks for another unit, since it can't be told from a new
    poll."""

    number: int = 0
    early: int = 0
    unasked: int = 0


def is_unit_for(frame: Frame, station: bytes) -> bool:
    """Whether it is a unit for a station, and no Null frame."""
    return frame.receiver == station and frame.type == DATA and not frame.subtype & NULL


def polls_of(heard: Heard, station: bytes) -> Polls:
    """The polls of a station that dozes, and the units that went to it."""
    found, is_asked, last = Polls(), False, None
    for _, frame in heard:
        if frame.transmitter == station and (frame.type, frame.subtype) == (CONTROL, PS_POLL):
            found.number += not frame.retry
            found.early += is_asked
            is_asked = True
        elif is_unit_for(frame, station) and not (frame.retry and frame.sequence_control == last):
            found.unasked += not is_asked
            is_asked, last = False, frame.sequence_control
    return found


def first_sendings(heard: Heard, station: bytes, port: int) -> list[int]:
    """When the units for a station were sent at the wire, in the order in which each goes on the air for the first
    time."""
    stamps = (stamp_of(frame.body, port) for _, frame in heard if is_unit_for(frame, station))
    return list(dict.fromkeys(stamp for stamp in stamps if stamp is not None))


def difference(one: list[int], other: list[int]) -> int | None:
    """The first place at which two lists differ; None where one is the beginning of the other."""
    return next((place for place, (first, second) in enumerate(zip(one, other)) if first != second), None)
