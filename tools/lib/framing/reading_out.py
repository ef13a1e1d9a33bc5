"""What a frame says, field by field, and what networks make of it."""
import re
from collections.abc import Iterable, Iterator

import called
from explaining.reason import Reason
from explaining.repairs import DURATION, repaired
from explaining.unheard import unheard
from explaining.unread import unread, wired_unread
from fields import Field, fields_on_air, fields_on_wire
from framing.networks import Network, Networks
from framing.words import words_of, words_of_wired
from frames import BROADCAST, address_of
from in_words import heard_text, sent_text, wired_text
from reading import hears, unread_kind, wired_unread_kind
from writing import KINDS, NOBODY, WIRED, wanted_of

# The words before the digits in a trace, in a report, and in what `live` answers.
HEARD, WIRE, SENT, SENT_ON_WIRE, TICK = "A", "W", "air", "wire", "T"
KINDS_TEXT = ", ".join(KINDS)
ADDRESS = re.compile("[0-9A-Fa-f]{2}(?::[0-9A-Fa-f]{2}){5}")
MOST_DIGITS = 32  # shown of one field


class NoFrame(Exception):
    """Words that are no frame."""


def lines_for(words: list[str], networks: Networks) -> list[str]:
    """The lines for a frame that stands in these words."""
    listed = " ".join(words).split()
    word = listed.pop(0) if listed and listed[0] in (HEARD, WIRE, SENT, SENT_ON_WIRE) else HEARD
    bssid = address_of(listed.pop(0)) if listed and ADDRESS.fullmatch(listed[0]) else None
    octets = octets_of("".join(listed))
    if word in (WIRE, SENT_ON_WIRE):
        return [*table(fields_on_wire(octets)), *wired_lines(octets, bssid, word)]
    told = [*table(fields_on_air(octets))]
    if word == SENT:
        return told + [f"{sent_text(octets)}, which a network sent"]
    return told + list(read_lines(octets, networks.listed or [likely_network(octets)])) + written_lines(octets)


def octets_of(digits: str) -> bytes:
    """The octets of digits. NoFrame where they are none."""
    stray = re.search("[^0-9A-Fa-f]", digits)
    if digits == TICK:
        raise NoFrame("a line `T` has no frame: it begins a beacon interval in every network")
    if stray and ADDRESS.search(digits):
        raise NoFrame(f"no frame begins so; KIND STATION NETWORK writes one, where KIND is {KINDS_TEXT}, and `{WIRED}` "
                      "for a line `W`")
    if stray:
        raise NoFrame(f"`{stray[0]}` is no hexadecimal digit, nor is a word before it one of a trace or a report")
    if not digits or len(digits) % 2:
        raise NoFrame(f"{len(digits)} digits: each octet has two, and a frame has octets")
    return bytes.fromhex(digits)


def table(fields: Iterable[Field]) -> list[str]:
    """The fields, each with its octets."""
    rows = [(field.octets.hex(), field.name, field.meaning) for field in fields]
    width = min(MOST_DIGITS, max((len(digits) for digits, _, _ in rows), default=0))
    return [f"{part:<{width}}  {name + ': ' + meaning if meaning else name}" if not place else part
            for digits, name, meaning in rows
            for place, part in enumerate(re.findall(f".{{1,{MOST_DIGITS}}}", digits))]


def likely_network(octets: bytes) -> Network:
    """The network that a frame is to, where no configuration says which there are: one that can read it, or could
    after a change; else that of Address 1."""
    named, shifted = [[part for part in parts if len(part) == len(NOBODY) and not part[0] & 1]
                      for parts in ((octets[4:10], octets[16:22]), (octets[2:8],))]
    reading = [part for part in named if hears(part, octets) and unread_kind(part, octets) is None]
    mending = [part for part in shifted + named if octets[2:4] != DURATION and not hears(part, octets) and
               repaired(part, octets)]
    return Network(next(iter(reading + mending + named), NOBODY), None)


def read_lines(octets: bytes, networks: list[Network]) -> Iterator[str]:
    """What each network makes of a frame that it hears."""
    hearing = [network for network in networks if hears(network.bssid, octets)]
    for network in hearing:
        who = "a network" if network.bssid == NOBODY else network.name
        reason = unread(network.bssid, octets)
        if reason is None:
            yield f"{who} reads it: {heard_text(octets)}"
        else:
            yield from reason_lines(f"{who} can't read it ({unread_kind(network.bssid, octets)})", reason)
    if not hearing:
        reason = unheard(octets, {network.bssid: network.name for network in networks})
        yield from reason_lines("no network takes it", reason or Reason(
            "Address 1 is neither a network's BSSID nor all" + (f" ({BROADCAST.hex()})")))


def reason_lines(what: str, reason: Reason) -> list[str]:
    """A reason, the octets that it is about, and what to write."""
    return [f"{what}: {reason.text}"] + [f"  {reason.advice}"] * (reason.advice is not None)


def written_lines(octets: bytes) -> list[str]:
    """The words that write it."""
    frame = wanted_of(octets)
    return [f"written by: {called.fellow('frame')} {words_of(frame)}"] if frame else []


def wired_lines(octets: bytes, bssid: bytes | None, word: str) -> list[str]:
    """What a network makes of a frame of its wire."""
    if word == SENT_ON_WIRE:
        return [f"{wired_text(octets)}, which a network put on its wire"]
    reason = wired_unread(bssid or NOBODY, octets)
    if reason is None:
        by = [f"written by: {called.fellow('frame')} {words_of_wired(bssid, octets)}"] if bssid else []
        return [f"a network reads it: {wired_text(octets)}", *by]
    return reason_lines(f"a network can't read it ({wired_unread_kind(octets)})", reason)
