"""The records of `apctl live --octets` (docs/FORMATS.md, "Lines as they come"), and the lines that say the same."""
import re

NOBODY = bytes(6)
HEADER_LEN = 9
OPEN, TOLD = b"O", b"N"
WORDS = {b"A": "air", b"W": "wire"}


def record(kind, bssid=NOBODY, octets=b""):
    """A record: its kind, a BSSID, how many octets follow, the low one first, and these."""
    return kind + bssid + len(octets).to_bytes(2, "little") + octets


def cut(octets):
    """Octets as records, one after the other, each with what stands before its octets; and what has begun of one."""
    found, place = [], 0
    while len(octets) - place >= HEADER_LEN:
        end = place + HEADER_LEN + int.from_bytes(octets[place + 7:place + HEADER_LEN], "little")
        if end > len(octets):
            break
        found.append(octets[place:end])
        place = end
    return found, octets[place:]


def parts(whole):
    """The kind, the BSSID and the octets of a record."""
    return whole[:1], whole[1:7], whole[HEADER_LEN:]


def text_of(address):
    """An address, as people read it."""
    return ":".join(f"{octet:02x}" for octet in address)


def as_lines(octets):
    """What was written as records, as the lines that say the same. What no record may be is told by a line of its
    own."""
    whole, rest = cut(octets)
    return [as_line(*parts(one)) for one in whole] + ([f"cut {rest!r}"] if rest else [])


def as_line(kind, bssid, octets):
    """The line that says what a record of the program says."""
    if kind == OPEN and bssid[:5] == NOBODY[:5] and not octets:
        return f"ok {bssid[5]}"
    if kind in WORDS:
        return f"{WORDS[kind]} {text_of(bssid)} {octets.hex()}"
    if kind == TOLD and bssid == NOBODY and octets.endswith(b"\n") and octets.count(b"\n") == 1:
        return re.sub(r"^(fault \S+) record ", r"\1 line ", octets.decode().rstrip("\n"))
    return f"unknown {kind!r} {bssid.hex()} {octets!r}"


def as_record(line):
    """The record that says what a line of text says, taken without what ends it, which has no fault or one that
    records have too."""
    word, _, text = line.partition(" ")
    if word == "A":
        return record(b"A", NOBODY, bytes.fromhex(text))
    if word == "W":
        bssid, _, frame = text.strip().partition(" ")
        return record(b"W", bytes.fromhex(bssid.replace(":", "")), bytes.fromhex(frame))
    return record(word.encode())
