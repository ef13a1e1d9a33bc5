"""Which captured frames become lines of a trace: what an access point heard, what came over its wires, and its beacon
intervals."""
from collections import Counter
from fractions import Fraction
from typing import NamedTuple

from captures.files import FCS_LEN, ends_with_fcs
from frames import BEACON, BROADCAST, CONTROL, HEADER_LEN, PS_POLL, TIME_UNIT, Frame, address_text

LEAST, MOST = 10, 4096
WIRED_ADDRESSES = 12
MISSED = "with a wrong frame check sequence, or damaged"
CUT = "cut by the capture"
SHORT = f"of fewer than {LEAST} octets"
LONG = f"of more than {MOST} octets"
CONTROLS = "control frames other than PS-Poll"
OWN = "sent by the access point itself"
AGAIN = "sent again, with the sequence number that came before"
AMSDU = "with several units in one (A-MSDU)"
OTHERS = "for a receiver that is no network here"
PASSED_ON = "passed on by the access point, from a station on the air"


class Entry(NamedTuple):
    """A line of a trace to be, with its time in seconds; ticks come before frames of the same time. `origin` says which
    captured frame it is."""

    time: object
    rank: int
    text: str
    origin: str

    def remark(self, first):
        """The remark that tells where the line came from; `first` is the time of the capture's first frame."""
        return f"# {self.origin}, {float(self.time - first):.3f} s"


class Came(NamedTuple):
    """A captured frame that is looked at: its time in seconds, and its number in its file."""

    time: object
    frame: Frame
    number: int


class AirCapture:
    """What one capture in monitor mode gives: frames of others, beacons of the access point, and what was left out."""

    def __init__(self, fcs):
        self.fcs = fcs
        self.left_out = Counter()
        self.notes = Counter()
        self.count = 0
        self.heard = []
        self.own_beacons = []
        self.last = {}

    def take(self, frames, networks, heard_only):
        """Sorts the frames of a capture, of which `networks` are the access point's addresses."""
        frames = list(frames)
        assumed = has_fcs(frames, self.fcs)
        for frame in frames:
            self.count += 1
            octets, reason = whole_frame(frame, self.fcs, assumed)
            came = Came(frame.time, Frame(octets), frame.number)
            reason = reason or self.reason(came, networks, heard_only)
            if reason:
                self.left_out[reason] += 1
            else:
                self.heard.append(came)
                self.note(came.frame)

    def reason(self, came, networks, heard_only):
        """Why a frame is left out, or None."""
        frame = came.frame
        if frame.type == CONTROL and frame.subtype != PS_POLL:
            return CONTROLS
        if frame.transmitter in networks:
            if frame.is_management(BEACON):
                self.own_beacons.append(came)
            return OWN
        if self.is_repeated(frame):
            return AGAIN
        if (frame.qos_control() or 0) & 0x80:
            return AMSDU
        if heard_only and frame.receiver not in networks and frame.receiver != BROADCAST:
            return OTHERS
        return None

    def is_repeated(self, frame):
        """Whether it was sent again, and what came before it was captured too (10.3.2.11)."""
        if frame.type == CONTROL or len(frame.octets) < HEADER_LEN:
            return False
        key = frame.transmitter, frame.receiver, (frame.qos_control() or 0) & 0xF if frame.is_qos else None
        before, self.last[key] = self.last.get(key), frame.sequence_control
        return frame.retry and before == frame.sequence_control

    def note(self, frame):
        """Counts what stays in the trace and can't be read by the program."""
        if frame.is_qos:
            self.notes["QoS data frames"] += 1
        if frame.protected:
            self.notes["encrypted frames"] += 1


def has_fcs(frames, fcs):
    """Whether frames of which the capture doesn't say it end with a check sequence: by most of them."""
    if fcs != "auto":
        return fcs == "yes"
    silent = [frame.octets for frame in frames if frame.has_fcs is None and frame.is_whole]
    return 2 * sum(map(ends_with_fcs, silent)) > len(silent)


def whole_frame(frame, fcs, assumed):
    """The octets of a frame without its check sequence, and why it is left out, or None."""
    ends = assumed if frame.has_fcs is None or fcs != "auto" else frame.has_fcs
    octets = frame.octets
    if not frame.is_whole:
        return octets, CUT
    if frame.is_damaged or ends and not ends_with_fcs(octets):
        return octets, MISSED
    if ends:
        octets = octets[:-FCS_LEN]
    if len(octets) < LEAST:
        return octets, SHORT
    return octets, LONG if len(octets) > MOST else None


class WireCapture:
    """What one capture of a wired port gives: what came over the wire to a network, and what was left out."""

    def __init__(self, bssid):
        self.bssid = bssid
        self.left_out = Counter()
        self.count = 0
        self.came = []

    def take(self, frames, whereabouts):
        """Sorts the frames of a capture; `whereabouts` tells from which network a station was heard last."""
        for frame in frames:
            self.count += 1
            reason = self.reason(frame, whereabouts)
            if reason:
                self.left_out[reason] += 1
            else:
                self.came.append(frame)

    def reason(self, frame, whereabouts):
        """Why a frame is left out, or None."""
        if not frame.is_whole:
            return CUT
        if len(frame.octets) > MOST:
            return LONG
        if len(frame.octets) < WIRED_ADDRESSES:
            return None
        source = frame.octets[6:12]
        if source == self.bssid:
            return OWN
        return PASSED_ON if whereabouts.network(source, frame.time) == self.bssid else None


class Whereabouts:
    """To which network each station sent last, at each time."""

    def __init__(self, heard, networks):
        self.moves = {}
        for time, frame, _ in heard:
            if frame.receiver in networks and frame.type != CONTROL:
                moves = self.moves.setdefault(frame.transmitter, [])
                if not moves or moves[-1][1] != frame.receiver:
                    moves.append((time, frame.receiver))

    def network(self, station, time):
        """The network to which a station had sent last by this time, or None."""
        return next((bssid for begun, bssid in reversed(self.moves.get(station, ())) if begun <= time), None)


def beacon_ticks(times, interval):
    """The beginning of each beacon interval, by the times of one network's beacons: each of them, and so many between
    two as intervals of so many time units passed; and how many of them had no beacon."""
    length = interval_length(interval)
    ticks, missed = [], 0
    for time in times:
        if ticks:
            steps = max(1, round((time - ticks[-1]) / length))
            ticks += [time - (steps - step) * length for step in range(1, steps)]
            missed += steps - 1
        ticks.append(time)
    return ticks, missed


def even_ticks(first, last, interval):
    """The beginning of each beacon interval of so many time units, from the first frame to the last."""
    length = interval_length(interval)
    return [first + step * length for step in range(int((last - first) / length) + 1)]


def interval_length(interval):
    """Seconds of a beacon interval of so many time units."""
    return Fraction(interval * TIME_UNIT, 1_000_000)


def air_line(frame):
    """A line `A`, with spaces between the fields."""
    octets = frame.octets
    cuts = [0, 2, 4, 10, 16] if frame.type == CONTROL else [0, 4, 10, 16, 22, 24]
    words = [octets[begin:end].hex() for begin, end in zip(cuts, cuts[1:] + [len(octets)])]
    return " ".join(["A", *filter(None, words)])


def wire_line(bssid, octets):
    """A line `W`, with spaces between the fields."""
    words = [octets[:6], octets[6:12], octets[12:14], octets[14:]]
    return " ".join(["W", address_text(bssid), *(word.hex() for word in words if word)])
