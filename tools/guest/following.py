"""What goes on the air behind beacons, as another radio hears it: when the units for the group come that a DTIM beacon
tells of, what goes before them, and how even the intervals of beacons are."""
import statistics
from dataclasses import dataclass, field

from frames import BEACON, BEACON_FIXED_LEN, DATA, NULL, TIM, Frame, elements, first_of, is_group, tim_bits

# The frames of the air, each with its time in seconds.
Heard = list[tuple[float, Frame]]


@dataclass
class Following:
    """What followed one DTIM beacon that tells of units for the group, up to the last of these that was heard. The last
    one of all has More Data 0."""

    beacon: float
    last: float | None = None
    is_whole: bool = False
    # The units for single stations of this network that went before it, by their sequence control: a try isn't a unit.
    before: set[int] = field(default_factory=set)
    gone: set[int] = field(default_factory=set)

    def take(self, moment: float, frame: Frame) -> None:
        """A unit of this network came."""
        if is_group(frame.receiver):
            self.last, self.is_whole, self.before = moment, not frame.more_data, set(self.gone)
        else:
            self.gone.add(frame.sequence_control)

    @property
    def wait(self) -> float:
        """How long after its beacon the last one came, in milliseconds."""
        return 1000 * ((self.last or self.beacon) - self.beacon)


def has_group_units(beacon: Frame) -> bool:
    """Whether units for the group follow this beacon."""
    tim = first_of(elements(beacon.body[BEACON_FIXED_LEN:]) or [], TIM)
    if tim is None or len(tim) < 4:
        return False
    count, _, has_group, _ = tim_bits(tim)
    return count == 0 and has_group


def following(heard: Heard, bssid: bytes) -> list[Following]:
    """What followed each beacon of a network that tells of units for the group."""
    found: list[Following] = []
    follows = False
    for moment, frame in heard:
        if frame.transmitter != bssid:
            continue
        if frame.is_management(BEACON):
            follows = has_group_units(frame)
            found += [Following(moment)] if follows else []
        elif follows and frame.type == DATA and not frame.subtype & NULL:
            found[-1].take(moment, frame)
            follows = not found[-1].is_whole
    return found


def told(found: list[Following]) -> str:
    """How long the units for the group took behind their beacons, and what went before them."""
    if not found:
        return "no beacon told of any"
    waits = [each.wait for each in found]
    return (f"the last one {statistics.median(waits):.0f} ms behind its beacon, {max(waits):.0f} at worst, and at most "
            f"{most_before(found)} to stations of its network between")


def most_before(found: list[Following]) -> int:
    """The most units for single stations that went before the last one for the group behind one beacon."""
    return max((len(each.before) for each in found), default=0)


def misses(found: list[Following], most: int) -> list[str]:
    """What doesn't hold where each beacon is followed by its units, before more than so many others of its network."""
    cut, before = sum(not each.is_whole for each in found), most_before(found)
    asked = ((not found, "no beacon told of units for the group"),
             (cut > 0, f"{cut} beacons without the last unit for the group"),
             (before > most, f"{before} units to stations between a beacon and its last unit for the group"))
    return [what for is_missed, what in asked if is_missed]


def unevenness(moments: list[float], interval: float) -> float:
    """By how much beacon intervals differ at most from so many milliseconds, where beacons came at these moments in
    seconds. Where one is missing, that counts too."""
    steps = [1000 * (later - moment) for moment, later in zip(moments, moments[1:])]
    return max((abs(step - interval) for step in steps), default=float("inf"))
