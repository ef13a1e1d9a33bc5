"""What `iw phy` says that a radio can do."""
import re
from dataclasses import dataclass, field

MONITOR, MANAGED, ACCESS_POINT = "monitor", "managed", "AP"
ACTIVE_MONITORS = "Device supports active monitor"
SECTION = re.compile(r"\t(?P<name>[A-Z][^\t]*|valid interface combinations|software interface modes.*):\s*$")
SINGLE = re.compile(r"\t(interface combinations are not supported)\s*$")
FREQUENCY = re.compile(r"\s*\* (?P<frequency>\d+)(?:\.\d+)? MHz \[-?\d+\] *(?P<notes>.*)$")
LIMIT = re.compile(r"#\{ (?P<modes>[^}]*) \} <= (?P<most>\d+)")
TOTAL = re.compile(r"total <= (?P<most>\d+)")
CHANNELS = re.compile(r"#channels <= (?P<most>\d+)")
UNUSABLE = ("disabled", "no IR", "radar detection")


@dataclass(frozen=True)
class Combination:
    """Interfaces that a radio can have at a time: so many of each set of modes, so many in all, on so many channels."""

    limits: tuple[tuple[frozenset[str], int], ...]
    total: int
    channels: int = 1

    def most(self, mode: str, beside: int) -> int:
        """The most interfaces of a mode, beside so many that are counted with them in the total."""
        alone = sum(most for modes, most in self.limits if mode in modes)
        return max(0, min(alone, self.total - beside))

    def has(self, mode: str) -> bool:
        """Whether an interface of a mode is in it."""
        return any(mode in modes for modes, _ in self.limits)


@dataclass
class Phy:
    """A radio: its modes, those that any number of interfaces may have beside the others, what it says of each
    frequency, its combinations of interfaces, and whether a monitor interface of it may acknowledge frames."""

    modes: set[str] = field(default_factory=set)
    software_modes: set[str] = field(default_factory=set)
    frequencies: dict[int, str] = field(default_factory=dict)
    combinations: list[Combination] = field(default_factory=list)
    has_active_monitors: bool = False

    @property
    def has_contexts(self) -> bool:
        """Whether it certainly has channel contexts: without these it is on one channel. One that is on one may have
        them too."""
        return any(combination.channels > 1 for combination in self.combinations)

    def most_networks(self, mode: str) -> int:
        """The most interfaces of this mode beside one monitor interface; one where it allows no combinations."""
        if MONITOR in self.software_modes:
            beside = [(combination, 0) for combination in self.combinations]
        else:
            beside = [(combination, 1) for combination in self.combinations if combination.has(MONITOR)]
        least = 1 if MONITOR in self.software_modes and mode in self.modes else 0
        return max([least, *(combination.most(mode, monitors) for combination, monitors in beside)])

    def fault_of(self, frequency: int) -> str | None:
        """Why nothing may be sent on a frequency, in the words of `iw`, or None."""
        if frequency not in self.frequencies:
            return "this radio doesn't have it"
        notes = self.frequencies[frequency]
        return next((word for word in UNUSABLE if word in notes), None)


def sections_of(text: str) -> dict[str, list[str]]:
    """The lines of `iw phy PHY info`, by the heading above them."""
    found: dict[str, list[str]] = {}
    lines = found.setdefault("", [])
    for line in text.splitlines():
        heading = SECTION.match(line) or SINGLE.match(line)
        if heading:
            lines = found.setdefault(heading.group(1), [])
        else:
            lines.append(line)
    return found


def modes_of(lines: list[str]) -> set[str]:
    """The modes of a list of them, a mode a line."""
    return {line.split("* ", 1)[1].strip() for line in lines if line.strip().startswith("* ")}


def combinations_of(lines: list[str]) -> list[Combination]:
    """The combinations, each of which may go over several lines."""
    found = []
    for text in "\n".join(lines).split("* ")[1:]:
        total = TOTAL.search(text)
        limits = tuple((frozenset(re.split(r",\s*", limit["modes"])), int(limit["most"]))
                       for limit in LIMIT.finditer(text))
        channels = CHANNELS.search(text)
        if total and limits:
            found.append(Combination(limits, int(total["most"]), int(channels["most"]) if channels else 1))
    return found


def read_phy(text: str) -> Phy:
    """What `iw phy PHY info` says."""
    sections = sections_of(text)
    phy = Phy(has_active_monitors=ACTIVE_MONITORS in text)
    for name, lines in sections.items():
        if name == "Supported interface modes":
            phy.modes = modes_of(lines)
        elif name.startswith("software interface modes"):
            phy.software_modes = modes_of(lines)
        elif name == "valid interface combinations":
            phy.combinations = combinations_of(lines)
        for line in lines:
            channel = FREQUENCY.match(line)
            if channel:
                phy.frequencies.setdefault(int(channel["frequency"]), channel["notes"])
    return phy
