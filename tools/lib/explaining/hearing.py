"""What one network took of a trace."""
from dataclasses import dataclass, field

from explaining.configuration import NetworkTable, number_of
from frames import address_text
from reading import hears, unread_kind, wired_unread_kind
from texts import Line, Section


@dataclass
class Hearing:
    """What one network took of a trace: its events, those that it can't read by their kind, and the rest."""

    section: Section
    table: NetworkTable | None
    heard: list[Line] = field(default_factory=list)
    unread: dict[str, list[Line]] = field(default_factory=dict)
    past_history: list[Line] = field(default_factory=list)

    @property
    def name(self) -> str:
        """The network, for a person."""
        return f"network {address_text(self.section.bssid)} ({self.section.name})"

    def limit(self, key: str) -> int | None:
        """A number of its configuration."""
        return number_of(self.table.entries.get(key)) if self.table else None

    def has_frames_of_its_own(self) -> bool:
        """Whether it took a frame that is to it and not to all."""
        return any(line.kind == "W" or line.kind == "A" and line.octets[4:10] == self.section.bssid
                   for line in self.heard)

    def count(self, kind: str) -> int:
        """How many lines of a kind it took."""
        return sum(line.kind == kind for line in self.heard)

    def take(self, line: Line) -> None:
        """Counts a line, where the network takes it."""
        bssid = self.section.bssid
        if line.kind == "A" and not hears(bssid, line.octets) or line.kind == "W" and line.bssid != bssid:
            return
        if len(self.heard) == self.section.events:
            self.past_history.append(line)
            return
        self.heard.append(line)
        if line.kind != "T":
            kind = unread_kind(bssid, line.octets) if line.kind == "A" else wired_unread_kind(line.octets)
            if kind:
                self.unread.setdefault(kind, []).append(line)
