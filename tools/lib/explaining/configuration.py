"""A configuration that is TOML: its tables and keys with their places."""
from dataclasses import dataclass, field

from explaining.source import Place, Source
from explaining.toml_scan import Entry, NoToml, Table, Value, scan


@dataclass
class NetworkTable:
    """One network: where it begins, and its keys."""

    begin: int
    end: int
    entries: dict[str, Entry] = field(default_factory=dict)


Placed = Entry | Value | Table | NetworkTable


class Config:
    """The keys of a configuration that is TOML, with their places."""

    def __init__(self, source: Source) -> None:
        self.source = source
        top, *tables = scan(source.text)
        self.at_top = top.entries  # each of them, where several keys begin with one name and a dot
        self.top = {entry.key[0]: entry for entry in top.entries}
        self.networks: list[NetworkTable] = []
        self.single: Table | None = None
        self.strange = [table for table in tables if table.name[0] != "network"]
        for table in tables:
            if table.name == ("network",) and table.is_of_array:
                self.networks.append(NetworkTable(table.begin, table.end, keys_of(table.entries)))
            elif table.name[0] == "network" and table.name[1:] and self.networks:
                inner = Entry(table.name[1:], table.begin, table.end, Value("table", {}, table.begin, table.end))
                self.networks[-1].entries[table.name[1]] = inner
            elif table.name[0] == "network":
                self.single = self.single or table
        array = self.top.get("network")
        if array and array.value.kind == "array":
            self.networks = [NetworkTable(item.begin, item.begin + 1, keys_of(item.entries))
                             for item in array.value.items if item.kind == "table"]

    @property
    def version(self) -> int | None:
        """What `version` is worth, where it is a whole number."""
        return number_of(self.top.get("version"))

    def place(self, thing: Placed) -> Place:
        """Where a key, a value or a table stands."""
        return self.source.at(thing.begin, thing.end)

    def within(self, value: Value, span: tuple[int, int]) -> Place:
        """Some characters of a text, where it is written as it is; else all of it."""
        written = self.source.text[value.begin:value.end]
        if written[1:-1] == value.worth and not written.startswith(3 * written[0]):
            return self.source.at(value.begin + 1 + span[0], value.begin + 1 + span[1])
        return self.place(value)


@dataclass(frozen=True)
class Keys:
    """What a network's configuration says, and where."""

    table: NetworkTable | None = None
    config: Source | None = None

    def number(self, key: str) -> int | None:
        """A whole number."""
        return number_of(self.table.entries.get(key)) if self.table else None

    def where(self, key: str, mark: str = "") -> str:
        """The file and the line of a key, as ` in my.toml, line 12`, and a mark behind; nothing where they aren't
        known."""
        entry = self.table.entries.get(key) if self.table else None
        if entry is None or self.config is None:
            return ""
        line = self.config.first + self.config.at(entry.begin, entry.end).line - 1
        return f" in {self.config.name}, line {line}{mark}"


def keys_of(entries: list[Entry]) -> dict[str, Entry]:
    """Entries by the first part of their keys."""
    return {entry.key[0]: entry for entry in entries}


def networks_of(config: Source) -> dict[bytes, NetworkTable]:
    """The tables of a configuration by their addresses."""
    try:
        networks = Config(config).networks
        return {bytes.fromhex(str(network.entries["bssid"].value.worth).replace(":", "")): network
                for network in networks}
    except (NoToml, KeyError, ValueError, RecursionError):
        return {}


def number_of(entry: Entry | None) -> int | None:
    """The whole number that a key has, where it has one."""
    return entry.value.integer if entry else None
