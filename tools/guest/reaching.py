"""Who reaches whom behind three networks of one radio (docs/NETWORKS.md): the parties, what each may reach, and a table
that is tried cell by cell."""
import json
import os
import re
import subprocess
from dataclasses import dataclass, field

from paths import HERE
from stations import Failed, Namespace, Station, run

REACH = os.path.join(HERE, "reach")
GUESTS, OFFICE, DEVICES, SERVER, INTERNET, NEAR, MACHINE = (
    "guests", "office", "devices", "server", "Internet", "near", "machine")
ALL = frozenset((GUESTS, OFFICE, DEVICES, SERVER, INTERNET, NEAR, MACHINE))
OF_OFFICE = frozenset((OFFICE, DEVICES, SERVER, INTERNET, NEAR, MACHINE))
# The table of docs/NETWORKS.md.
MAY_REACH = {GUESTS: frozenset((INTERNET,)), OFFICE: OF_OFFICE, SERVER: OF_OFFICE, DEVICES: frozenset((SERVER,)),
             INTERNET: frozenset((MACHINE,)), NEAR: frozenset((MACHINE,)), MACHINE: ALL}
WORDS = {True: "yes", False: "no"}
TRY_SECONDS, MORE_TRIES = 60, 2
LEASE = re.compile(r"^default via (\S+) dev", re.MULTILINE)


@dataclass
class Newcomer(Station):
    """A station without an address, which asks for one by DHCP once it has joined."""

    def give_address(self) -> None:
        """Sets the interface up, and gives none."""
        run("ip", "-n", self.name, "link", "set", self.interface, "up")


@dataclass
class Wired(Namespace):
    """A host by a cable of a switch, which is a namespace: `segment` is the switch's bridge of the host's VLAN."""

    switch: str = ""
    segment: str = ""

    def create(self) -> None:
        """Makes it with its cable."""
        super().create()
        run("ip", "-n", self.switch, "link", "add", f"to-{self.name}", "type", "veth", "peer", "name", self.interface,
            "netns", self.name)
        run("ip", "-n", self.switch, "link", "set", f"to-{self.name}", "master", self.segment, "up")
        run("ip", "-n", self.name, "link", "set", self.interface, "up")


@dataclass
class Party:
    """Who reaches and is reached: a namespace, or this machine itself (None), with its addresses."""

    name: str
    kind: str
    place: Namespace | None
    addresses: list[str] = field(default_factory=list)
    serving: subprocess.Popen | None = None

    def words(self, *words: str) -> list[str]:
        """A command of it."""
        return self.place.words(*words) if self.place else list(words)

    def serve(self) -> None:
        """Answers to those who try to reach it."""
        self.stop()
        own = self.addresses if self.kind in (INTERNET, NEAR) else []
        self.serving = subprocess.Popen(self.words(REACH, "serve", *own), stdin=subprocess.DEVNULL)

    def stop(self) -> None:
        """Answers no more."""
        if self.serving is not None:
            self.serving.kill()
            self.serving.wait()
            self.serving = None

    def ask_for_address(self, router: str) -> str:
        """Gets its address by DHCP, and the way out with it."""
        run("ip", "-n", self.place.name, "address", "flush", "dev", self.place.interface, "scope", "global")
        self.place.run("udhcpc", "-i", self.place.interface, "-f", "-n", "-q", "-t", "15", "-T", "1")
        rows = json.loads(run("ip", "-n", self.place.name, "-j", "-4", "address", "show", "dev", self.place.interface))
        self.addresses = [info["local"] for row in rows for info in row.get("addr_info", [])]
        found = LEASE.findall(run("ip", "-n", self.place.name, "route"))
        if len(self.addresses) != 1 or found != [router]:
            raise Failed(f"{self.name}: addresses {self.addresses}, routers {found}")
        return self.addresses[0]

    def begin_trying(self, addresses: list[str], own: str = "") -> subprocess.Popen:
        """Begins to try these."""
        words = self.words(REACH, *(["--from", own] if own else []), "try", *addresses)
        return subprocess.Popen(words, stdin=subprocess.DEVNULL, stdout=subprocess.PIPE, stderr=subprocess.PIPE,
                                text=True)


def answered(trying: subprocess.Popen) -> dict[str, dict[str, bool]]:
    """What of each address answered."""
    output, errors = trying.communicate(timeout=TRY_SECONDS)
    if trying.returncode != 0:
        raise Failed(f"{trying.args}: {errors}")
    return json.loads(output)


def reaches(found: dict[str, dict[str, bool]], party: Party) -> dict[str, bool]:
    """By which ways a party was reached, at all of its addresses; this machine answers by no UDP at all."""
    return {f"{way} {address}": came for address in party.addresses for way, came in found[address].items()
            if (party.kind, way) != (MACHINE, "udp")}


def own_address(party: Party) -> str:
    """The address that a party tries from, where its namespace is that of two."""
    return party.addresses[0] if party.kind in (INTERNET, NEAR) else ""


def try_again(sender: Party, parties: list[Party], found: dict[str, dict[str, bool]]) -> None:
    """What should have answered and didn't is tried once more or twice, since a frame may be lost on a busy machine."""
    for _ in range(MORE_TRIES):
        silent = [address for party in parties if party is not sender and party.kind in MAY_REACH[sender.kind]
                  for address in party.addresses if not all(reaches(found, party).values())]
        if not silent:
            return
        for address, ways in answered(sender.begin_trying(silent, own_address(sender))).items():
            found[address] = {way: came or ways[way] for way, came in found[address].items()}


def try_table(parties: list[Party]) -> tuple[list[str], list[str], int]:
    """Tries each cell: the table's lines, what is wrong, and how many cells there are. A cell is right where all ways
    agree with it; what may not be reached is never tried again."""
    addresses = [address for party in parties for address in party.addresses]
    begun = [(party, party.begin_trying(addresses, own_address(party))) for party in parties]
    lines = ["| | " + " | ".join(party.name for party in parties) + " |", "|---" * (len(parties) + 1) + "|"]
    wrong, cells = [], 0
    first = [(sender, answered(trying)) for sender, trying in begun]
    for sender, found in first:
        try_again(sender, parties, found)
        row: list[str] = []
        for receiver in parties:
            if sender is receiver or {sender.kind, receiver.kind} == {INTERNET, NEAR}:
                row.append("")
                continue
            cells += 1
            may, ways = receiver.kind in MAY_REACH[sender.kind], reaches(found, receiver)
            odd = [way for way, came in ways.items() if came != may]
            row.append(WORDS[may if not odd else not may] + ("" if not odd else " (wrong)"))
            if odd:
                wrong.append(f"{sender.name} to {receiver.name}: {WORDS[may]} is right, but not by {', '.join(odd)}")
        lines.append(f"| {sender.name} | " + " | ".join(row) + " |")
    return lines, wrong, cells
