"""What is changed on this machine, each with how it is taken back; and the file under /run by which a start knows what
an earlier one left that was killed."""
import fcntl
import glob
import json
import os
import shutil
import subprocess
from collections.abc import Iterator
from contextlib import AbstractContextManager, contextmanager, nullcontext, suppress
from dataclasses import astuple, dataclass

import called
from live import machine
from live.faults import Fault
from live.locks import FLAGS, MODE, Lock
from live.machine import Interface
from live.telling import WARNING, tell

RUN = "/run/waltigon"
INTERFACE, OFFLOADS, UP, ADDRESS_MODE, UNMANAGED, COUNTRY = (
    "interface", "offloads", "up", "address mode", "unmanaged", "country")

OF_WIRES = (OFFLOADS, UP, ADDRESS_MODE)
COUNTRY_LOCK = ".country"  # a file beside those of the radios


@dataclass(frozen=True)
class Change:
    """A change of this kind to what has this name. That of the country has the name of the one before, and then its
    own."""

    kind: str
    name: str
    more: tuple[str, ...] = ()

    def take_back(self) -> None:
        """Takes it back; where that fails it is told, and what comes next is taken back."""
        try:
            match self.kind:
                case "interface":
                    machine.run("iw", "dev", self.name, "del")
                case "offloads":
                    machine.run("ethtool", "-K", self.name, *(word for short in self.more for word in (short, "on")))
                case "up":
                    machine.run("ip", "link", "set", self.name, "down")
                case "address mode":
                    machine.run("ip", "link", "set", self.name, "addrgenmode", *self.more)
                case "unmanaged":
                    remove_file(self.name)
                    reload_network_manager()
                case "country":
                    machine.run("iw", "reg", "set", self.name)
        except (Fault, OSError) as fault:
            tell(f"not taken back: {fault}", WARNING)

    def is_left(self, phy: str) -> bool:
        """Whether there still is something to take back; an interface of another radio is somebody else's."""
        match self.kind:
            case "interface":
                return Interface(self.name).radio == phy
            case "unmanaged":
                return os.path.exists(self.name)
            case "country":
                return True
            case _:
                return Interface(self.name).exists


def read_changes(path: str) -> list[Change]:
    """What the file of a radio lists; nothing where there is none."""
    try:
        with open(path, encoding="utf-8") as file:
            return [Change(kind, name, tuple(more)) for kind, name, more in json.load(file)]
    except FileNotFoundError:
        return []
    except PermissionError as fault:
        raise Fault(f"{path}: {fault.strerror}: run it as root (sudo)") from None
    except (OSError, ValueError, TypeError) as fault:
        raise Fault(f"{path}: not read: {fault}; take it away where no {called.fellow('live')} runs") from None


def interfaces_made(phy: str) -> list[str]:
    """The interfaces of a radio that an access point has made, which runs, or has left them for the next start."""
    found = read_changes(os.path.join(RUN, f"{phy}.made"))
    return [change.name for change in found if change.kind == INTERFACE and change.is_left(phy)]


def remove_file(path: str) -> None:
    """Removes a file, and its folders that nothing else is in."""
    os.unlink(path)
    with suppress(OSError):
        os.removedirs(os.path.dirname(path))


def reload_network_manager() -> None:
    """Lets NetworkManager read its files again."""
    if shutil.which("nmcli") is not None:
        subprocess.run(["nmcli", "general", "reload", "conf"], capture_output=True, check=False, start_new_session=True)


class Changes:
    """The changes for one radio, as the file PHY.made lists them: each before it is made, and until it is taken back.
    So the next start finds all that one left that was killed. It has the radio's lock as long as it runs.

    Where the file PHY.stay is there when a start ends, nothing is taken back: the next start goes on with it. The one that
    ends writes into that file how the radio is set up, and the next one takes the file away."""

    def __init__(self, phy: str, folder: str = "") -> None:
        self.folder = folder = folder or RUN
        self.phy = phy
        self.path = os.path.join(folder, f"{phy}.made")
        self.made: list[Change] = []
        self.stay_path = os.path.join(folder, f"{phy}.stay")
        self.hands_on = False
        self.handed: list[Change] = []  # made by the start before, and not taken over yet
        try:
            os.makedirs(folder, exist_ok=True)
        except OSError as fault:
            raise Fault(f"{folder}: {fault.strerror}") from None
        self.lock = Lock(folder, phy)
        try:
            self.left = read_changes(self.path)
            self.handed_on = self.take_away_stay()
        except Fault:
            self.close()
            raise

    def take_away_stay(self) -> str:
        """Takes the file PHY.stay away: what the start before has written into it, or nothing."""
        with suppress(FileNotFoundError):
            with open(self.stay_path, encoding="utf-8", errors="replace") as file:
                text = file.read()
            os.unlink(self.stay_path)
            return text
        return ""

    def hand_on(self, text: str) -> None:
        """From now on nothing is taken back: the next start goes on with it, where the radio is to be set up as this text
        says."""
        with open(f"{self.stay_path}.new", "w", encoding="utf-8") as file:
            file.write(text)
        os.replace(f"{self.stay_path}.new", self.stay_path)
        self.hands_on = True

    def go_on(self) -> None:
        """Goes on with what the start before has handed on."""
        names = ", ".join(self.left_interfaces())
        tell(f"going on with what the start before for {self.phy} has left: {names}")
        self.made, self.handed, self.left = self.left, list(self.left), []

    def handed_interfaces(self) -> list[str]:
        """The interfaces of the radio that the start before has handed on."""
        return [change.name for change in self.handed if change.kind == INTERFACE]

    def take_over_country(self) -> Change | None:
        """That the country was set, where the start before has handed that on: from now on it is this start's."""
        found = next((change for change in self.handed if change.kind == COUNTRY), None)
        if found is not None:
            self.handed.remove(found)
        return found

    def take_over(self, names: set[str]) -> list[Change]:
        """The changes to what has these names that the start before has handed on: from now on they are this start's, in
        the order in which they were made."""
        found = [change for change in self.handed if change.name in names]
        self.handed = [change for change in self.handed if change.name not in names]
        return found

    def take_back_rest(self) -> None:
        """Takes back what was handed on and isn't taken over."""
        for change in reversed(self.handed):
            if change.is_left(self.phy):
                self.take_back(change)
            else:
                self.forget(change)
        self.handed = []

    def close(self) -> None:
        """Lets another have the radio."""
        self.lock.close()

    def write(self) -> None:
        """Writes the file anew, so that it is whole at any moment; without changes there is none."""
        changes = self.left + self.made
        if not changes:
            if os.path.exists(self.path):
                os.unlink(self.path)
            return
        with open(f"{self.path}.new", "w", encoding="utf-8") as file:
            json.dump([astuple(change) for change in changes], file)
        os.replace(f"{self.path}.new", self.path)

    def add(self, change: Change) -> None:
        """It is about to be made."""
        self.made.append(change)
        self.write()

    def take_back(self, change: Change) -> None:
        """Takes one back, but where the next start goes on with it."""
        if self.hands_on:
            return
        self.undo(change, self.made)

    def undo(self, change: Change, found: list[Change]) -> None:
        """Takes one of a list back, and out of that list."""
        nobody: AbstractContextManager[list[Change]] = nullcontext([])
        with self.countries() if change.kind == COUNTRY else nobody as others:
            take_back(change, others)
            found.remove(change)
            self.write()

    def forget(self, change: Change) -> None:
        """It was taken back, or not made."""
        self.made.remove(change)
        self.write()

    def forget_gone(self, name: str) -> None:
        """The interface of this name is another one now, or gone, and so may be its other end: nothing is left of what was
        changed there."""
        self.made = [change for change in self.made if change.kind not in OF_WIRES or change.name != name
                     and Interface(change.name).exists]
        self.write()

    def left_interfaces(self) -> list[str]:
        """The interfaces of the radio that an earlier start left."""
        return [change.name for change in self.left if change.kind == INTERFACE and change.is_left(self.phy)]

    def take_back_left(self) -> None:
        """Takes back what an earlier start left, and tells so."""
        left = [change for change in reversed(self.left) if change.is_left(self.phy)]
        if left:
            names = ", ".join(f"{change.kind} {change.name}" for change in left)
            why = "left its radio set up in another way" if self.handed_on else "was killed"
            tell(f"an earlier start for {self.phy} {why}; taking back what it left: {names}")
        for change in left:
            self.undo(change, self.left)
        self.left = []
        self.write()

    @contextmanager
    def countries(self) -> Iterator[list[Change]]:
        """The changes of the country that the access points of other radios list: they all have the same one.
        Meanwhile no other access point looks at these, or changes it."""
        descriptor = os.open(os.path.join(self.folder, COUNTRY_LOCK), FLAGS, MODE)
        try:
            fcntl.flock(descriptor, fcntl.LOCK_EX)
            yield [change for path in sorted(glob.glob(os.path.join(glob.escape(self.folder), "*.made")))
                   if path != self.path for change in listed(path) if change.kind == COUNTRY]
        finally:
            os.close(descriptor)


def listed(path: str) -> list[Change]:
    """What the file of another radio lists, where it can be read."""
    try:
        return read_changes(path)
    except Fault:
        return []


def take_back(change: Change, others: list[Change]) -> None:
    """Takes a change back. The country is set to the one before, but stays one that others go on with where there are
    some. An earlier version doesn't list which one that is: then it stays as it is."""
    if not others:
        change.take_back()
        return
    wanted = [country for other in others for country in other.more]
    if len(wanted) == len(others) and machine.country() not in wanted:
        Change(COUNTRY, wanted[-1]).take_back()
