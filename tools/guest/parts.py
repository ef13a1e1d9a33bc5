"""Parts of the test of real stations: cases over one start of the bridge. None depends on how another ended."""
from collections.abc import Iterable

from stage import Start
from stations import Host, Station, write

IN_REACH, OUT_OF_REACH = "1", "2"


def join(station: Station, host: Host, number: int, ssid: str, bssid: str | None) -> None:
    """A station begins to look for a network, with an address beside that host's."""
    station.address = f"{host.address.rpartition('.')[0]}.{number}"
    station.begin(ssid, bssid)


def join_all(members: Iterable[tuple[Station, Host, str, str]], first: int, seconds: float = 60) -> None:
    """Stations join networks, each given with its host, and the network's name and BSSID; the addresses are from this
    number on."""
    joining = list(members)
    for number, (station, host, ssid, bssid) in enumerate(joining, first):
        join(station, host, number, ssid, bssid)
    for station, _, _, bssid in joining:
        station.joined(seconds, bssid)


def set_reach(station: Station, group: str) -> None:
    """Puts a simulated radio where the others hear it, or where they don't."""
    write(f"/sys/kernel/debug/ieee80211/{station.phy}/hwsim/group", group)


class Part:
    """Cases in order. Each finds the bridge running and the stations joined: where the case before it failed, or those
    that begin it were left out, all is begun anew, with files of its own."""

    def __init__(self, cases, start: Start) -> None:
        self.cases = cases
        self.start = start
        self.is_set_up = False

    def set_up(self) -> None:
        """Begins the bridge, and lets the stations join."""
        raise NotImplementedError

    def alone(self, name: str, call) -> bool | None:
        """A case that finds nothing begun, and begins what it needs."""
        def tried():
            if not self.cases.is_clean:
                self.cases.restore()
            return call()
        return self.cases.case(name, tried)

    def begins(self, name: str, call) -> None:
        """A case by which the part is set up, or begins to be."""
        self.is_set_up = bool(self.alone(name, call))

    def case(self, name: str, call) -> None:
        """A case that finds all set up."""
        def tried():
            if not self.is_set_up:
                self.set_up_anew()
            self.is_set_up = False
            return call()
        passed = self.cases.case(name, tried)
        self.is_set_up = self.is_set_up if passed is None else passed

    def set_up_anew(self) -> None:
        """Sets all up as it was at first, whatever is left of before."""
        self.cases.restore()
        self.start = self.start.anew()
        self.set_up()

    def end(self) -> None:
        """Ends the bridge, and compares what was recorded beside it."""
        self.cases.case(f"{self.start.name}: the bridge ends, and takes down what it set up", self.end_start)
        self.compare()

    def end_start(self) -> None:
        """Ends the bridge, one that was begun for that where none runs any more."""
        if not self.start.is_running():
            self.set_up_anew()
            self.cases.leave_all()
        self.start.end()

    def compare(self) -> None:
        """What was written, against `run` and what was heard."""
        self.start.take_down()
        self.cases.compare(self.start)
