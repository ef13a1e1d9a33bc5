"""What the cases of an access point that is a service share: the station and the host beside it, and what systemd and
its journal know of the service."""
import argparse
import json
import os

from runner import Runner
from stage import BY
from stations import Host, Station, load_radios, run, unload_radios, write

FREQUENCY = 2437
SETTINGS = "/etc/waltigon"


class ServiceCases(Runner):
    """The stage of these cases."""

    def make_stage(self, more: int = 0) -> str:
        """Makes a station and a host, with so many more radios: the name of the access point's radio."""
        radios = load_radios(2 + more)
        self.more_radios = radios[2:]
        run("iw", "dev", radios[0].interface, "del")
        self.unit = f"waltigon@{radios[0].phy}.service"
        self.host = Host("host1", "eth0", "10.0.1.1", "wire1")
        self.station = Station("sta1", radios[1].interface, "10.0.1.2", radios[1].phy, FREQUENCY)
        for part in (self.host, self.station):
            part.create()
        return radios[0].phy

    def take_down(self) -> None:
        """Takes station, host and radios away."""
        for part in (self.host, self.station):
            part.delete()
        unload_radios()

    def after_failure(self) -> None:
        """The journal says why."""
        print(run("journalctl", "-u", self.unit, "-n", "12", "--no-pager", "-o", "short-monotonic"), flush=True)

    def property(self, name: str) -> str:
        """What systemd knows of the service."""
        return run("systemctl", "show", "-P", name, self.unit).strip()

    def answers(self) -> bool:
        """Whether a ping comes back."""
        return self.station.ping(self.host.address, 1, more=("-W", "1")).result()[1] == 1

    def lines(self, text: str) -> int:
        """How many lines of the journal have this."""
        return sum(text in entry["MESSAGE"] for entry in self.entries())

    def entries(self) -> list[dict]:
        """The service's lines in the journal."""
        lines = run("journalctl", "-u", self.unit, "-o", "json", "--no-pager").splitlines()
        return [entry for entry in map(json.loads, lines) if isinstance(entry.get("MESSAGE"), str)]


def words_of(*words: str) -> str:
    """The file of a radio that gives its service these words of waltigon-live."""
    return f"WORDS={' '.join((*BY, *words))}\n"


def main_of(kind, description: str) -> int:
    """Runs the cases that the words choose, and answers 1 where one failed."""
    parser = argparse.ArgumentParser(description=description, formatter_class=argparse.RawDescriptionHelpFormatter)
    parser.add_argument("words", metavar="WORD", nargs="*")
    asked = parser.parse_args()
    if "WORDS_ALONE" in os.environ:
        return 0
    cases = kind(asked.words)
    cases.set_up()
    cases.run()
    write("/outcome/journal", run("journalctl", "-u", cases.unit, "--no-pager", "-o", "short-monotonic"))
    cases.take_down()
    return cases.end()
