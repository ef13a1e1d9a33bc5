"""The cases of the status page beside a bridge on a radio: what it says has to be what stations did and heard."""
import json
import os
import pwd
import re
import subprocess
import urllib.error
import urllib.request
from dataclasses import dataclass

from paths import TOOLS
from frames import DATA, NULL, Frame, address_of
from operating import ask
from parts import IN_REACH, OUT_OF_REACH, Part, join_all, set_reach
from radiotap import captured
from stage import Net
from stations import Failed, Station, read, wait_for, write

STATUS_PROGRAM = os.path.join(TOOLS, "status")
GUESTS, OFFICE = (f"02:00:00:00:01:0{number}" for number in (1, 2))
PORT, OWN_PORT = 9617, 9618
FIRST = 101  # the last octet of the first station's address
SECONDS_APART = 3.0  # by which two clocks of how long a station is there may differ
SAMPLE = re.compile(r"^(\w+)(?:\{(.*)\})? (\S+)$")
LABEL = re.compile(r'(\w+)="([^"]*)"')
DUMPED = re.compile(r"^\s+([\w ]+):\s+(-?[\d.]+)", re.MULTILINE)


@dataclass
class Answer:
    """What the page's server answered."""

    status: int
    kind: str
    text: str


def fetch(path: str, port: int = PORT) -> Answer:
    """Asks the server; Failed where nobody listens."""
    try:
        with urllib.request.urlopen(f"http://127.0.0.1:{port}{path}", timeout=10) as answer:
            return Answer(answer.status, answer.headers["Content-Type"], answer.read().decode())
    except urllib.error.HTTPError as fault:
        return Answer(fault.code, fault.headers["Content-Type"], fault.read().decode())
    except OSError as fault:
        raise Failed(f"port {port}: {fault}") from None


def samples(text: str) -> dict[tuple[str, frozenset], float]:
    """The samples of Prometheus' text, by name and labels."""
    found = [SAMPLE.match(line) for line in text.splitlines() if line and not line.startswith("#")]
    if None in found:
        raise Failed(f"a line of the metrics isn't read: {text}")
    return {(match[1], frozenset(LABEL.findall(match[2] or ""))): float(match[3]) for match in found}


def dumped(station: Station) -> dict[str, float]:
    """What the station's own kernel says of its network: `iw station dump`."""
    return {name.strip(): float(number) for name, number in
            DUMPED.findall(station.run("iw", "dev", station.interface, "station", "dump"))}


class Page(Part):
    """Two networks, three stations, and `--status`."""

    def __init__(self, cases) -> None:
        self.nets = Net(GUESTS, "guests", "wire1"), Net(OFFICE, "office", "wire2", 2)
        super().__init__(cases, cases.start("shown", self.nets, more=("--status", str(PORT), "--station-metrics")))
        self.stations = cases.stations[:3]
        self.places = dict(zip((station.name for station in self.stations), (0, 0, 1)))
        self.hosts = cases.hosts

    def run(self) -> None:
        """Its cases in order."""
        case = self.case
        self.begins("shown: the bridge begins, and three stations join two networks", self.set_up)
        case("the page, its JSON and its metrics are served at 127.0.0.1 alone, by a user of its own", self.served)
        case("JSON says of each station what another radio heard and what its own kernel says", self.agrees)
        case("the metrics say what JSON says", self.metrics)
        case("a station that is kicked is gone from the page, and comes again", self.kick)
        case("a page that was started by hand says so once the bridge has ended", self.ended)
        self.cases.leave_all()
        self.compare()

    def host_of(self, station: Station):
        """The host of a station's network."""
        return self.hosts[self.places[station.name]]

    def document(self) -> dict:
        """The status document."""
        answer = fetch("/status.json")
        if (answer.status, answer.kind) != (200, "application/json"):
            raise Failed(f"status.json: {answer}")
        return json.loads(answer.text)

    def listed(self, document: dict, station: Station) -> dict | None:
        """What is told of a station in the list of its network; nothing where it isn't there."""
        network = document["networks"][self.places[station.name]]
        address = station.hardware_address()
        return next((told for told in network["stations"] if told["address"] == address), None)

    def set_up(self) -> str:
        """They join, and ping their hosts, each another number of times."""
        self.start.begin()
        nets = [self.nets[self.places[station.name]] for station in self.stations]
        join_all(((station, self.host_of(station), net.ssid, net.bssid)
                  for station, net in zip(self.stations, nets)), FIRST)
        for number, station in enumerate(self.stations, 1):
            station.ping(self.host_of(station).address, 5 * number, 0.1, 100 * number).whole()
        return "5, 10 and 15 pings came back"

    def served(self) -> str:
        """The process is a user's of its own, whose group may ask the bridge, and each form is there."""
        page = fetch("/")
        if page.status != 200 or "<script>" not in page.text or not page.kind.startswith("text/html"):
            raise Failed(f"the page: {page}")
        if fetch("/metrics").status != 200 or fetch("/nothing").status != 404:
            raise Failed("the metrics aren't there, or something is that shouldn't be")
        listening = subprocess.run(["ss", "-ltnp"], capture_output=True, text=True, check=True).stdout
        lines = [line.split() for line in listening.splitlines() if f":{PORT} " in line]
        if [line[3] for line in lines] != [f"127.0.0.1:{PORT}"]:
            raise Failed(listening)
        pid = re.search(r"pid=(\d+)", lines[0][-1])
        users = re.search(r"^Uid:\s+(.*)$", read(f"/proc/{pid[1]}/status"), re.MULTILINE)[1].split()
        own, asked = pwd.getpwnam("waltigon-status"), os.stat(f"/run/waltigon/{self.cases.phy}.sock")
        if users != [str(own.pw_uid)] * 4 or (asked.st_gid, asked.st_mode & 0o777) != (own.pw_gid, 0o660):
            raise Failed(f"it runs as {users}, and the socket is {asked.st_gid}'s, {asked.st_mode:o}")
        return f"{len(page.text)} octets of HTML, as user {users[0]}"

    def heard(self, station: Station) -> dict[str, tuple[int, int]]:
        """How many units the radio beside heard to and from a station, each once, and their octets."""
        bssid = address_of(self.nets[self.places[station.name]].bssid)
        address = address_of(station.hardware_address())
        ways = {(bssid, address): "to", (address, bssid): "from"}
        found, last = {"to": (0, 0), "from": (0, 0)}, {}
        for packet in map(captured, self.start.observed.packets_so_far()):
            frame = Frame(packet.frame) if packet else None
            if frame is None or frame.type != DATA or frame.subtype == NULL:
                continue
            pair = frame.transmitter, frame.receiver
            if pair in ways and not (frame.retry and last.get(pair) == frame.sequence_control):
                frames, octets = found[ways[pair]]
                found[ways[pair]] = frames + 1, octets + len(frame.octets)
            last[pair] = frame.sequence_control
        return found

    def agrees(self) -> str:
        """Once nothing is said any more, both have counted the same."""
        told = []
        for station in self.stations:
            wait_for(f"{station.name}: the same counts", 20, lambda station=station: self.is_same(station), 1.0)
            found, dump = self.listed(self.document(), station), dumped(station)
            if (found["state"], found["dozes"], found["kept"]) != ("associated", False, 0):
                raise Failed(f"{found}")
            rates = found["rate_from"] / 2, found["rate_to"] / 2
            if rates != (dump["tx bitrate"], dump["rx bitrate"]):
                raise Failed(f"{found} and {dump}")
            if found["signal"] is None or abs(found["since"] - dump["connected time"]) > SECONDS_APART:
                raise Failed(f"{found} and {dump}")
            if dump["tx packets"] < found["frames_from"] or dump["rx packets"] < found["frames_to"]:
                raise Failed(f"{found} and {dump}")
            told.append(f"{found['frames_to']} and {found['frames_from']}")
        return f"units to and from them: {', '.join(told)}"

    def is_same(self, station: Station) -> bool:
        """Whether the page and the radio beside agree on frames and octets both ways."""
        found, heard = self.listed(self.document(), station), self.heard(station)
        counted = {way: (found[f"frames_{way}"], found[f"octets_{way}"]) for way in ("to", "from")}
        self.told = f"{counted} and {heard}"
        return counted == heard

    def metrics(self) -> str:
        """Of each station and network, from one and the same answer of the bridge where the counts say so."""
        def same() -> int:
            document, found = self.document(), samples(fetch("/metrics").text)
            wanted = self.wanted(document)
            return len(wanted) if all(found.get(name) == number for name, number in wanted.items()) else 0
        return f"{wait_for('the same numbers', 20, same, 1.0)} samples"

    def wanted(self, document: dict) -> dict:
        """The samples that a status document stands for; those that go on by themselves are left out."""
        wanted = {}
        for network in document["networks"]:
            labels = {("bssid", network["bssid"]), ("ssid", network["name"])}
            associated = [told for told in network["stations"] if told["state"] == "associated"]
            states = frozenset(labels | {("state", "associated")})
            wanted["waltigon_network_stations", states] = len(associated)
            for told in associated:
                labels = {("bssid", network["bssid"]), ("station", told["address"])}
                for way in ("to", "from"):
                    each = frozenset(labels | {("direction", way)})
                    wanted["waltigon_station_frames_total", each] = told[f"frames_{way}"]
                    wanted["waltigon_station_bytes_total", each] = told[f"octets_{way}"]
                wanted["waltigon_station_signal_dbm", frozenset(labels)] = told["signal"]
        return wanted

    def kick(self) -> str:
        """It is out of reach, so that it doesn't join again at once."""
        station = self.stations[0]
        before = self.listed(self.document(), station)
        set_reach(station, OUT_OF_REACH)
        done = ask("kick", GUESTS, station.hardware_address())
        if done.returncode != 0:
            raise Failed(f"kick: {done.stderr}")
        wait_for("it is gone from the page", 10, lambda: self.listed(self.document(), station) is None)
        address = station.hardware_address()
        if address in fetch("/metrics").text or len(self.document()["networks"][0]["stations"]) != 1:
            raise Failed("it is still in the metrics, or another one is gone too")
        set_reach(station, IN_REACH)
        wait_for("it is there again", 60, lambda: (self.listed(self.document(), station) or {}).get("aid"))
        wait_for("its pings come back", 30, lambda: station.ping(self.host_of(station).address, 1).result()[1])
        after = self.listed(self.document(), station)
        if after["since"] >= before["since"] or after["frames_to"] >= before["frames_to"]:
            raise Failed(f"{before} and {after}")
        return f"there for {before['since']:.0f} seconds before, {after['since']:.0f} after"

    def ended(self) -> str:
        """It goes on without a bridge; the one that tools/live started ends with it."""
        beside = subprocess.Popen([STATUS_PROGRAM, str(OWN_PORT), f"/run/waltigon/{self.cases.phy}.sock"],
                                  stdin=subprocess.DEVNULL)
        try:
            wait_for("the page by hand", 20, lambda: answers(OWN_PORT))
            if json.loads(fetch("/status.json", OWN_PORT).text)["networks"][0]["bssid"] != GUESTS:
                raise Failed("the page by hand tells of another network")
            if os.path.isdir("/outcome"):
                write("/outcome/status.json", json.dumps(self.document()))
            self.start.end()
            told = wait_for("it says so", 10, lambda: untold(OWN_PORT))
        finally:
            beside.terminate()
            beside.wait()
        if answers(PORT):
            raise Failed("the page of tools/live is still there")
        return told


def answers(port: int) -> bool:
    """Whether a page is served there."""
    try:
        return fetch("/", port).status == 200
    except Failed:
        return False


def untold(port: int) -> str:
    """Why the page has no status, where it has none."""
    answer = fetch("/status.json", port)
    return answer.text.strip() if answer.status == 503 else ""
