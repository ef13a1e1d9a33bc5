"""The cases of what an operator needs: stations that go out of reach or fall silent, a flood of addresses, a station that
is kicked, a configuration that is read again, and the commands that the documents give."""
import json
import os
import pwd
import random
import re
import shutil
import signal
import socket
import subprocess
import threading
import time

from paths import LIVE, TOP
from frames import BROADCAST, DATA, DEAUTHENTICATION, DISASSOCIATION, NULL, Frame, address_of
from parts import IN_REACH, OUT_OF_REACH, Part, join_all, set_reach
from radiotap import captured
from stage import COMPILED, READY, Net, Start
from stations import Failed, Station, load_radios, read, run, unload_radios, wait_for, write

GUESTS, OFFICE, DEVICES, LAB = (f"02:00:00:00:01:0{number}" for number in (1, 2, 3, 5))
TEST_COMMAND = bytes([0, 0, 0xf3])  # IEEE Std 802.2, 5.4.1.2
IDLE = 8  # seconds of silence after which stations are asked
FIRST_SILENT, FIRST_FLOOD, FIRST_RELOADED = 81, 85, 91
FLOOD, ROOM_SECONDS = 5000, 5
NEWCOMER = "02:cc:00:00:00:01"
RELOAD_SECONDS = 5
OBSERVER = "obs0"
# A header of radiotap without fields, before a frame that is to be sent.
NO_FIELDS = bytes([0, 0, 8, 0, 0, 0, 0, 0])
EVERY = 0.2


def counts(table: list[str]) -> dict[str, int]:
    """The counts of a table, by name."""
    words = table[1].split()
    return dict(zip(words[::2], map(int, words[1::2])))


def ask(*words: str) -> subprocess.CompletedProcess:
    """Asks the bridge that runs, as a person does."""
    return subprocess.run([LIVE, *words], capture_output=True, text=True, check=False, timeout=30)


def authentication(station: bytes) -> bytes:
    """A request of a station to authenticate with the guests' network, as it is sent by a monitor interface."""
    header = b"\xb0\0\0\0" + address_of(GUESTS) + station + address_of(GUESTS) + bytes([0x10, 0])
    return NO_FIELDS + header + bytes([0, 0, 1, 0, 0, 0])


def is_question(frame: Frame) -> bool:
    """Whether it may be a question of a network: a Null frame, or the TEST command of LLC."""
    return frame.type == DATA and (frame.subtype == NULL or frame.subtype == 0 and frame.body == TEST_COMMAND)


class Silence(Part):
    """Stations of which nothing is heard any more."""

    def __init__(self, cases) -> None:
        net = Net(GUESTS, "guests", "wire1")
        super().__init__(cases, cases.start("silence", (net,), more=("--idle", str(IDLE))))
        self.host = cases.hosts[0]
        self.gone, self.silent, self.dozing = cases.stations[:3]

    def run(self) -> None:
        """Its cases in order."""
        case = self.case
        self.begins("silence: the bridge begins, and three stations join", self.set_up)
        case("a station that goes out of reach is forgotten, and joins again when it is back", self.out_of_reach)
        case("stations that only fall silent are asked, and stay", self.fall_silent)
        case("a station that is kicked leaves, and may join again", self.kick)
        case("what is going on is told as JSON", self.status)
        self.cases.leave_all()
        self.end()

    def set_up(self) -> None:
        """One of them will doze."""
        self.start.begin()
        three = self.gone, self.silent, self.dozing
        join_all(((station, self.host, "guests", GUESTS) for station in three), FIRST_SILENT)
        for station in three:
            station.ping(self.host.address, 4).whole()
            self.start.has_told(f"{station.hardware_address()} joins {GUESTS}: association identifier ")

    def out_of_reach(self) -> str:
        """It is taken out of the table; the record has its deauthentication, which the bridge gave."""
        address = self.gone.hardware_address()
        set_reach(self.gone, OUT_OF_REACH)
        begun = time.monotonic()
        told = f"{address} was forgotten by {GUESTS}: silent for "
        wait_for("the station is forgotten", 60, lambda: told in self.start.told())
        seconds = time.monotonic() - begun
        wait_for("it isn't in the table", 10, lambda: not self.start.station(GUESTS, address))
        departures = wait_for("the record has its deauthentication", 10, lambda: self.departures(address))
        if departures != 1:
            raise Failed(f"the record has {departures} deauthentications of the bridge")
        set_reach(self.gone, IN_REACH)
        self.gone.joined(60, GUESTS)
        wait_for("it is back", 60, lambda: " associated " in self.start.station(GUESTS, address))
        wait_for("its pings come back", 60, lambda: self.gone.ping(self.host.address, 1).result()[1])
        return f"after {seconds:.0f} seconds, with --idle {IDLE}"

    def departures(self, address: str) -> int:
        """How often the program was told that a silent station left: the record has it once it is written out."""
        frames = [Frame(bytes.fromhex(line[2:])) for line in self.start.recorded() if line.startswith("A ")]
        return sum(frame.is_management(DEAUTHENTICATION) and frame.transmitter == address_of(address)
                   and frame.body == bytes([4, 0]) for frame in frames)

    def fall_silent(self) -> str:
        """One is awake and one dozes; nobody speaks to them for three times that long, and then they ping at once."""
        address = self.dozing.hardware_address()
        self.dozing.run("iw", "dev", self.dozing.interface, "set", "power_save", "on")
        wait_for("a station dozes", 30, lambda: " doze " in self.start.station(GUESTS, address))
        joined = self.start.told().count(" joins ")
        time.sleep(3 * IDLE)
        asked = {station.name: self.questions(station) for station in (self.silent, self.dozing)}
        for station in (self.silent, self.dozing):
            if " associated " not in self.start.station(GUESTS, station.hardware_address()):
                raise Failed(f"{station.name} was forgotten: {asked}")
            station.ping(self.host.address, 4).whole()
        self.dozing.run("iw", "dev", self.dozing.interface, "set", "power_save", "off")
        if min(asked.values()) < 2 or self.start.told().count(" joins ") != joined:
            raise Failed(f"questions that another radio heard: {asked}")
        return f"questions that another radio heard: {asked}"

    def questions(self, station: Station) -> int:
        """How often a station was asked whether it is there: by a Null frame, or while it dozes by a unit."""
        found = [captured(packet) for packet in self.start.observed.packets_so_far()]
        frames = [Frame(packet.frame) for packet in found if packet]
        return sum(is_question(frame) and frame.transmitter == address_of(GUESTS)
                   and frame.receiver == address_of(station.hardware_address()) for frame in frames)

    def kick(self) -> str:
        """It hears a disassociation, and wpa_supplicant joins again; a station that isn't there is a fault."""
        address = self.silent.hardware_address()
        done = ask("kick", GUESTS, address)
        if done.returncode != 0 or address not in done.stdout:
            raise Failed(f"kick: status {done.returncode}: {done.stdout}{done.stderr}")
        self.start.has_told(f"{address} was forgotten by {GUESTS}: kicked")
        wait_for("it was heard", 10, lambda: any(
            frame.is_management(DISASSOCIATION) and frame.receiver == address_of(address)
            for frame in (Frame(packet.frame) for packet in map(captured, self.start.observed.packets_so_far()) if packet)))
        self.silent.joined(60, GUESTS)
        wait_for("it is back", 60, lambda: " associated " in self.start.station(GUESTS, address))
        wait_for("its pings come back", 30, lambda: self.silent.ping(self.host.address, 1).result()[1])
        for words, says in (((GUESTS, "02:aa:aa:aa:aa:aa"), "has no station"), ((LAB, address), "is no network")):
            failed = ask("kick", *words)
            if failed.returncode != 1 or says not in failed.stderr:
                raise Failed(f"kick {words}: status {failed.returncode}: {failed.stderr}")
        return done.stdout.strip()

    def status(self) -> str:
        """The stations with what was sent to them and heard of them. The page's user may ask and not kick, and any other
        may do neither."""
        wait_for("a hundred beacons", 30, lambda: json.loads(ask("status").stdout)["beacons"]["sent"] >= 100)
        found = json.loads(ask("status").stdout)
        network = found["networks"][0]
        stations = {station["address"]: station for station in network["stations"]}
        mine = stations[self.silent.hardware_address()]
        wanted = {"state": "associated", "kept": 0, "dozes": False}
        if any(mine[name] != value for name, value in wanted.items()):
            raise Failed(f"a station: {mine}")
        if not (mine["frames_to"] and mine["frames_from"] and mine["octets_to"] > 24 and mine["rate_to"]
                and mine["heard"] <= 3 * IDLE and mine["since"] >= 0):
            raise Failed(f"a station: {mine}")
        if network["counts"]["clock"] < 100 or found["beacons"]["sent"] < 100 or network["wire"] != "wire1":
            raise Failed(f"{found}")
        for user, says in (("waltigon-status", "only root may kick"), ("nobody", "Permission denied")):
            refused = self.kick_as(user)
            if refused.returncode != 1 or says not in refused.stderr:
                raise Failed(f"kick as {user}: {refused.stderr}")
        return f"{len(stations)} stations, {found['beacons']}"

    def kick_as(self, user: str) -> subprocess.CompletedProcess:
        """Kicks a station as another user, in that user's group alone."""
        return subprocess.run(["setpriv", "--reuid", user, "--regid", str(pwd.getpwnam(user).pw_gid), "--clear-groups",
                               LIVE, "kick", GUESTS, self.silent.hardware_address()],
                              capture_output=True, text=True, check=False)


class Flood(Part):
    """A flood of made-up addresses: it fills the network's table, and newcomers find room soon."""

    def __init__(self, cases) -> None:
        super().__init__(cases, cases.start("flood", (Net(GUESTS, "guests", "wire1"),)))
        self.host = cases.hosts[0]
        self.joined, self.newcomer = cases.stations[:2]

    def run(self) -> None:
        """Its cases in order."""
        self.begins("flood: the bridge begins, and a station joins", self.set_up)
        self.case(f"after {FLOOD} authentications of random addresses newcomers find room within {ROOM_SECONDS} "
                  "seconds", self.flood)
        self.cases.leave_all()
        self.cases.case("flood: the bridge ends, and takes down what it set up", self.end_start)
        self.cases.case("flood: `run` on the record gives what the program wrote", self.start.agrees_with_run)

    def set_up(self) -> None:
        """It stays through the flood."""
        self.start.begin()
        join_all([(self.joined, self.host, "guests", GUESTS)], FIRST_FLOOD)
        self.joined.ping(self.host.address, 4).whole()

    def flood(self) -> str:
        """Another radio sends them as fast as it can. Then one that asks again and again finds room in time, and a
        station joins; who was associated stays so."""
        begun, draw = time.monotonic(), random.Random(5)
        with socket.socket(socket.AF_PACKET, socket.SOCK_RAW) as sending:
            sending.bind((OBSERVER, 0))
            for _ in range(FLOOD):
                sending.send(authentication(bytes([2, *draw.randbytes(5)])))
                time.sleep(0.001)
            ended = time.monotonic()
            refused = self.network()["refusals"].get("1", 0)
            seconds = self.found_room(sending) - ended
        if not refused or seconds > ROOM_SECONDS:
            raise Failed(f"{refused} were refused by the end of the flood, and a newcomer for {seconds:.1f} seconds "
                         "after it")
        join_all([(self.newcomer, self.host, "guests", GUESTS)], FIRST_FLOOD + 1)
        for station in (self.joined, self.newcomer):
            station.ping(self.host.address, 4).whole()
        if self.start.told().count(f"{self.joined.hardware_address()} joins") != 1:
            raise Failed("who was associated had to join again")
        self.start.has_told(f"was forgotten by {GUESTS}, which is nearly full")
        return (f"sent within {ended - begun:.0f} seconds, {refused} refused by then; room after {seconds:.1f} "
                f"seconds, and the beacons {self.lateness()}")

    def found_room(self, sending: socket.socket) -> float:
        """When one was known that asks again and again to authenticate: asking for the status takes a second here."""
        found, ends = [], threading.Event()

        def ask_again() -> None:
            while not ends.wait(EVERY):
                sending.send(authentication(address_of(NEWCOMER)))

        def is_known() -> bool:
            stations, now = self.network()["stations"], time.monotonic()
            found.extend(now - station["since"] for station in stations if station["address"] == NEWCOMER)
            return bool(found)

        asking = threading.Thread(target=ask_again, daemon=True)
        asking.start()
        try:
            wait_for("a newcomer finds room", 60, is_known, EVERY)
        finally:
            ends.set()
            asking.join()
        return found[0]

    @staticmethod
    def network() -> dict:
        """What is going on in the network."""
        return json.loads(ask("status").stdout)["networks"][0]

    @staticmethod
    def lateness() -> str:
        """How late beacons were."""
        beacons = json.loads(ask("status").stdout)["beacons"]
        return f"{beacons['late_ms_mean']} ms late on the average, {beacons['late_ms_worst']} ms at worst"


class Reload(Part):
    """The configuration is read again."""

    def __init__(self, cases) -> None:
        self.three = (Net(GUESTS, "guests", "wire1"), Net(OFFICE, "office", "wire2", 2), Net(DEVICES, "devices", "wire3"))
        self.wires = "/tmp/cases/wires"
        super().__init__(cases, cases.start("reload", self.three, more=("--wires", self.wires)))
        self.before: Start | None = None
        self.stations = cases.stations[:3]
        self.hosts = cases.hosts

    def run(self) -> None:
        """Its cases in order."""
        case = self.case
        self.begins("reload: the bridge begins, and a station joins each of three networks", self.set_up)
        case("a configuration with a fault changes nothing, and no ping is lost", self.fault)
        case("one of three networks changes: the others' stations stay", self.change)
        case("reload: `run` on the first record gives what the program wrote before", self.agrees_before)
        self.cases.leave_all()
        self.cases.case("reload: the bridge ends, and takes down what it set up", self.end_start)
        self.cases.case("reload: `run` on the second record gives what the program wrote after",
                        self.start.agrees_with_run)
        self.cases.case("reload: another radio heard what both wrote, but for what was swallowed", self.agrees_with_observed)

    def agrees_before(self) -> str:
        """Of the program before the change."""
        if self.before is None:
            self.change()
        return self.before.agrees_with_run()

    def agrees_with_observed(self) -> str:
        """Of both programs."""
        if self.before is None:
            raise Failed("the configuration was not read again")
        return self.start.agrees_with_observed((self.before,))

    def write_wires(self, networks: tuple[Net, ...]) -> None:
        """The wires stand in a file, which is read again too."""
        write(self.wires, "".join(f"{net.bssid}={net.port}  # {net.ssid}\n" for net in networks))

    def set_up(self) -> None:
        """Each has a host of its own."""
        self.before = None
        self.write_wires(self.three)
        self.start.begin()
        members = list(zip(self.stations, self.hosts, self.three))
        join_all(((station, host, net.ssid, net.bssid) for station, host, net in members), FIRST_RELOADED)
        for station, host, _ in members:
            station.ping(host.address, 4).whole()

    def fault(self) -> str:
        """It is told by its name, and all goes on."""
        text = read(self.start.config)
        pings = [station.ping(host.address, 12) for station, host in zip(self.stations, self.hosts)]
        write(self.start.config, text.replace("dtim = 2", "dtim = 0"))
        self.start.reload("fault C11 network 1")
        self.start.has_told("all stays as it is")
        write(self.start.config, text)
        for ping in pings:
            ping.whole()
        return "36 of 36 pings came back"

    def change(self) -> str:
        """The third network gets another address; its wire and its interface follow."""
        changed = (*self.three[:2], Net(LAB, "lab", "wire3"))
        self.before = self.start.change_to(changed)
        self.write_wires(changed)
        logs = []
        for station, host in zip(self.stations[:2], self.hosts):
            logs.append(os.path.join(self.start.folder, f"ping-{station.name}"))
            with open(logs[-1], "wb") as log:
                station.start("timeout", "60", "ping", "-n", "-i", str(EVERY), host.address, output=log)
        begun = time.monotonic()
        self.start.reload("reading ")
        wait_for("the new program's networks", 30, lambda: self.start.told().count("networks are on channel") == 2, 0.1)
        sizes = [os.path.getsize(log) for log in logs]
        anew = time.monotonic() - begun

        def answered() -> bool:
            return all(" bytes from " in read(log)[size:] for log, size in zip(logs, sizes))
        wait_for("the others' pings", RELOAD_SECONDS, answered, 0.1)
        seconds = time.monotonic() - begun
        for station, net in zip(self.stations, changed[:2]):
            station.joined(bssid=net.bssid)
        if self.stations[2].network() == DEVICES:
            raise Failed("a station still is in the network that isn't there any more")
        self.stations[2].stop()
        join_all([(self.stations[2], self.hosts[2], "lab", LAB)], FIRST_RELOADED + 2)
        self.stations[2].ping(self.hosts[2].address, 4).whole()
        address = run("cat", "/sys/class/net/mon0n3/address").strip()
        if address != LAB:
            raise Failed(f"the third interface has the address {address}")
        if seconds > RELOAD_SECONDS:
            raise Failed(f"the others' pings came after {seconds:.1f} seconds")
        dismissed = [frame for frame in map(captured, self.start.observed.packets_so_far()) if frame
                     and Frame(frame.frame).is_management(DEAUTHENTICATION) and frame.frame[4:10] == BROADCAST]
        if [frame.frame[10:16] for frame in dismissed] != [address_of(DEVICES)]:
            raise Failed(f"{len(dismissed)} deauthentications of all were heard")
        if "1 stations of 02:00:00:00:01:01 stay" not in self.start.told():
            raise Failed(f"no station stays: {self.start.told()[-500:]}")
        return f"the program anew after {anew:.1f}, the others' pings after {seconds:.1f} seconds"


class ByHand:
    """The commands of docs/OPERATING.md, 'By hand', as they stand there but for the radios' names."""

    SECTION, NEXT = "\n### By hand\n", "\n## "
    BLOCK = re.compile(r"^```(?:toml|bash)\n(.*?)^```$", re.MULTILINE | re.DOTALL)

    def __init__(self, folder: str, program: str) -> None:
        self.folder = os.path.join(folder, "by-hand")
        self.program = program

    def run(self) -> str:
        """A station joins and pings the host; what was recorded is what `run` takes."""
        page = read(os.path.join(TOP, "docs", "OPERATING.md"))
        section = page.partition(self.SECTION)[2].partition(self.NEXT)[0]
        config, wires, serving, joining = self.BLOCK.findall(section)
        self.check_out()
        write(os.path.join(self.folder, "my.toml"), config)
        loading, _, wires = wires.partition("\n")
        if loading != "sudo modprobe mac80211_hwsim radios=2":
            raise Failed(f"the first command is {loading}")
        radios = load_radios(2)
        names = {"phy0": radios[0].phy, "phy1": radios[1].phy}
        log, process = os.path.join(self.folder, "log"), None
        try:
            self.shell(wires, names)
            with open(log, "wb") as file:
                process = subprocess.Popen(self.words(serving, names), cwd=self.folder, stdin=subprocess.DEVNULL,
                                           stdout=file, stderr=file, start_new_session=True)
            wait_for("the access point", 30, lambda: READY in read(log) or process.poll() is not None)
            if process.poll() is not None:
                raise Failed(read(log))
            told = self.shell(joining, names)
            os.killpg(process.pid, signal.SIGINT)
            process.wait(60)
        finally:
            if process is not None and process.poll() is None:
                os.killpg(process.pid, signal.SIGKILL)
            for name in ("host", "station"):
                subprocess.run(["ip", "netns", "del", name], capture_output=True, check=False)
            unload_radios()
        if "Connected to 02:00:00:00:01:01" not in told or "4 packets transmitted, 4 received" not in told:
            raise Failed(f"{told} {read(log)}")
        return "4 of 4 pings came back"

    def check_out(self) -> None:
        """The tools and what was built, on a file system of this machine: the program runs from no other within its
        bounds."""
        for path, name in ((self.program, "apctl"), (COMPILED, os.path.relpath(COMPILED, os.path.join(TOP, "build")))):
            place = os.path.join(self.folder, "build", name)
            os.makedirs(os.path.dirname(place))
            shutil.copy(path, place)
        shutil.copytree(os.path.join(TOP, "tools"), os.path.join(self.folder, "tools"), symlinks=True,
                        ignore=shutil.ignore_patterns("bridge", "guest"))

    def words(self, commands: str, names: dict[str, str]) -> list[str]:
        """Commands for bash, where root needs no sudo."""
        for written, found in names.items():
            commands = commands.replace(written, found)
        return ["bash", "-ec", f'sudo() {{ "$@"; }}\n{commands}']

    def shell(self, commands: str, names: dict[str, str]) -> str:
        """Runs them, and gives what they say."""
        done = subprocess.run(self.words(commands, names), cwd=self.folder, capture_output=True, text=True, check=False)
        if done.returncode != 0:
            raise Failed(f"status {done.returncode}: {done.stdout}{done.stderr}")
        return done.stdout
