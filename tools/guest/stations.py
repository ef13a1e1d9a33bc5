"""Simulated radios (mac80211_hwsim), stations and wired hosts, each in a network namespace of its own: what the demo
and the test of real stations are played with."""
import glob
import os
import re
import signal
import socket
import subprocess
import tempfile
import time
from collections.abc import Iterable
from contextlib import suppress
from dataclasses import dataclass, field

SIMULATION = "/sys/class/mac80211_hwsim"
RECEIVED = re.compile(r"(?P<sent>\d+) packets transmitted, (?P<received>\d+) received")
STATION_CONFIG = """ctrl_interface={folder}
network={{
    ssid="{ssid}"
    key_mgmt=NONE
    scan_freq={frequency}
{more}}}
"""


class Failed(Exception):
    """A command of the stage failed, or what was waited for didn't come."""


def run(*words: str) -> str:
    """What a command writes on standard output."""
    done = subprocess.run(words, capture_output=True, text=True, check=False)
    if done.returncode != 0:
        raise Failed(f"`{' '.join(words)}`: {(done.stderr or done.stdout).strip()}")
    return done.stdout


def read(path: str) -> str:
    """The text of a file."""
    with open(path, encoding="utf-8", errors="replace") as file:
        return file.read()


def write(path: str, text: str, mode: int | None = None) -> None:
    """Writes a file."""
    with open(path, "w", encoding="utf-8") as file:
        file.write(text)
    if mode is not None:
        os.chmod(path, mode)


def kill_each(processes: Iterable[int]) -> None:
    """Kills each; one may have ended by itself, as since the one before was killed."""
    for process in processes:
        with suppress(ProcessLookupError):
            os.kill(process, signal.SIGKILL)


def wait_until(moment: float) -> None:
    """Waits until this moment of the monotonic clock, or not at all where it has been."""
    time.sleep(max(0.0, moment - time.monotonic()))


def wait_for(what: str, seconds: float, asked, every: float = 0.3):
    """Asks until the answer is true, and gives it; Failed after so many seconds."""
    until = time.monotonic() + seconds
    while True:
        answer = asked()
        if answer:
            return answer
        if time.monotonic() > until:
            raise Failed(f"{what}: not within {seconds:.0f} seconds")
        time.sleep(every)


class Program:
    """A program that runs beside, and writes into a log."""

    log = ""
    process: subprocess.Popen | None = None

    def start_process(self, words: list[str]) -> None:
        """Starts it, with a log that is empty."""
        with open(self.log, "ab") as log:
            log.truncate(0)
            self.process = subprocess.Popen(words, stdin=subprocess.DEVNULL, stdout=log, stderr=log)

    def wait_until_begun(self, what: str, says: str, seconds: float = 30, every: float = 0.3) -> None:
        """Waits until it says that it has begun; Failed where it ends before."""
        wait_for(f"{what} begins", seconds, lambda: says in self.told() or not self.is_running(), every)
        if not self.is_running():
            raise Failed(f"{what} didn't begin: {self.told()}")

    def is_running(self) -> bool:
        """Whether it has begun and not ended."""
        return self.process is not None and self.process.poll() is None

    def told(self) -> str:
        """What it has told since it began."""
        return read(self.log)


@dataclass(frozen=True)
class Radio:
    """A simulated radio, with the interface that it came with."""

    phy: str
    interface: str


def load_radios(number: int) -> list[Radio]:
    """Loads the simulation with so many radios. Where CHANNELS says that each can be on several channels at a time, they
    have channel contexts, as most real ones; else the kernel emulates these from Linux 6.9 on."""
    if os.path.isdir(SIMULATION):
        raise Failed("mac80211_hwsim is loaded already: take it out by `modprobe -r mac80211_hwsim`")
    run("modprobe", "mac80211_hwsim", f"radios={number}", f"channels={os.environ.get('CHANNELS', '1')}")
    folders = wait_for("simulated radios", 10, lambda: glob.glob(f"{SIMULATION}/hwsim*/net/*"))
    radios = []
    for folder in folders:
        device = os.path.dirname(os.path.dirname(folder))
        radios.append(Radio(os.listdir(f"{device}/ieee80211")[0], os.path.basename(folder)))
    return sorted(radios, key=lambda radio: int(radio.phy.removeprefix("phy")))


def unload_radios() -> None:
    """Takes the simulation out."""
    run("modprobe", "-r", "mac80211_hwsim")


@dataclass
class Namespace:
    """A network namespace with one interface and one IPv4 address."""

    name: str
    interface: str
    address: str

    def create(self) -> None:
        """Makes it; links of it are named as in this namespace."""
        run("ip", "netns", "add", self.name)
        run("ip", "-n", self.name, "link", "set", "lo", "up")
        self.ask_no_routers()

    def ask_no_routers(self) -> None:
        """Sends no router solicitations: there are no routers. For its own a station that dozes would wake at a time of
        its own. By a host's, which is a unit for the group, a Linux station that polls leaves the rest of its units
        until the next beacon."""
        number = "/proc/sys/net/ipv6/conf/default/router_solicitations"
        self.run("sh", "-c", f"[ ! -e {number} ] || echo 0 >{number}")

    def end_all(self) -> None:
        """Ends what runs in it."""
        kill_each(map(int, run("ip", "netns", "pids", self.name).split()))

    def delete(self) -> None:
        """Takes it away, with what is in it."""
        subprocess.run(["ip", "netns", "del", self.name], capture_output=True, check=False)

    def words(self, *words: str) -> list[str]:
        """A command in it."""
        return ["ip", "netns", "exec", self.name, *words]

    def run(self, *words: str) -> str:
        """Runs a command in it."""
        return run(*self.words(*words))

    def start(self, *words: str, output=subprocess.DEVNULL) -> subprocess.Popen:
        """Starts a command in it."""
        return subprocess.Popen(self.words(*words), stdin=subprocess.DEVNULL, stdout=output, stderr=subprocess.STDOUT)

    def give_address(self) -> None:
        """Sets the interface up with the address, and with no other that an earlier row of cases gave it."""
        run("ip", "-n", self.name, "link", "set", self.interface, "up")
        for other in run("ip", "-n", self.name, "-4", "-br", "address", "show", "dev", self.interface).split()[2:]:
            if other != f"{self.address}/24":
                run("ip", "-n", self.name, "address", "del", other, "dev", self.interface)
        run("ip", "-n", self.name, "address", "replace", f"{self.address}/24", "broadcast", "+", "dev", self.interface)

    def hardware_address(self) -> str:
        """The interface's address of 48 bits."""
        return run("ip", "-n", self.name, "-br", "link", "show", "dev", self.interface).split()[2]

    def link_local(self) -> str:
        """The interface's own IPv6 address, once no neighbour has it."""
        def found():
            text = run("ip", "-n", self.name, "-6", "address", "show", "dev", self.interface, "scope", "link",
                       "-tentative")
            match = re.search(r"inet6 (\S+)/", text)
            return match and match.group(1)
        return wait_for(f"{self.name}: IPv6 address", 30, found)

    def know(self, address: str, hardware: str) -> None:
        """It knows the address of 48 bits of another, as long as its interface is up, and doesn't ask for it."""
        self.run("ip", "neighbour", "replace", address, "lladdr", hardware, "dev", self.interface, "nud", "permanent")

    def forget_neighbours(self) -> None:
        """Forgets the others' addresses, so that they are asked for."""
        run("ip", "-n", self.name, "neighbour", "flush", "dev", self.interface)

    def ping(self, to: str, count: int = 12, every: float = 0.25, size: int = 56, more: tuple[str, ...] = ()) -> "Ping":
        """Starts a ping."""
        words = ["-c", str(count), "-i", str(every), "-s", str(size), "-W", "5", *more]
        return Ping(self.name, to, self.start("ping", "-q", "-n", *words, to, output=subprocess.PIPE))


@dataclass
class Ping:
    """A ping that runs."""

    name: str
    to: str
    process: subprocess.Popen

    def result(self) -> tuple[int, int]:
        """How many were sent, and how many came back, once it has ended."""
        text = self.process.communicate()[0].decode()
        match = RECEIVED.search(text)
        if not match:
            raise Failed(f"ping from {self.name} to {self.to}: {text.strip()}")
        return int(match["sent"]), int(match["received"])

    def whole(self) -> None:
        """Failed where one was lost."""
        sent, received = self.result()
        if sent != received:
            raise Failed(f"ping from {self.name} to {self.to}: {received} of {sent} came back")

    def none(self) -> None:
        """Failed where one came back."""
        sent, received = self.result()
        if received:
            raise Failed(f"ping from {self.name} to {self.to}: {received} of {sent} came back, and none should")


@dataclass
class Host(Namespace):
    """A wired host; `port` is the other end of its wire, in this machine's own namespace."""

    port: str = ""

    def create(self) -> None:
        """Makes it with its wire; frames come with checksums, and none is longer than a frame."""
        super().create()
        run("ip", "link", "add", self.port, "type", "veth", "peer", "name", self.interface, "netns", self.name)
        run("ip", "link", "set", self.port, "addrgenmode", "none")
        self.run("ethtool", "-K", self.interface, "tx", "off", "gso", "off", "tso", "off")
        self.give_address()


@dataclass
class Station(Namespace):
    """An unmodified Linux station: a radio, the kernel's mac80211 and wpa_supplicant."""

    phy: str = ""
    # Where it looks for networks: one frequency, or several with spaces between.
    frequency: int | str = 2437
    folder: str = field(default_factory=lambda: tempfile.mkdtemp(prefix="station-"))
    supplicant: subprocess.Popen | None = None

    def create(self) -> None:
        """Makes the namespace, and moves the radio there."""
        super().create()
        run("iw", "phy", self.phy, "set", "netns", "name", self.name)

    def delete(self) -> None:
        """Takes it away; the radio goes back."""
        self.stop()
        super().delete()

    def begin(self, ssid: str, bssid: str | None = None) -> None:
        """Begins to look for a network, of any or of this BSSID; what it did before has ended."""
        self.stop()
        path = os.path.join(self.folder, "config")
        write(path, STATION_CONFIG.format(folder=os.path.join(self.folder, "control"), ssid=ssid,
                                          frequency=self.frequency, more=f"    bssid={bssid}\n" if bssid else ""))
        self.give_address()
        self.supplicant = self.start("wpa_supplicant", "-D", "nl80211", "-i", self.interface, "-c", path, "-f",
                                     os.path.join(self.folder, "log"))

    def stop(self) -> None:
        """Ends its wpa_supplicant, by which it leaves its network."""
        if self.supplicant is not None:
            self.supplicant.terminate()
            self.supplicant.wait()
            self.supplicant = None

    def ask(self, command: str) -> str:
        """What its wpa_supplicant answers."""
        own = os.path.join(self.folder, "asking")
        with socket.socket(socket.AF_UNIX, socket.SOCK_DGRAM) as asking:
            asking.settimeout(10)
            try:
                asking.bind(own)
                asking.connect(os.path.join(self.folder, "control", self.interface))
                asking.send(command.encode())
                return asking.recv(65536).decode()
            except OSError as fault:
                return f"FAIL {fault}"
            finally:
                if os.path.exists(own):
                    os.unlink(own)

    def network(self) -> str | None:
        """The BSSID of the network that it has joined, or None."""
        status = dict(line.split("=", 1) for line in self.ask("STATUS").splitlines() if "=" in line)
        return status.get("bssid") if status.get("wpa_state") == "COMPLETED" else None

    def joined(self, seconds: float = 60, bssid: str | None = None) -> str:
        """The network, once it has joined one, or this one."""
        def found():
            network = self.network()
            return network if bssid is None or network == bssid else None
        return wait_for(f"{self.name} joins {bssid or 'a network'}", seconds, found)


def join_bridge(bridge: str, *ports: str) -> None:
    """Puts ports into a bridge of the kernel. Neither it nor they say anything of their own."""
    for name in (*ports, bridge):
        run("ip", "link", "set", name, "addrgenmode", "none")
    for name in ports:
        run("ip", "link", "set", name, "master", bridge, "up")
    run("ip", "link", "set", bridge, "up")


def know_each_other(*parts: Namespace) -> None:
    """Each knows the others' addresses: a request for one is a broadcast, which is sent once and may be lost."""
    for part in parts:
        for other in parts:
            if other is not part:
                part.know(other.address, other.hardware_address())
