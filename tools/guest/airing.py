"""The air that loses frames, as the cases use it, and the two access points that are set beside each other on it."""
import os
import re
import signal
import subprocess
from dataclasses import dataclass

from stage import Net, Start, new_folder
from stations import Failed, Host, Program, Station, join_bridge, run, write

READY, DONE = "ready", "ok"
BEFORE_ALL = ("chrt", "--fifo", "50")
TRIED = re.compile(r"from (?P<sender>\d+) to (?P<to>\S+) (?P<kind>\S+) at (?P<rate>\S+) tries (?P<tries>\d+) "
                   r"heard (?P<heard>\d+) acknowledged (?P<acknowledged>\d+)")
TIMED = re.compile(r"from (?P<sender>\S+) to (?P<to>\S+) (?P<kind>\S+) tries (?P<tries>\d+) sending (?P<sending>\d+) "
                   r"spaces (?P<spaces>\d+) dropped (?P<dropped>\d+)")
BRIDGE, AP = "br0", "ap0"
OTHER_BRIDGE, OTHER_AP = "br1", "ap0_1"
HOSTAPD_TEXT = """interface={interface}
bridge={bridge}
driver=nl80211
ctrl_interface={folder}/control
ssid={ssid}
hw_mode=g
channel={channel}
beacon_int=100
dtim_period={dtim}
auth_algs=1
wmm_enabled=0
basic_rates=10 20
supported_rates=10 20 55 110 60 90 120 180 240 360 480 540
"""
MORE_HOSTAPD_TEXT = """bss={interface}
bssid={bssid}
bridge={bridge}
ssid={ssid}
dtim_period=1
auth_algs=1
wmm_enabled=0
"""
# The same rates as the octets of elements.
RATES = "82840b160c1218243048606c"


@dataclass(frozen=True)
class Tried:
    """What one radio sent to another, of one kind of frame at one rate, in Mb/s."""

    sender: int
    to: str
    kind: str
    rate: float
    tries: int
    heard: int
    acknowledged: int


@dataclass(frozen=True)
class Airtime:
    """How long one address sent to another, of one kind of frame: nanoseconds of the frames with their
    acknowledgements, and of what is waited before each; and how many frames the radio dropped."""

    sender: str
    to: str
    kind: str
    tries: int
    sending: int
    spaces: int
    dropped: int


class Air:
    """The program that carries the frames of the simulated radios from now on; `observer` hears all of them. With
    `is_first` it waits for no other program of the guest, as an air doesn't, however busy the processor is."""

    def __init__(self, program: str, radios: int, seed: int, observer: int, log: str, is_first: bool = False) -> None:
        self.observer = observer
        words = [*(BEFORE_ALL if is_first else ()), program, str(radios), str(seed)]
        with open(log, "wb") as file:
            self.process = subprocess.Popen(words, stdin=subprocess.PIPE, stdout=subprocess.PIPE, stderr=file,
                                            text=True)
        if self.process.stdout.readline().strip() != READY:
            raise Failed(f"the air didn't begin: {log}")
        self.lose()

    def tell(self, line: str) -> list[str]:
        """Tells it something, and gives what it answers."""
        self.process.stdin.write(f"{line}\n")
        self.process.stdin.flush()
        answers = []
        while True:
            answer = self.process.stdout.readline().strip()
            if answer == DONE:
                return answers
            if not answer or answer.startswith("fault "):
                raise Failed(f"the air answers `{line}` by `{answer}`")
            answers.append(answer)

    def lose(self, *rules: str) -> None:
        """From now on it loses what these rules say, and nothing else."""
        self.tell("clear")
        for rule in (*rules, f"frames 0% to {self.observer}"):
            self.tell(f"lose {rule}")

    def queue_by(self, radio: int, discipline: str) -> None:
        """From now on a radio queues by a discipline: `unbounded`, `one` or `fair`."""
        self.tell(f"queue {radio} {discipline}")

    def let_sleepers(self, word: str) -> None:
        """From now on radios that doze `hear` all the same, or are `deaf`."""
        self.tell(f"sleepers {word}")

    def give(self, radio: int, address: str) -> None:
        """A radio has this address too, of which the kernel doesn't tell."""
        self.tell(f"has {radio} {address}")

    def airtimes(self) -> list[Airtime]:
        """How long was sent since it began to count."""
        found = (TIMED.fullmatch(line) for line in self.tell("airtime"))
        return [Airtime(match["sender"], match["to"], match["kind"], int(match["tries"]), int(match["sending"]),
                        int(match["spaces"]), int(match["dropped"])) for match in found if match]

    def forget(self) -> None:
        """Begins to count anew."""
        self.tell("forget")

    def report(self) -> list[Tried]:
        """What was sent since it began to count."""
        found = (TRIED.fullmatch(line) for line in self.tell("report"))
        return [Tried(int(match["sender"]), match["to"], match["kind"], float(match["rate"]), int(match["tries"]),
                      int(match["heard"]), int(match["acknowledged"])) for match in found if match]

    def end(self) -> None:
        """Ends it: the kernel carries the frames again."""
        self.process.stdin.close()
        self.process.wait(20)


@dataclass(frozen=True)
class PowerSave:
    """How an access point serves those that doze: the DTIM period, and for this access point alone how many units it
    keeps at most, and whether it keeps none for longer than a station's listen interval."""

    dtim: int = 1
    quota: int = 200
    aging: bool = False


@dataclass(frozen=True)
class Other:
    """Another network of an access point: its address, its name, and the host at its wire."""

    bssid: str
    ssid: str
    host: Host


class Own:
    """This access point: the bridge and the program."""

    name = "waltigon"

    def __init__(self, folder: str, bridge: str, program: str, phy: str, bssid: str, ssid: str, host: Host,
                 power_save: PowerSave = PowerSave(), max_known: int = 128, other: Other | None = None) -> None:
        self.bssid, self.ssid = bssid, ssid
        # Version 2 of the configuration asks for both words.
        more = f"relay = true\naging = {str(power_save.aging).lower()}\n"
        net = Net(bssid, ssid, host.port, rates=RATES, dtim=power_save.dtim, quota=power_save.quota, more=more,
                  max_known=max_known)
        others = [Net(other.bssid, other.ssid, other.host.port, rates=RATES, more=more)] if other else []
        self.start = Start(self.name, folder, bridge, program, phy, (net, *others), version=2)

    def begin(self) -> None:
        """Begins it."""
        self.start.begin()

    def station(self, address: str) -> str:
        """What its table says of a station, or nothing."""
        return self.start.station(self.bssid, address)

    def end(self) -> str:
        """Ends it; what was written has to be what `run` reports of the record."""
        self.start.end()
        return self.start.agrees_with_run()


class Hostapd(Program):
    """Debian's hostapd with the kernel's own access point, bridged to the same wire."""

    name = "hostapd"

    def __init__(self, folder: str, phy: str, bssid: str, ssid: str, host: Host,
                 power_save: PowerSave = PowerSave(), other: Other | None = None) -> None:
        self.folder = new_folder(folder, self.name)
        self.power_save, self.other = power_save, other
        self.phy, self.bssid, self.ssid, self.host = phy, bssid, ssid, host
        self.config, self.log = os.path.join(self.folder, "config"), os.path.join(self.folder, "log")

    def begin(self) -> None:
        """Begins it."""
        text = HOSTAPD_TEXT.format(interface=AP, bridge=BRIDGE, folder=self.folder, ssid=self.ssid, channel=6,
                                   dtim=self.power_save.dtim)
        if self.other:
            text += MORE_HOSTAPD_TEXT.format(interface=OTHER_AP, bridge=OTHER_BRIDGE, ssid=self.other.ssid,
                                             bssid=self.other.bssid)
        write(self.config, text)
        run("iw", "phy", self.phy, "interface", "add", AP, "type", "managed", "addr", self.bssid)
        for bridge, port in self.wires():
            run("ip", "link", "add", bridge, "type", "bridge")
            join_bridge(bridge, port)
        self.begin_process()

    def wires(self) -> list[tuple[str, str]]:
        """The kernel's bridge of each network, and the wire in it."""
        return [(BRIDGE, self.host.port)] + ([(OTHER_BRIDGE, self.other.host.port)] if self.other else [])

    def begin_process(self) -> None:
        """Begins hostapd alone; all else is there."""
        self.start_process(["hostapd", self.config])
        self.wait_until_begun("hostapd", "AP-ENABLED", 30, 0.02)

    def begin_again(self) -> None:
        """It is killed, and begun again at once."""
        self.process.kill()
        self.process.wait()
        self.begin_process()

    def reload(self) -> None:
        """It reads its configuration again."""
        self.process.send_signal(signal.SIGHUP)

    def station(self, address: str) -> str:
        """What the kernel says of a station, or nothing."""
        return " ".join(run("iw", "dev", AP, "station", "dump").partition(f"Station {address} ")[2].split())

    def end(self) -> str:
        """Ends it, and takes down what it needed."""
        self.process.terminate()
        self.process.wait(20)
        for bridge, _ in self.wires():
            run("ip", "link", "del", bridge)
        run("iw", "dev", AP, "del")
        return ""


def live_with(folder: str, live: str, bridge: str | None) -> str:
    """The script tools/live, or one that starts it with another bridge than the built one."""
    if bridge is None:
        return live
    path = os.path.join(folder, "live")
    write(path, f'#!/bin/sh\nexec {live} "$@" --bridge {os.path.realpath(bridge)}\n', 0o755)
    return path


def heard_at(station: Station) -> float:
    """The rate in Mb/s at which a station heard its access point last, as the station's kernel says."""
    text = station.run("iw", "dev", station.interface, "station", "dump")
    found = re.search(r"rx bitrate:\s+([\d.]+) MBit/s", text)
    if not found:
        raise Failed(f"{station.name} says nothing of its rate: {text}")
    return float(found.group(1))
