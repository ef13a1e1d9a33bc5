"""Two kinds of access points of several networks each: this one, and Debian's hostapd with the kernel's own. Both kinds
serve the same wires, one after the other. Of one kind several may serve a site, each with a number and a radio."""
import os
import signal
from dataclasses import dataclass

from airing import HOSTAPD_TEXT, MORE_HOSTAPD_TEXT, RATES
from stage import BY, NETWORK_TEXT, RADIO_TEXT, READY, TIMEOUT
from stations import Program, join_bridge, run, write

SECONDS_TO_END = 60
CHANNEL = 6


@dataclass(frozen=True)
class Served:
    """A network that an access point has to serve: its name, and the interface of its wire."""

    ssid: str
    port: str


class Point(Program):
    """An access point, of which a process is the main part."""

    name = ""
    # The address of its first network; those of the others follow.
    first_bssid = 0
    number, channel = 0, CHANNEL

    def __init__(self, folder: str, phy: str, number: int = 0, channel: int = CHANNEL) -> None:
        self.phy, self.number, self.channel = phy, number, channel
        self.folder = os.path.join(folder, f"{self.name}{number or ''}")
        os.makedirs(self.folder, exist_ok=True)
        self.config, self.log = (os.path.join(self.folder, file) for file in ("config", "log"))

    def bssid(self, place: int) -> str:
        """The address of the network at this place."""
        return f"02:00:00:00:{16 * self.number + 1:02x}:{self.first_bssid + place:02x}"

    def start(self, words: list[str], says: str) -> None:
        """Starts the process, and waits until it says that it has begun."""
        self.start_process(words)
        self.wait_until_begun(self.name, says, TIMEOUT, 0.1)

    def end(self) -> None:
        """Ends the process, where it hasn't ended by itself."""
        if self.is_running():
            self.process.send_signal(signal.SIGTERM)
        if self.process is not None:
            self.process.wait(SECONDS_TO_END)


class Own(Point):
    """This access point: tools/live with a bridge and a program."""

    name = "waltigon"
    first_bssid = 1

    def __init__(self, folder: str, phy: str, live: str, program: str, bridge: str | None, number: int = 0,
                 channel: int = CHANNEL) -> None:
        super().__init__(folder, phy, number, channel)
        self.words = [live, self.config, "--phy", phy, "--program", program, "--monitor", f"mon{number}", *BY]
        self.words += ["--bridge", bridge] if bridge else []

    def begin(self, networks: list[Served], more: tuple[str, ...] = ()) -> None:
        """Begins it with these networks, and with more words of tools/live."""
        words = [*self.words, *more]
        text = RADIO_TEXT.format(version=1).replace(f"channel = {CHANNEL}\n", f"channel = {self.channel}\n")
        for place, network in enumerate(networks):
            bssid = self.bssid(place)
            text += NETWORK_TEXT.format(bssid=bssid, ssid=network.ssid, rates=RATES, dtim=1, more="")
            words += ["--wire", f"{bssid}={network.port}"]
        write(self.config, text)
        self.start(words, READY)


class Hostapd(Point):
    """Debian's hostapd; each network is bridged to its wire by the kernel."""

    name = "hostapd"

    def __init__(self, folder: str, phy: str, number: int = 0, channel: int = CHANNEL) -> None:
        super().__init__(folder, phy, number, channel)
        self.interface = f"ap{number}"
        self.bridges: list[str] = []

    def begin(self, networks: list[Served], more: tuple[str, ...] = ()) -> None:
        """Begins it with these networks; there are no more words."""
        assert not more
        run("iw", "phy", self.phy, "interface", "add", self.interface, "type", "managed", "addr", self.bssid(0))
        self.bridges = [f"br{self.number}-{place}" for place, _ in enumerate(networks)]
        config = ""
        for place, (network, bridge) in enumerate(zip(networks, self.bridges)):
            text = MORE_HOSTAPD_TEXT if place else HOSTAPD_TEXT
            config += text.format(interface=self.interface_of(place), folder=self.folder, bridge=bridge, dtim=1,
                                  ssid=network.ssid, bssid=self.bssid(place), channel=self.channel)
            run("ip", "link", "add", bridge, "type", "bridge")
            join_bridge(bridge, network.port)
        write(self.config, config)
        self.start(["hostapd", self.config], "AP-ENABLED")

    def interface_of(self, place: int) -> str:
        """The interface of the network at this place."""
        return f"{self.interface}_{place}" if place else self.interface

    def end(self) -> None:
        """Ends it, and takes down what it needed."""
        super().end()
        for bridge in self.bridges:
            run("ip", "link", "del", bridge)
        self.bridges = []
        run("iw", "dev", self.interface, "del")
