"""An access point with a radio of this script, for tests of stations that stay: the compiled bridge and a program run as
`tools/live` starts them. Stations join, the program and the bridge are killed and the configuration is read again; what
the networks' tables say then, and what was sent on the air, is printed as JSON.

Usage: unshare --net --mount tools/tests/staying.py BRIDGE PROGRAM FOLDER, as root.
"""
import json
import os
import shutil
import signal
import socket
import sys
import threading
import time

HERE = os.path.dirname(os.path.realpath(__file__))
TOOLS = os.path.dirname(HERE)
sys.path[:0] = [HERE, os.path.join(TOOLS, "lib"), os.path.join(TOOLS, "guest")]
sys.dont_write_bytecode = True
import confined  # noqa: E402
from configurations import LAB, configuration, network  # noqa: E402
from confined import OURS, SECONDS, process_of, serve  # noqa: E402
from frames import address_of, address_text  # noqa: E402
from live import asking, serving  # noqa: E402
from live.checks import Plan  # noqa: E402
from live.settings import read_settings  # noqa: E402
from stations import read, wait_for, write  # noqa: E402

OTHER = address_of("02:00:00:00:01:02")
TWO_NETWORKS = configuration(LAB, network("02:00:00:00:01:02", "other"))
NO_FIELDS = bytes([0, 0, 8, 0, 0, 0, 0, 0])
STATIONS = [address_of(f"02:aa:00:00:00:0{number}") for number in range(1, 6)]
RATES = bytes.fromhex("010482840b16")
DEAUTHENTICATION = b"\xc0"


class Air:
    """The other end of the radio: frames of stations are sent by it, and those of the networks are kept."""

    def __init__(self):
        self.sending = socket.socket(socket.AF_PACKET, socket.SOCK_RAW)
        self.sending.bind(("air0", 0))
        self.hearing = socket.socket(socket.AF_PACKET, socket.SOCK_RAW, socket.htons(3))
        self.hearing.bind(("air0", 0))
        self.heard = []
        threading.Thread(target=self.hear, daemon=True).start()

    def hear(self):
        """Keeps what the networks send."""
        while True:
            packet, address = self.hearing.recvfrom(8192)
            if address[2] != socket.PACKET_OUTGOING:
                self.heard.append(packet[int.from_bytes(packet[2:4], "little"):])

    def say(self, control, station, bssid, body=b""):
        """A station sends a frame to a network."""
        self.sending.send(NO_FIELDS + control + bytes(2) + bssid + station + bssid + bytes(2) + body)

    def join(self, station, bssid, ssid):
        """A station authenticates and associates."""
        self.say(b"\xb0\x00", station, bssid, bytes([0, 0, 1, 0, 0, 0]))
        time.sleep(0.05)
        self.say(b"\x00\x00", station, bssid, bytes([1, 0, 5, 0, 0, len(ssid)]) + ssid + RATES)
        time.sleep(0.05)

    def told_to_leave(self):
        """Who was deauthenticated, and by whom."""
        return [(address_text(frame[4:10]), address_text(frame[10:16])) for frame in self.heard
                if frame[:1] == DEAUTHENTICATION]


def tables():
    """What the status says of the stations: of each network their addresses, identifiers and modes."""
    found = asking.ask("phy0", "status")
    return {network["bssid"]: [[station["address"], station["aid"], station["dozes"]] for station in network["stations"]]
            for network in found["networks"]}


class Case:
    """What is done while the access point runs."""

    def __init__(self, bridge, program, folder):
        self.bridge, self.program, self.folder = bridge, program, folder
        self.log = os.path.join(folder, "log")
        self.air = Air()
        self.outcome = {}

    def serves(self, times):
        """Waits until so many programs in all have served."""
        wait_for(f"program {times}", SECONDS, lambda: read(self.log).count("networks are on channel") >= times, 0.05)

    def note(self, name):
        """Notes what is so now."""
        shutil.copy(os.path.join(self.folder, "radio.toml"), os.path.join(self.folder, f"config.{len(self.outcome)}"))
        self.outcome[name] = {"tables": tables(), "left": self.air.told_to_leave()}
        self.air.heard.clear()

    def write_config(self, old="", new=""):
        """Writes the configuration with a change."""
        write(os.path.join(self.folder, "radio.toml"), TWO_NETWORKS.replace(old, new) if old else TWO_NETWORKS)

    def run(self):
        """All of it."""
        try:
            self.serves(1)
            self.joined()
            for number, part in enumerate((self.program, self.bridge), 2):
                time.sleep(2.1)
                os.kill(process_of(part), signal.SIGKILL)
                self.serves(number)
                self.note(f"killed {number}")
            self.reload(4, "nothing")
            self.reload(5, "name", 'ssid = "other"', 'ssid = "another"')
            self.reload(6, "fewer", "max_stations = 8", "max_stations = 3")
        except Exception as fault:  # told as what came of it
            self.outcome["fault"] = repr(fault)
        os.kill(os.getpid(), signal.SIGINT)

    def joined(self):
        """Four stations join, of which the second leaves and the fourth dozes; one joins the other network."""
        for station in STATIONS[:4]:
            self.air.join(station, OURS, b"lab")
        self.air.join(STATIONS[4], OTHER, b"other")
        self.air.say(b"\xc0\x00", STATIONS[1], OURS, bytes([3, 0]))
        self.air.say(b"\x48\x11", STATIONS[3], OURS)
        time.sleep(1.5)
        self.note("joined")

    def reload(self, number, name, old="", new=""):
        """The configuration is read again, with a change."""
        self.write_config(old, new)
        os.kill(os.getpid(), signal.SIGHUP)
        self.serves(number)
        time.sleep(0.3)
        self.note(name)


def main():
    """Runs the case."""
    bridge, program, folder = sys.argv[1:]
    confined.set_up(folder)
    case = Case(bridge, program, folder)
    case.write_config()
    config = os.path.join(folder, "radio.toml")
    thread = threading.Thread(target=case.run, daemon=True)
    again = serving, "check_again", lambda *_: Plan(read_settings(config), ((OURS, "wire1"),))
    fault = serve(bridge, program, folder, thread, patches=[again])
    if fault is None:
        thread.join()
    else:
        case.outcome["fault"] = fault
    print(json.dumps(case.outcome | {"log": read(case.log), "made": sorted(os.listdir(os.path.join(folder, "run")))}))


if __name__ == "__main__":
    main()
