"""What tests of tools/live share: what `iw` says of radios, and a machine whose commands are only kept."""
from common import ToolTest
from frames import address_of
from live import changes, machine, setting_up
from live.changes import Changes
from live.checks import Wanted
from live.faults import Fault
from live.settings import Network, Settings

OURS, OTHER = address_of("02:00:00:00:01:01"), address_of("02:00:00:00:01:02")
# Of `iw phy phy0 info` of mac80211_hwsim, kernel 6.1, iw 5.19; lines that say nothing of these things are left out.
SIMULATED = """Wiphy phy0
\twiphy index: 0
\tSupported interface modes:
\t\t * IBSS
\t\t * managed
\t\t * AP
\t\t * AP/VLAN
\t\t * monitor
\t\t * mesh point
\tBand 1:
\t\tFrequencies:
\t\t\t* 2412 MHz [1] (20.0 dBm)
\t\t\t* 2437 MHz [6] (20.0 dBm)
\t\t\t* 2462 MHz [11] (20.0 dBm)
\t\t\t* 2467 MHz [12] (20.0 dBm) (no IR)
\t\t\t* 2484 MHz [14] (disabled)
\tBand 2:
\t\tFrequencies:
\t\t\t* 5260 MHz [52] (20.0 dBm) (no IR, radar detection)
\tSupported commands:
\t\t * new_interface
\tsoftware interface modes (can always be added):
\t\t * AP/VLAN
\t\t * monitor
\tvalid interface combinations:
\t\t * #{ IBSS } <= 1, #{ managed, AP, mesh point, P2P-client, P2P-GO } <= 2048, #{ P2P-device } <= 1,
\t\t   total <= 2050, #channels <= 1, radar detect widths: { 20 MHz (no HT), 20 MHz }

\tDevice supports TX status socket option.
\tDevice supports active monitor (which will ACK incoming frames)
"""
SMALL = """\tSupported interface modes:
\t\t * managed
\t\t * monitor
\tBand 1:
\t\tFrequencies:
\t\t\t* 2437.0 MHz [6] (20.0 dBm)
\tsoftware interface modes (can always be added):
\t\t * monitor
\tinterface combinations are not supported
"""
COUNTED = """\tSupported interface modes:
\t\t * managed
\t\t * monitor
\tsoftware interface modes (can always be added):
\tvalid interface combinations:
\t\t * #{ managed } <= 2, #{ AP } <= 1,
\t\t   total <= 2, #channels <= 1
\t\t * #{ managed, monitor } <= 3,
\t\t   total <= 3, #channels <= 1
"""


class OnMachine(ToolTest):
    """A machine whose commands are only kept here."""

    SETTINGS = Settings(6, 100, (Network(OURS, b"\x82"), Network(OTHER, b"\x82")))
    WIRES = ((OURS, "nowire1"),)
    WANTED = Wanted("radio.toml", "apctl", "bridge", "phy9", "mon0", WIRES, None, None)
    MONITOR = [
        "iw phy phy9 interface add mon0 type monitor flags control", "ip link set mon0 mtu 2304",
        "ip link set mon0 up", "iw dev mon0 set freq 2437", "ip link set mon0 down", "ip link set mon0 up",
        "iw dev mon0 info"]
    RADIO = MONITOR + [
        "iw phy phy9 interface add mon0n1 type monitor addr 02:00:00:00:01:01 flags active", "ip link set mon0n1 up",
        "iw phy phy9 interface add mon0n2 type monitor addr 02:00:00:00:01:02 flags active", "ip link set mon0n2 up"]
    # What `ethtool -k` and `ethtool -i` say of a veth.
    ANSWERS = {"-k": "Features for nowire1:\ngeneric-receive-offload: on\nlarge-receive-offload: off [fixed]\n",
               "-i": "driver: veth\n"}

    def setUp(self):
        super().setUp()
        self.commands = []
        self.failing = None
        self.channel = ""  # what `iw` says of the monitor interface
        self.made = Changes("phy9", self.folder)
        self.addCleanup(self.made.close)
        self.patch((machine, "run", self.run_command), (changes.shutil, "which", lambda command: None),
                   (setting_up, "UNMANAGED", self.path("conf.d", "waltigon-{}.conf")))

    def run_command(self, *words):
        """Keeps a command, which fails where the test says so."""
        self.commands.append(" ".join(words))
        if self.commands[-1] == self.failing:
            raise Fault("it failed")
        match words:
            case ("ethtool", word, *_):
                return self.ANSWERS.get(word, "")
            case ("iw", "dev", _, "set", "freq", frequency):
                self.channel = self.channel or f"channel 6 ({frequency} MHz), width: 20 MHz (no HT)"
            case ("iw", "dev", _, "info"):
                return f"Interface mon0\n\t{self.channel}\n"
            case ("iw", "dev", "mon0", "del"):
                self.channel = ""
            case ("iw", "phy", _, "info"):
                return SIMULATED
        return ""
