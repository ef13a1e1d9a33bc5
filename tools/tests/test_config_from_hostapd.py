"""Tests of tools/config-from-hostapd: what it writes, what it refuses, and what it says of lines that it leaves out."""
import os
import subprocess
import tomllib

from common import TOOLS, ToolTest, needs_program, run_program, tool
from texts import read_text

FILE = """# three networks
interface=wlan0
driver=nl80211
bridge=br-guests
ssid=guests
hw_mode=g
channel=6
country_code=DE
beacon_int=200
dtim_period=3
max_num_sta=40
ap_isolate=1
wmm_enabled=1

bss=wlan0_1
bssid=02:00:00:00:00:01
ssid=the "office" \\ \u00e4
max_num_sta=2007

bss=wlan0_2
ssid2="devices"
ap_isolate=0
dtim_period=1
"""
OFFICE, CHOSEN = "02:00:00:00:00:01", ("02:00:00:00:00:02", "02:00:00:00:00:03")
# A line that is refused, and what is said of it.
REFUSED = [
    ("wpa=2", "`wpa`: these networks don't encrypt"), ("wpa_passphrase=secret12", "`wpa_passphrase`: these networks"),
    ("rsn_pairwise=CCMP", "don't encrypt"), ("ieee80211w=1", "don't encrypt"), ("wep_key0=1234567890", "don't encrypt"),
    ("sae_password=secret12", "don't encrypt"), ("ieee8021x=1", "don't encrypt"), ("wps_state=2", "don't encrypt"),
    ("auth_server_addr=10.0.0.1", "don't encrypt"), ("auth_algs=2", "Open System alone"),
    ("macaddr_acl=1", "anyone may"), ("accept_mac_file=/etc/accepted", "anyone may"),
    ("ignore_broadcast_ssid=1", "a hidden SSID isn't here"), ("hw_mode=a", "2.4 GHz alone"),
    ("channel=36", "a channel of 1 to 14"), ("channel=0", "nothing is scanned"),
    ("dynamic_vlan=1", "a wire of its own"), ("vlan_file=/etc/vlans", "a wire of its own"),
    ("wds_sta=1", "frames of four addresses"),
    ("require_ht=1", "no station could join"), ("fragm_threshold=500", "aren't cut"),
    ("acct_server_addr=10.0.0.1", "accounted for"), ("max_num_sta=0", "room for 1 station"),
    ("max_num_sta=5000", "`max_stations` is a whole number of 1 to 2007"), ("dtim_period=0", "`dtim` is"),
    ("beacon_int=x", "`interval` is"), ("supported_rates=10 20 33", "rates are whole numbers of 500 kb/s"),
    ("basic_rates=70", "the basic ones are among them"), ("bssid=03:00:00:00:00:01", "of one receiver"),
    ("bssid=2:0:0:0:0:1", "an address of its own"), ("ssid=" + 33 * "x", "1 to 32 octets"),
    ("ssid2=6c6162", "in letters"), ("no_such_key=1", "doesn't know this key"),
    ("interface wlan0", "a key, `=` and a value"),
]
# A line that is left out, and the reason.
LEFT_OUT = [
    ("driver=nl80211", "monitor interface"), ("bridge=br0", "docs/NETWORKS.md"), ("country_code=DE", "`--country DE`"),
    ("ctrl_interface=/var/run/hostapd", "`tools/live status`"), ("logger_syslog=-1", "standard error"),
    ("auth_algs=1", "Open System"), ("wpa=0", "asks for nothing"), ("macaddr_acl=0", "asks for nothing"),
    ("ignore_broadcast_ssid=0", "asks for nothing"), ("ap_max_inactivity=60", "`--idle SECONDS`"),
    ("wmm_enabled=1", "QoS isn't here"), ("wmm_ac_bk_cwmin=4", "QoS isn't here"), ("ieee80211n=1", "54 Mb/s"),
    ("ht_capab=[HT40+]", "54 Mb/s"), ("ieee80211d=1", "element of the country"), ("rts_threshold=-1", "no RTS"),
    ("fragm_threshold=-1", "aren't cut"), ("preamble=1", "the kernel chooses"), ("utf8_ssid=1", "UTF-8"),
]
LEAST = "interface=wlan0\nchannel=6\nssid=lab\n"


def converted(text):
    """What the tool answers to a text: its status, the configuration and what is told."""
    return tool("config-from-hostapd", "-", program_input=text)


class FromHostapd(ToolTest):
    """A configuration for a hostapd.conf."""

    def test_three_networks(self):
        """Keys of the radio stand above, each network's below, and what is missing is as hostapd takes it."""
        status, written, told = converted(FILE)
        self.assertEqual(status, 0, told)
        found = tomllib.loads(written)
        guests, office, devices = found.pop("network")
        self.assertEqual(found, {"version": 2, "channel": 6, "interval": 200, "queue": 64})
        self.assertEqual(guests, {
            "bssid": CHOSEN[0], "ssid": "guests", "rates": "82848b960c1218243048606c", "dtim": 3, "max_stations": 40,
            "max_known": 160, "quota": 256, "max_events": 1_000_000, "relay": False, "aging": False})
        self.assertEqual([office[key] for key in ("bssid", "ssid", "dtim", "max_stations", "max_known", "relay")],
                         [OFFICE, 'the "office" \\ \u00e4', 2, 2007, 8028, True])
        self.assertEqual([devices[key] for key in ("bssid", "ssid", "dtim", "relay")], [CHOSEN[1], "devices", 1, True])

    def test_aging(self):
        """No network loses units of a station that sleeps for long; the text says what hostapd does."""
        written = converted(FILE)[1]
        self.assertEqual([network["aging"] for network in tomllib.loads(written)["network"]], [False] * 3)
        self.assertIn("Linux drops it after two listen intervals, and ten seconds at least", written)

    def test_each_line_is_told(self):
        """Each line is taken, or told with its number."""
        told = converted(FILE)[2].splitlines()
        numbers = [int(line.split(":")[1]) for line in told]
        self.assertEqual(numbers, [2, 3, 4, 6, 8, 13, 2, 20])
        self.assertIn(f"wlan0 has no `bssid=`: {CHOSEN[0]} was written", told[-2])

    def test_left_out(self):
        """Of each such line the reason is told, and the configuration is what it is without."""
        plain = converted(LEAST)[1]
        for line, reason in LEFT_OUT:
            status, written, told = converted(f"{LEAST}{line}\n")
            self.assertEqual((status, written), (0, plain), line)
            self.assertIn(f"standard input:4: `{line.partition('=')[0]}` is left out: ", told)
            self.assertIn(reason, told)

    def test_refused(self):
        """Each such line is named with its number, and nothing is written; no secret is told."""
        for line, reason in REFUSED:
            status, written, told = converted(f"{LEAST}{line}\n")
            self.assertEqual((status, written), (1, ""), line)
            self.assertIn("config-from-hostapd: standard input:4: ", told)
            self.assertIn(reason, told)
            self.assertNotIn("secret12", told)

    def test_all_are_named_at_once(self):
        """Not only the first line that is refused."""
        told = converted("".join(f"{line}\n" for line, _ in REFUSED[:14]) + LEAST)[2]
        self.assertEqual(told.count("standard input:"), 14)

    def test_open_leaves_out_what_encrypts_line_by_line(self):
        """The configuration is what it is without these lines, each is named, and nothing else is let through."""
        secret = "wpa=2\nwpa_passphrase=secret12\nwpa_key_mgmt=SAE\nrsn_pairwise=CCMP\nieee80211w=2\nsae_password=secret12\n"
        status, written, told = converted(LEAST + secret)
        self.assertEqual((status, written), (1, ""))
        self.assertTrue(told.endswith("nothing was written; --open leaves out what encrypts, and then anyone near may "
                                      "join and hear all\n"), told)
        status, written, told = tool("config-from-hostapd", "--open", "-", program_input=LEAST + secret)
        self.assertEqual((status, written), (0, converted(LEAST)[1]))
        for number, line in enumerate(secret.splitlines(), 4):
            self.assertIn(f"standard input:{number}: `{line.partition('=')[0]}` is left out: these networks don't encrypt, "
                          "so anyone near may join this one and hear it\n", told)
        self.assertNotIn("secret12", told + written)
        for line in ("macaddr_acl=1", "ignore_broadcast_ssid=1", "auth_algs=2"):
            self.assertEqual(tool("config-from-hostapd", "--open", "-", program_input=f"{LEAST}{line}\n")[0], 1, line)

    def test_no_file_is_left_where_it_refuses(self):
        """With --out; where the shell made one, that is told."""
        path = self.path("my.toml")
        refused = f"{LEAST}wpa=2\n"
        self.assertEqual(tool("config-from-hostapd", "-", "--out", path, program_input=refused)[0], 1)
        self.assertFalse(os.path.exists(path))
        self.assertEqual(tool("config-from-hostapd", "-", "--out", path, program_input=LEAST)[:2], (0, ""))
        before = read_text(path)
        self.assertEqual(before, converted(LEAST)[1])
        self.assertEqual(tool("config-from-hostapd", "-", "--out", path, program_input=refused)[0], 1)
        self.assertEqual(read_text(path), before)
        with open(self.path("other.toml"), "w", encoding="utf-8") as file:
            done = subprocess.run([os.path.join(TOOLS, "config-from-hostapd"), "-"], input=refused, stdout=file,
                                  stderr=subprocess.PIPE, text=True, check=False)
        self.assertIn("the file that standard output leads to is empty now; --out CONFIG writes none", done.stderr)

    def test_rates(self):
        """In units of 100 kb/s, basic ones with the high bit; without a list those of the mode."""
        for more, digits in (("hw_mode=b\n", "82840b16"), ("hw_mode=g\n", "82848b960c1218243048606c"), ("", "82840b16"),
                             ("supported_rates=60 120 240\nbasic_rates=60\n", "8c1830"),
                             ("supported_rates=10 20 540\n", "82846c")):
            self.assertEqual(tomllib.loads(converted(LEAST + more)[1])["network"][0]["rates"], digits, more)

    def test_last_line_counts(self):
        """As hostapd takes it; the one before is told."""
        status, written, told = converted(f"{LEAST}dtim_period=2\ndtim_period=5\r\n")
        self.assertEqual((status, tomllib.loads(written)["network"][0]["dtim"]), (0, 5))
        self.assertIn("standard input:4: `dtim_period` is left out: line 5 says it again", told)

    def test_what_is_missing(self):
        """A network without a name, a radio without a channel, a file without a network."""
        for text, says in (("interface=wlan0\nchannel=6\n", "no `ssid=`"),
                           ("interface=wlan0\nssid=lab\n", "no line `channel=`"), ("", "no line `interface=`"),
                           (f"{LEAST}bss=wlan0_1\n", "standard input:4: `bss`: this network has"),
                           (f"{LEAST}bssid=02:00:00:00:00:02\nbss=b\nssid=c\nbssid=02:00:00:00:00:02\n", "of its own"),
                           (LEAST + "".join(f"bss=b{n}\nssid=n{n}\n" for n in range(16)), "at most 16 networks")):
            status, written, told = converted(text)
            self.assertEqual((status, written), (1, ""), text)
            self.assertIn(says, told)

    def test_file(self):
        """A file is named by its name; one that isn't there is told."""
        path = self.write("hostapd.conf", FILE)
        status, written, told = tool("config-from-hostapd", path)
        self.assertEqual(status, 0)
        self.assertTrue(written.startswith("# Made of hostapd.conf. hostapd.conf says nothing of queue, max_known, "))
        self.assertTrue(told.startswith("hostapd.conf:2: `interface` is left out"))
        self.refused("config-from-hostapd", self.path("none"), says="No such file")

    @needs_program
    def test_program_reads_it(self):
        """The program finds no fault in what is written."""
        most = LEAST + "".join(f"bss=b{n}\nssid=n{n}\n" for n in range(15))
        for text, networks in ((FILE, 3), (LEAST, 1), (most, 16)):
            path = self.write("made.toml", converted(text)[1])
            self.assertEqual(run_program("check", path), f"ok {networks}\n")
