"""Tests of `tools/live check-networks`: what is found behind a network's wire, and that the files of share/networks
agree with each other."""
import configparser
import glob
import json
import os
import re
import shutil
import stat
import tomllib
import unittest
from dataclasses import replace
from unittest import mock

import reaching
from common import ROOT, TOOLS, ToolTest, run_to_end, text_of
from live import network_checks
from live.checks import read_wires
from live.faults import Fault
from live.network_checks import (Behind, Case, Link, Network, Served, beside_config, check_named, links_of,
                                 named_elsewhere, read_networks, told_of)
from mistakes import CONFIG
from texts import read_text

SHARED = os.path.join(ROOT, "share", "networks")
GUESTS, OFFICE, DEVICES = (f"02:00:00:00:01:0{number}" for number in (1, 2, 3))
NETWORKS = (Network(GUESTS, "guests", False), Network(OFFICE, "office", True), Network(DEVICES, "devices", False))
NAMED = {GUESTS: "wire-guests", OFFICE: "wire-office", DEVICES: "wire-devices"}
LONGEST_NAME = 15


def links(**changed):
    """The interfaces of three networks, each with a wire, a port and a bridge, some of them changed: names have `_` for
    `-` there."""
    found = {}
    for name in ("guests", "office", "devices"):
        found |= {link.name: link for link in (
            Link(f"br-{name}", "bridge", addresses=("10.0.0.1/24",)),
            Link(f"wire-{name}", "veth", other_end=f"port-{name}"),
            Link(f"port-{name}", "veth", master=f"br-{name}", other_end=f"wire-{name}", is_isolated=name != "office"),
            Link(f"lan-{name}", "vlan", master=f"br-{name}", is_isolated=name != "office"))}
    for name, changes in changed.items():
        name = name.replace("_", "-")
        found[name] = replace(found.get(name, Link(name)), **changes)
    return found


def told(behind, wires=None, served=None, others=None):
    """What is told of these."""
    case = Case(NETWORKS, NAMED if wires is None else wires, behind, served or {}, others or {}, "phy0.wires")
    lines, count = told_of(case)
    return "\n".join(lines), count


class Findings(ToolTest):
    """Each finding, and what it says to do."""

    def found(self, says, mend, behind=None, count=1, **words):
        """So many findings, of which one says this, and what to do."""
        said, findings = told(behind or Behind(links()), **words)
        self.assertEqual(findings, count, said)
        self.assertIn(says, said)
        self.assertIn(mend, said)
        self.assertTrue(said.endswith(f"networks: 3, findings: {count}"))
        for line in said.splitlines()[:-1]:
            self.assertRegex(line, r"^(02:00:00:00:01:0\d \w+: |  )")

    def test_as_it_has_to_be(self):
        """A line for each network, with where its wire leads."""
        said, count = told(Behind(links()))
        self.assertEqual((count, said.count("as it has to be")), (0, 3))
        self.assertIn(f"{GUESTS} guests: wire-guests leads to port-guests, a port of br-guests: as it has to be", said)

    def test_no_wire(self):
        """A network without one, and a wire that isn't there."""
        self.found("guests: it has no wire", f"`{GUESTS}=INTERFACE` into phy0.wires",
                   wires={OFFICE: "wire-office", DEVICES: "wire-devices"})
        self.found("wire9: there is no such interface", "ip link add wire9 type veth peer name port0",
                   wires=NAMED | {GUESTS: "wire9"})

    def test_somebody_elses(self):
        """Two networks, another file, an access point of another radio."""
        self.found("wire-office is the wire of guests too", "for each network into phy0.wires", count=2,
                   wires=NAMED | {GUESTS: "wire-office"})
        self.found("wire-office stands in phy1.wires too", "leave it out of one", others={"wire-office": "phy1.wires"})
        self.found("wire-guests is served as the wire of 02:00:00:00:09:09 by the access point of phy1",
                   "systemctl stop waltigon@phy1", served={"wire-guests": Served("phy1", "02:00:00:00:09:09", None)})

    def test_this_machines(self):
        """An interface of a radio, one that isn't Ethernet, a port, one with VLANs, one with an address."""
        self.found("wlan0 is an interface of the radio phy0", "a wired port", wires=NAMED | {GUESTS: "wlan0"},
                   behind=Behind(links(wlan0={}), radio_of=lambda name: "phy0" if name == "wlan0" else None))
        self.found("tun0 is no interface of Ethernet", "a wired port", Behind(links(tun0={"is_ethernet": False})),
                   wires=NAMED | {GUESTS: "tun0"})
        users = {"wire-guests": ["br-office"], "wire-office": ["wire-office.7"]}
        behind = Behind(links(**{"wire_office.7": {"kind": "vlan"}}), users_of=lambda name: users.get(name, []))
        self.found("wire-guests serves br-office", "`ip link set wire-guests nomaster`", behind, 2)
        self.found("wire-office serves wire-office.7", "`ip link del wire-office.7`", behind, 2)
        self.found("wire-guests has the address 10.9.9.1/24",
                   "`ip link set wire-guests addrgenmode none; ip address flush",
                   Behind(links(wire_guests={"addresses": ("10.9.9.1/24", "fe80::1/64")})))

    def test_frames_that_no_radio_takes(self):
        """An interface whose MTU lets them in; one that lets in what a radio takes is as it has to be."""
        self.assertEqual(told(Behind(links(wire_guests={"mtu": 2270}, port_office={"mtu": 9000})))[1], 0)
        for mtu in (2271, 9000):
            self.found(f"wire-guests has an MTU of {mtu}: no radio takes more than 2270, and longer frames are lost",
                       "`ip link set wire-guests mtu 1500`", Behind(links(wire_guests={"mtu": mtu})))
        self.assertEqual([link.mtu for link in links_of([{"ifname": "a", "mtu": 9000}, {"ifname": "b"}]).values()],
                         [9000, 1500])
        source = text_of("tools", "bridge", "src", "formats", "radiotap.rs")
        self.assertIn(f"SENDING_LEN: usize = {network_checks.RADIOTAP};", source)

    def test_bridged_with_another(self):
        """Two wires meet in a bridge, by one more veth between bridges, or by no bridge: each network is told."""
        behind = Behind(links(port_guests={"master": "br-office"}))
        self.found("wire-guests and wire-office, the wire of office, meet in br-office",
                   "`ip link set port-guests nomaster`", behind, 2)
        self.found("wire-office and wire-guests, the wire of guests, meet", "`ip link set port-office nomaster`",
                   behind, 2)
        between = Behind(links(a={"kind": "veth", "other_end": "b", "master": "br-guests"},
                               b={"kind": "veth", "other_end": "a", "master": "br-devices"}))
        self.found("wire-guests and wire-devices, the wire of devices, meet", "nomaster", between, 2)
        direct = Behind(links(wire_guests={"other_end": "wire-office"}, wire_office={"other_end": "wire-guests"}))
        said, count = told(direct)
        self.assertIn("meet in wire-office", said)
        self.assertGreaterEqual(count, 2)

    def test_vlans_of_one_bridge(self):
        """A bridge that filters VLANs keeps apart ports that share none."""
        one = {f"port_{name}": {"master": "br-guests"} for name in ("guests", "office", "devices")}
        one |= {f"lan_{name}": {"master": None} for name in ("guests", "office", "devices")}
        filtering = links(br_guests={"filters_vlans": True}, **one)
        vlans = {"port-guests": frozenset({10}), "port-office": frozenset({20}), "port-devices": frozenset({30})}
        self.assertEqual(told(Behind(filtering, vlans))[1], 0)
        self.found("meet in br-guests", "nomaster", Behind(filtering, vlans | {"port-office": frozenset({10, 20})}), 2)
        self.assertEqual(told(Behind(links(**one), vlans))[1], 6)

    def test_vlan_interfaces_of_one_cable(self):
        """VLANs of one trunk are segments of their own."""
        behind = Behind(links(eth1={}, lan_guests={"kind": "vlan"}))
        self.assertEqual(told(behind)[1], 0)

    def test_other_end(self):
        """Down, a port of nothing, sent back, and a cable that isn't plugged in."""
        self.found("port-guests, the other end of wire-guests, is down", "`ip link set port-guests up`",
                   Behind(links(port_guests={"is_up": False})))
        self.found("port-guests, the other end of wire-guests, leads nowhere",
                   "`ip link set port-guests master BRIDGE`", Behind(links(port_guests={"master": None})))
        self.assertEqual(told(Behind(links(port_guests={"master": None, "addresses": ("10.1.1.1/24",)})))[1], 0)
        self.found("br-guests sends back to port-guests", "`bridge link set dev port-guests hairpin off`",
                   Behind(links(port_guests={"is_sent_back": True})))
        self.assertEqual(told(Behind(links(port_office={"is_sent_back": True})))[1], 0)
        self.found("br-guests passes frames between port-guests and lan-guests",
                   "`bridge link set dev port-guests isolated on`, which", Behind(links(port_guests={"is_isolated": False})))
        self.found("br-guests passes frames between port-guests and lan-guests",
                   "`bridge link set dev port-guests isolated on; bridge link set dev lan-guests isolated on`",
                   Behind(links(port_guests={"is_isolated": False}, lan_guests={"is_isolated": False})))
        self.found("eth2 has no carrier", "plugged in", Behind(links(eth2={"has_carrier": False})),
                   wires=NAMED | {OFFICE: "eth2"})

    def test_other_namespace(self):
        """What can't be looked at is told, and is no finding."""
        said, count = told(Behind(links(wire_guests={"other_end": None})))
        self.assertEqual(count, 0)
        self.assertIn("`ethtool -K NAME tx off gso off tso off`", said)

    def test_while_it_runs(self):
        """Offloads and wires that have ended count once an access point serves them."""
        on = {"port-guests": {"tx-checksumming", "tcp-segmentation-offload"},
              "wire-guests": {"generic-receive-offload"}}
        behind = Behind(links(), offloads_of=lambda name: on.get(name, set()))
        self.assertEqual(told(behind)[1], 0)
        served = {"wire-guests": Served("phy0", GUESTS, None)}
        self.found("port-guests has tx tso on", "`ethtool -K port-guests tx off tso off`", behind, 2, served=served)
        self.found("wire-guests has gro on", "`ethtool -K wire-guests gro off`", behind, 2, served=served)
        self.found("wire-guests hasn't been served for 7 seconds", "`journalctl -u waltigon@phy0 -p warning`",
                   served={"wire-guests": Served("phy0", GUESTS, 7.2)})


class Reading(ToolTest):
    """What is read of the configuration, of files of wires, and of `ip`."""

    def test_networks(self):
        """BSSIDs in small letters; networks of version 1 relay."""
        path = self.write("a.toml", '[[network]]\nbssid = "02:00:00:00:AA:01"\nssid = "a"\n[[network]]\nbssid = '
                                    '"02:00:00:00:00:02"\nssid = "b"\nrelay = false\n')
        self.assertEqual(read_networks(path), (Network("02:00:00:00:aa:01", "a", True),
                                               Network("02:00:00:00:00:02", "b", False)))

    def test_wires_that_are_named(self):
        """Each is of a network, and a network has one."""
        own = bytes.fromhex(GUESTS.replace(":", ""))
        self.assertEqual(check_named(NETWORKS, ((own, "eth1"),)), {GUESTS: "eth1"})
        with self.assertRaisesRegex(Fault, "no network of the configuration has this BSSID"):
            check_named(NETWORKS, ((bytes(6), "eth1"),))
        with self.assertRaisesRegex(Fault, "has the wire eth1 already"):
            check_named(NETWORKS, ((own, "eth1"), (own, "eth2")))

    def test_file_beside(self):
        """PHY.wires beside PHY.toml, as the service has them; others' files are those beside it."""
        self.assertEqual(beside_config("/etc/waltigon/phy0.toml"), "/etc/waltigon/phy0.wires")
        own = self.write("phy0.wires", f"{GUESTS}=eth1\n")
        other = self.write("phy1.wires", f"{GUESTS}=eth1\n{OFFICE}=eth2\n")
        self.write("phy2.wires", "no wire\n")
        self.assertEqual(named_elsewhere(own), {"eth1": other, "eth2": other})

    def test_access_points_that_run(self):
        """Their wires by name; of one that doesn't answer that is told, and is no finding."""
        status = {"networks": [{"bssid": GUESTS, "wire": "wire-guests", "wire_down": None},
                               {"bssid": OFFICE, "wire": None, "wire_down": None},
                               {"bssid": DEVICES, "wire": "wire-devices", "wire_down": 2.5}]}

        def ask(phy, question):
            """What the bridge of a radio answers."""
            if phy == "phy1":
                raise Fault("phy1.sock: no bridge answers")
            return status

        self.write("phy0.sock", "")
        self.write("phy1.sock", "")
        with mock.patch.object(network_checks, "socket_path", lambda phy: self.path(f"{phy}.sock")), \
                mock.patch.object(network_checks, "ask", ask):
            served, unasked = network_checks.served_wires()
        self.assertEqual(served, {"wire-guests": Served("phy0", GUESTS, None),
                                  "wire-devices": Served("phy0", DEVICES, 2.5)})
        case = Case(NETWORKS, NAMED, Behind(links()), {}, {}, "phy0.wires", unasked)
        lines, count = told_of(case)
        self.assertEqual((count, lines[-2]), (0, "what has to be so while it runs wasn't looked at: phy1.sock: no "
                                                 "bridge answers: run this as root"))

    def test_what_ip_tells(self):
        """A port of a bridge that sends back, a veth, a VLAN, one whose other end is away."""
        rows = [{"ifname": "br0", "flags": ["UP"], "link_type": "ether",
                 "addr_info": [{"local": "10.0.0.1", "prefixlen": 24}],
                 "linkinfo": {"info_kind": "bridge", "info_data": {"vlan_filtering": 1}}},
                {"link": "wire0", "ifname": "port0", "flags": ["UP", "LOWER_UP"], "master": "br0", "link_type": "ether",
                 "linkinfo": {"info_kind": "veth", "info_slave_kind": "bridge", "info_slave_data": {"hairpin": True}}},
                {"link": "eth1", "ifname": "eth1.10", "flags": [], "link_type": "ether", "addr_info": [{}],
                 "linkinfo": {"info_kind": "vlan", "info_data": {"id": 10}}},
                {"ifname": "far0", "link_index": 9, "link_netnsid": 0, "flags": ["NO-CARRIER", "UP"],
                 "link_type": "ether", "linkinfo": {"info_kind": "veth"}}, {},
                {"ifname": "lo", "flags": ["UP"], "link_type": "loopback"}]
        found = links_of(json.loads(json.dumps(rows)))
        self.assertEqual(found["br0"], Link("br0", "bridge", addresses=("10.0.0.1/24",), filters_vlans=True))
        self.assertEqual(found["port0"], Link("port0", "veth", master="br0", other_end="wire0", is_sent_back=True))
        self.assertEqual(found["eth1.10"], Link("eth1.10", "vlan", is_up=False))
        self.assertEqual(found["far0"], Link("far0", "veth", has_carrier=False))
        self.assertFalse(found["lo"].is_ethernet)

    @unittest.skipUnless(shutil.which("ip"), "iproute2 isn't there")
    def test_as_a_command(self):
        """It ends with 1 where something is to be done, and a fault of the configuration is told."""
        program = self.write("program", "#!/bin/sh\ngrep -q bad \"$2\" && echo fault C2 >&2 && exit 1\necho ok 1\n")
        os.chmod(program, os.stat(program).st_mode | stat.S_IXUSR)
        config = self.write("phy0.toml", CONFIG)
        words = [os.path.join(TOOLS, "live"), "check-networks", config, "--program", program]
        done = run_to_end(words)
        self.assertEqual((done.returncode, done.stderr), (1, ""))
        self.assertIn(f"into {self.path('phy0.wires')}", done.stdout)
        self.write("phy0.wires", "02:00:00:00:00:01=nothing0\n02:00:00:00:00:02=nothing1\n")
        self.assertIn("nothing0: there is no such interface", run_to_end(words).stdout)
        self.write("phy0.toml", "bad")
        done = run_to_end(words)
        self.assertEqual((done.returncode, done.stdout), (1, ""))
        self.assertIn("fault C2", done.stderr)
        for wrong in ([], ["a", "b"], [config, "--wire", "x"]):
            done = run_to_end([*words[:2], *wrong])
            self.assertEqual((done.returncode, done.stdout), (2, ""), wrong)


class Tried:
    """A namespace that finds what it is told to."""

    returncode, args = 0, "reach"

    def __init__(self, found):
        self.found = found

    def communicate(self, timeout):
        """What was answered."""
        return json.dumps(self.found), ""


class Trying(unittest.TestCase):
    """The table that the cases in the guest try."""

    COLUMNS = {"guests": "guests", "office": "office", "devices": "devices", "their server": "server",
               "Internet": "Internet", "near hosts": "near", "this machine": "machine"}
    ROWS = COLUMNS | {"the way out": "Internet"}

    def party(self, kind, answers):
        """A party of one address, which finds these answers of each address."""
        party = reaching.Party(kind, kind, None, [kind])
        party.begin_trying = lambda addresses, own="": Tried(
            {address: {way: answers(kind, address, way) for way in ("ping", "tcp", "udp")} for address in addresses})
        return party

    def table(self, answers):
        """What is wrong, and how many cells there are."""
        kinds = ("guests", "office", "devices", "server", "Internet", "near", "machine")
        lines, wrong, cells = reaching.try_table([self.party(kind, answers) for kind in kinds])
        self.assertEqual(len(lines), len(kinds) + 2)
        return wrong, cells

    def may(self, sender, receiver, way):
        """As the table of the page has it; this machine never answers by UDP."""
        return receiver in reaching.MAY_REACH[sender] and (receiver, way) != ("machine", "udp")

    def test_page_has_the_same_table(self):
        """Each cell of docs/NETWORKS.md is what is tried."""
        table = text_of("docs", "NETWORKS.md").partition("| from / to ")[2].partition("\n\n")[0]
        rows = [[cell.strip() for cell in line.strip("|").split("|")] for line in table.split("\n")]
        names = rows[0]
        self.assertEqual(names, list(self.COLUMNS))
        for name, *cells in rows[2:]:
            for column, cell in zip(names, cells, strict=True):
                if cell:
                    may = self.COLUMNS[column] in reaching.MAY_REACH[self.ROWS[name]]
                    self.assertEqual(cell != "no", may, f"{name} to {column}")
        self.assertEqual({row[0] for row in rows[2:]}, {"guests", "office", "devices", "the way out", "this machine"})

    def test_right(self):
        """Nothing is wrong, in 40 cells: nobody tries itself, and both hosts on the way out are one."""
        self.assertEqual(self.table(self.may), ([], 40))

    def test_wrong(self):
        """A cell is wrong where one way of three is, whichever way it errs."""
        wrong, _ = self.table(lambda sender, receiver, way: self.may(sender, receiver, way)
                              or (sender, receiver, way) == ("guests", "office", "udp"))
        self.assertEqual(wrong, ["guests to office: no is right, but not by udp office"])
        wrong, _ = self.table(lambda sender, receiver, way: self.may(sender, receiver, way)
                              and (sender, receiver, way) != ("devices", "server", "tcp"))
        self.assertEqual(wrong, ["devices to server: yes is right, but not by tcp server"])
        self.assertEqual(len(self.table(lambda *_: True)[0]), 40 - sum(
            len(reaching.MAY_REACH[kind] - {kind}) for kind in reaching.MAY_REACH))


    def test_lost_once(self):
        """What may be reached is tried again where nothing came; what may not, and came once, is wrong."""
        tried = set()

        def at_first(sender, receiver, way):
            """Errs in two cells the first time that each is tried."""
            cell = sender, receiver, way
            errs = cell in (("devices", "server", "tcp"), ("guests", "office", "ping")) and cell not in tried
            tried.add(cell)
            return self.may(*cell) != errs
        self.assertEqual(self.table(at_first)[0], ["guests to office: no is right, but not by ping office"])


class Files(unittest.TestCase):
    """The files of share/networks agree with each other and with docs/NETWORKS.md."""

    def setUp(self):
        self.parsed = {}
        for path in glob.glob(os.path.join(SHARED, "*.net*")):
            parser = configparser.ConfigParser(strict=False, delimiters=("=",))
            parser.optionxform = str
            parser.read(path, encoding="utf-8")
            self.parsed[os.path.basename(path)] = parser
        self.made = {parser["NetDev"]["Name"]: parser for parser in self.parsed.values() if "NetDev" in parser}
        self.made |= {parser["Peer"]["Name"]: parser for parser in self.parsed.values() if "Peer" in parser}

    def test_wires_are_made(self):
        """Each network of the configuration has a wire, which a file makes."""
        networks = read_networks(os.path.join(SHARED, "phy0.toml"))
        wires = check_named(networks, read_wires(os.path.join(SHARED, "phy0.wires")))
        self.assertEqual(sorted(wires), sorted(network.bssid for network in networks))
        for network in networks:
            self.assertEqual(wires[network.bssid], f"wire-{network.ssid}")
            self.assertEqual(self.made[f"wire-{network.ssid}"]["Peer"]["Name"], f"port-{network.ssid}")

    def test_names(self):
        """Names fit, and what a file names is made by another."""
        for name in self.made:
            self.assertLessEqual(len(name), LONGEST_NAME)
        for file, parser in self.parsed.items():
            if file.startswith("50-ports-"):
                self.assertIn(parser["Network"]["Bridge"], self.made)
                for name in parser["Match"]["Name"].split():
                    self.assertIn(name, self.made)
        trunk = read_text(os.path.join(SHARED, "50-trunk.network"))
        self.assertEqual(set(re.findall(r"^VLAN=(.*)$", trunk, re.MULTILINE)),
                         {name for name in self.made if name.startswith("lan-")})

    def test_apart(self):
        """Where stations of a network are kept apart, the ports of its bridge are."""
        for network in read_networks(os.path.join(SHARED, "phy0.toml")):
            parser = self.parsed[f"50-ports-{network.ssid}.network"]
            self.assertEqual(parser.get("Bridge", "Isolated", fallback="no"), "no" if network.relays else "yes")

    def test_page_names_them(self):
        """The page has each address and VLAN, and the firewall's names are those of the bridges."""
        page = text_of("docs", "NETWORKS.md")
        rules = read_text(os.path.join(SHARED, "nftables.conf"))
        for name in ("guests", "office", "devices"):
            address = self.parsed[f"50-br-{name}.network"]["Network"]["Address"]
            self.assertIn(f"`br-{name}`, {address.partition('/')[0]}", page)
            self.assertIn(f"`lan-{name}`, {self.made[f'lan-{name}']['VLAN']['Id']}", page)
        self.assertEqual(set(re.findall(r'"(br-\w+)"', rules)), {name for name in self.made if name.startswith("br-")})

    @unittest.skipUnless(shutil.which("nft") and os.geteuid() == 0, "nft isn't there, or this isn't root")
    def test_rules_have_no_fault(self):
        """nft reads them, in a namespace of its own; nothing is loaded."""
        done = run_to_end(["unshare", "-n", "nft", "-c", "-f", os.path.join(SHARED, "nftables.conf")])
        if "Operation not permitted" in done.stderr or "not supported" in done.stderr:
            self.skipTest(done.stderr.strip())
        self.assertEqual((done.returncode, done.stderr), (0, ""))

    def test_service_reads_them(self):
        """The environment has one line WORDS, with words of waltigon-live."""
        words = read_text(os.path.join(SHARED, "phy0.environment")).splitlines()
        lines = [line for line in words if line and not line.startswith("#")]
        self.assertEqual(len(lines), 1)
        self.assertTrue(lines[0].startswith("WORDS="))
        bssids = [network["bssid"] for network in tomllib.loads(text_of("share/networks/phy0.toml"))["network"]]
        for bssid in re.findall(r"--share ([0-9a-f:]+)=", lines[0]):
            self.assertIn(bssid, bssids)
