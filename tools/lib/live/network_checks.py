"""Whether what stands behind each network of a configuration is as it has to be: its wire is there and nobody else's,
leads to no other network, and has no offloads on that would spoil its frames. It is only looked at, and nothing is
changed. Each finding says what to do."""
import glob
import json
import os
import tomllib
from collections import deque
from collections.abc import Callable, Iterable, Iterator
from dataclasses import dataclass, field

import called
from explaining.source import Finding
from frames import address_text
from live import machine
from live.asking import ask, socket_path
from live.checks import Wires, check_config, check_program, read_wires
from live.faults import Fault
from live.machine import Interface
from live.setting_up import MTU, RECEIVING, SENDING

PAGE = called.document("NETWORKS.md")
TOML, WIRES = ".toml", ".wires"
ETHERNET_MTU = 1500
# Of a packet that goes to the air by a monitor interface: a packet socket lets through the interface's MTU and what a
# header of Ethernet has; a header of radiotap, that of the frame, and LLC with SNAP stand before what came by the wire.
ETHERNET_HEADER, RADIOTAP, FRAME_HEADER, LLC_AND_SNAP = 14, 16, 24, 8
MOST_MTU = MTU + ETHERNET_HEADER - RADIOTAP - FRAME_HEADER - LLC_AND_SNAP


@dataclass(frozen=True)
class Network:
    """A network of the configuration, and whether units go from one of its stations to another."""

    bssid: str
    ssid: str
    relays: bool


@dataclass(frozen=True)
class Link:
    """An interface, as `ip` tells of it: a veth has the other end's name, or none where that is in another namespace; a
    port of a bridge has the bridge, whether that sends back to it, and whether it is kept from other such ports."""

    name: str
    kind: str = ""
    is_ethernet: bool = True
    is_up: bool = True
    has_carrier: bool = True
    addresses: tuple[str, ...] = ()
    master: str | None = None
    other_end: str | None = None
    is_sent_back: bool = False
    is_isolated: bool = False
    filters_vlans: bool = False
    mtu: int = ETHERNET_MTU


@dataclass(frozen=True)
class Behind:
    """What this machine has: interfaces by their names, the VLANs of the ports of bridges that filter them, the radio
    and the users of an interface, and its offloads that are on."""

    links: dict[str, Link]
    vlans: dict[str, frozenset[int]] = field(default_factory=dict)
    radio_of: Callable[[str], str | None] = lambda name: None
    users_of: Callable[[str], list[str]] = lambda name: []
    offloads_of: Callable[[str], set[str]] = lambda name: set()


@dataclass(frozen=True)
class Served:
    """A wire that an access point serves just now: its radio and its network, and for how many seconds it has been
    down."""

    phy: str
    bssid: str
    seconds_down: float | None


@dataclass(frozen=True)
class Case:
    """All that the wires of a configuration are judged by; `others` has for a wire the other files that name it,
    `wires_file` is where a missing wire is to be written, and `unasked` says why an access point didn't answer."""

    networks: tuple[Network, ...]
    wires: dict[str, str]
    behind: Behind
    served: dict[str, Served]
    others: dict[str, str]
    wires_file: str
    unasked: tuple[str, ...] = ()


def check_networks(config: str, program: str, wires: Wires, wires_file: str | None) -> tuple[list[str], int]:
    """The lines that are told of each network, and how many findings there are."""
    check_program(program)
    check_config(program, config)
    networks = read_networks(config)
    beside = beside_config(config)
    if wires_file is None and not wires and os.path.exists(beside):
        wires_file = beside
    given = wires + read_wires(wires_file)
    named = check_named(networks, given)
    served, unasked = served_wires()
    return told_of(Case(networks, named, look(), served, named_elsewhere(wires_file or beside), wires_file or beside,
                        unasked))


def beside_config(config: str) -> str:
    """The file of wires that the service reads with this configuration."""
    return (config.removesuffix(TOML) if config.endswith(TOML) else config) + WIRES


def read_networks(path: str) -> tuple[Network, ...]:
    """The networks of a configuration in which the program found no fault; in version 1 all of them relay."""
    try:
        with open(path, "rb") as file:
            text = tomllib.load(file)
    except (OSError, ValueError) as fault:
        raise Fault(f"{path}: not read as a configuration: {fault}") from None
    return tuple(Network(table["bssid"].lower(), table["ssid"], table.get("relay", True)) for table in text["network"])


def check_named(networks: tuple[Network, ...], wires: Wires) -> dict[str, str]:
    """The wires by BSSID; each has to be of a network, and a network has one."""
    named: dict[str, str] = {}
    for octets, name in wires:
        bssid = address_text(octets)
        if bssid not in [network.bssid for network in networks]:
            raise Fault(f"{bssid}={name}: no network of the configuration has this BSSID: leave this wire out, or write the "
                        "network's, as into PHY.wires")
        if bssid in named:
            raise Fault(f"{bssid}={name}: this network has the wire {named[bssid]} already: leave one out")
        named[bssid] = name
    return named


def named_elsewhere(wires_file: str) -> dict[str, str]:
    """The wires that other files of wires beside this one name, each with its file."""
    found: dict[str, str] = {}
    for path in sorted(glob.glob(os.path.join(os.path.dirname(wires_file) or ".", f"*{WIRES}"))):
        if os.path.realpath(path) != os.path.realpath(wires_file):
            try:
                found |= {name: path for _, name in read_wires(path)}
            except Fault:
                continue
    return found


def look() -> Behind:
    """What this machine has just now."""
    links = links_of(json.loads(machine.run("ip", "-j", "-d", "address", "show")))
    vlans: dict[str, frozenset[int]] = {}
    if any(link.filters_vlans for link in links.values()):
        vlans = {row["ifname"]: frozenset(vlan["vlan"] for vlan in row["vlans"])
                 for row in json.loads(machine.run("bridge", "-j", "vlan", "show"))}
    return Behind(links, vlans, lambda name: Interface(name).radio, lambda name: Interface(name).users,
                  lambda name: {offload for offload, is_on in Interface(name).offloads().items() if is_on})


def links_of(rows: list[dict]) -> dict[str, Link]:
    """The interfaces of what `ip -j -d address show` tells."""
    return {link.name: link for link in map(link_of, filter(None, rows))}


def link_of(row: dict) -> Link:
    """One interface of it."""
    info = row.get("linkinfo", {})
    kind, flags = info.get("info_kind", ""), row.get("flags", [])
    return Link(
        row["ifname"], kind, row.get("link_type") == "ether", "UP" in flags, "NO-CARRIER" not in flags,
        tuple(f"{address['local']}/{address['prefixlen']}" for address in row.get("addr_info", []) if address),
        row.get("master") if info.get("info_slave_kind") == "bridge" else None,
        row.get("link") if kind == "veth" else None, bool(info.get("info_slave_data", {}).get("hairpin")),
        bool(info.get("info_slave_data", {}).get("isolated")),
        kind == "bridge" and bool(info.get("info_data", {}).get("vlan_filtering")), row.get("mtu", ETHERNET_MTU))


def served_wires() -> tuple[dict[str, Served], tuple[str, ...]]:
    """The wires of all access points that run, and why one didn't answer, as where somebody else than root asks."""
    served: dict[str, Served] = {}
    unasked: list[str] = []
    for path in sorted(glob.glob(socket_path("*"))):
        phy = os.path.basename(path).removesuffix(".sock")
        try:
            networks = ask(phy, "status")["networks"]
        except Fault as fault:
            unasked.append(f"what has to be so while it runs wasn't looked at: {fault}: run this as root")
            continue
        served |= {network["wire"]: Served(phy, network["bssid"], network["wire_down"])
                   for network in networks if network["wire"]}
    return served, tuple(unasked)


def told_of(case: Case) -> tuple[list[str], int]:
    """A line for each network, or several where something is to be done, and how many findings there are."""
    lines, count = [], 0
    for network in case.networks:
        found = list(findings(case, network))
        count += len(found)
        name = f"{network.bssid} {network.ssid}"
        if not found:
            lines.append(f"{name}: {way(case, case.wires[network.bssid])}: as it has to be")
        for finding in found:
            text, *advice = finding.shown()
            lines += [f"{name}: {text}", *advice]
        lines += [f"  {remark}" for remark in remarks(case, network)]
    lines += [*case.unasked, f"networks: {len(case.networks)}, findings: {count}"]
    return lines, count


def way(case: Case, name: str) -> str:
    """Where a wire leads, for people."""
    link = case.behind.links[name]
    other = case.behind.links.get(link.other_end or "")
    if other is None:
        return name
    return f"{name} leads to {other.name}" + (f", a port of {other.master}" if other.master else "")


def findings(case: Case, network: Network) -> Iterator[Finding]:
    """What is to be done about a network's wire."""
    name = case.wires.get(network.bssid)
    if name is None:
        yield Finding("it has no wire, and what it sends there is lost", None,
                      f"write a line `{network.bssid}=INTERFACE` into {case.wires_file}")
        return
    if name not in case.behind.links:
        yield Finding(f"{name}: there is no such interface", None,
                      f"`ip link` lists them; where systemd-networkd makes it ({PAGE}), `systemctl restart "
                      f"systemd-networkd`, and by hand `ip link add {name} type veth peer name {free_name(case)}`")
        return
    yield from of_others(case, network, name)
    yield from of_interface(case, case.behind.links[name])
    meetings = list(of_other_networks(case, network, name))
    yield from meetings
    yield from of_other_end(case, network, case.behind.links[name])
    if not network.relays and not meetings and list(case.wires.values()).count(name) == 1:
        yield from of_isolation(case, case.behind.links[name])
    yield from of_running(case, network, name)


def free_name(case: Case) -> str:
    """A name for the other end of a veth that no interface has."""
    return next(name for name in (f"port{number}" for number in range(len(case.behind.links) + 1))
                if name not in case.behind.links)


def of_others(case: Case, network: Network, name: str) -> Iterator[Finding]:
    """Who else was given this wire."""
    same = [other.ssid for other in case.networks
            if other.bssid != network.bssid and case.wires.get(other.bssid) == name]
    served = case.served.get(name)
    if same:
        yield Finding(f"{name} is the wire of {', '.join(same)} too", None,
                      f"write an interface of its own for each network into {case.wires_file}")
    if name in case.others:
        yield Finding(f"{name} stands in {case.others[name]} too", None, "leave it out of one of the two files")
    elif served and served.bssid != network.bssid and not same:
        yield Finding(f"{name} is served as the wire of {served.bssid} by the access point of {served.phy}", None,
                      f"write another interface, or end that one by `systemctl stop waltigon@{served.phy}`")


def of_interface(case: Case, link: Link) -> Iterator[Finding]:
    """Whether the wire is an interface of Ethernet that serves nothing of this machine."""
    name, radio, users = link.name, case.behind.radio_of(link.name), case.behind.users_of(link.name)
    if radio is not None:
        yield Finding(f"{name} is an interface of the radio {radio}, and no wire", None,
                      f"write the name of a wired port, or of a veth's end ({PAGE})")
    elif not link.is_ethernet:
        yield Finding(f"{name} is no interface of Ethernet", None,
                      f"write the name of a wired port, or of a veth's end ({PAGE})")
    for user in users:
        what = case.behind.links.get(user, Link(user)).kind
        mend = f"`ip link del {user}`" if what == "vlan" else f"`ip link set {name} nomaster`"
        yield Finding(f"{name} serves {user}: what this machine sends by that reaches no station", None,
                      f"take it out by {mend}, and where {user} is to lead to the network, make a veth: one end is a "
                      "port of it, the other the wire")
    if link.addresses:
        yield Finding(f"{name} has the address {link.addresses[0]}: it serves this machine", None,
                      f"`ip link set {name} addrgenmode none; ip address flush dev {name}` takes it off; the bridge "
                      "behind has the address")
    if link.mtu > MOST_MTU:
        yield Finding(f"{name} has an MTU of {link.mtu}: no radio takes more than {MOST_MTU}, and longer frames are "
                      "lost", None, f"`ip link set {name} mtu {ETHERNET_MTU}`, which systemd-networkd has as "
                      f"`MTUBytes={ETHERNET_MTU}`; and no more at what sends to stations")


def of_other_networks(case: Case, network: Network, name: str) -> Iterator[Finding]:
    """Whether a frame of this wire comes to another network's without being routed."""
    reached = segment(case.behind, name)
    for other in case.networks:
        wire = case.wires.get(other.bssid)
        if wire is None or wire == name or ("link", wire) not in reached:
            continue
        port = last_port(case.behind, reached, ("link", wire))
        mend = f"`ip link set {port} nomaster` takes its port out; give it a bridge of its own, which " \
            "systemd-networkd has as `Bridge=`" if port else "give each of them a veth of its own"
        bridge = case.behind.links[port].master if port else wire
        yield Finding(f"{name} and {wire}, the wire of {other.ssid}, meet in {bridge}", None, f"{mend} ({PAGE})")


Node = tuple[str, str] | tuple[str, str, int]


def segment(behind: Behind, name: str) -> dict[Node, Node | None]:
    """All that a frame of an interface reaches without being routed, each with what it came from: ends of veths,
    bridges, and the VLANs of those that filter them. An interface of a VLAN begins another segment."""
    first: Node = ("link", name)
    found: dict[Node, Node | None] = {first: None}
    waiting = deque([first])
    while waiting:
        node = waiting.popleft()
        for neighbour in neighbours(behind, node):
            if neighbour not in found:
                found[neighbour] = node
                waiting.append(neighbour)
    return found


def neighbours(behind: Behind, node: Node) -> Iterable[Node]:
    """What is one step away."""
    match node:
        case ("link", str(name)):
            link = behind.links.get(name)
            if link and link.other_end in behind.links:
                yield "link", link.other_end
            if link and link.master in behind.links:
                yield from bridges_of(behind, link)
        case ("bridge", str(bridge), *vlan):
            for link in behind.links.values():
                if link.master == bridge and (not vlan or vlan[0] in behind.vlans.get(link.name, frozenset())):
                    yield "link", link.name


def bridges_of(behind: Behind, port: Link) -> Iterator[Node]:
    """The bridge of a port, or each of its VLANs there."""
    bridge = port.master or ""
    if not behind.links[bridge].filters_vlans:
        yield "bridge", bridge
        return
    for vlan in sorted(behind.vlans.get(port.name, frozenset())):
        yield "bridge", bridge, vlan


def last_port(behind: Behind, reached: dict[Node, Node | None], node: Node) -> str | None:
    """The first port of a bridge on the way from the wire that was begun with."""
    port, place = None, reached[node]
    while place is not None:
        if place[0] == "link" and behind.links[place[1]].master:
            port = place[1]
        place = reached[place]
    return port


def of_other_end(case: Case, network: Network, link: Link) -> Iterator[Finding]:
    """Whether the wire leads anywhere, and what comes back."""
    other = case.behind.links.get(link.other_end or "")
    if other is None:
        if link.is_up and not link.has_carrier:
            yield Finding(f"{link.name} has no carrier", None,
                          "is its cable plugged in, or the other end of the veth set up?")
        return
    if not other.is_up:
        yield Finding(f"{other.name}, the other end of {link.name}, is down", None, f"`ip link set {other.name} up`")
    if other.master is None and not other.addresses and not case.behind.users_of(other.name):
        yield Finding(f"{other.name}, the other end of {link.name}, leads nowhere", None,
                      f"`ip link set {other.name} master BRIDGE` makes it a port of a bridge")
    if other.is_sent_back and not network.relays:
        yield Finding(f"{other.master} sends back to {other.name} what came from it, so stations reach each other in "
                      "spite of `relay = false`", None, f"`bridge link set dev {other.name} hairpin off`")


def of_isolation(case: Case, link: Link) -> Iterator[Finding]:
    """Whether the bridge keeps the wire's port from its other ports."""
    other = case.behind.links.get(link.other_end or "")
    if other is None:
        return
    for port in ports_beside(case, other):
        mend = "; ".join(f"bridge link set dev {end.name} isolated on" for end in (other, port) if not end.is_isolated)
        if mend:
            yield Finding(f"{other.master} passes frames between {other.name} and {port.name}, so stations reach who is "
                          "behind that in spite of `relay = false`", None,
                          f"`{mend}`, which systemd-networkd has as `Isolated=yes`")


def ports_beside(case: Case, port: Link) -> Iterator[Link]:
    """The other ports of its bridge to which the bridge may pass a frame of it on."""
    reached = segment(case.behind, port.name)
    for link in case.behind.links.values():
        if port.master and link.master == port.master and link.name != port.name and ("link", link.name) in reached:
            yield link


def of_running(case: Case, network: Network, name: str) -> Iterator[Finding]:
    """What has to be so while the access point runs, which turns offloads off as it begins."""
    served = case.served.get(name)
    if served is None or served.bssid != network.bssid:
        return
    if served.seconds_down is not None:
        yield Finding(f"{name} hasn't been served for {served.seconds_down:.0f} seconds", None,
                      f"`journalctl -u waltigon@{served.phy} -p warning` says why; mended, it is taken again")
    for end, offloads in ends(case, name):
        on = [short for short, offload in offloads.items() if offload in case.behind.offloads_of(end)]
        if on:
            reason = "frames come without checksums, or longer than a frame" if offloads is SENDING else \
                "frames are joined to longer ones"
            yield Finding(f"{end} has {' '.join(on)} on: {reason}", None,
                          f"`ethtool -K {end} {' '.join(f'{short} off' for short in on)}`")


def ends(case: Case, name: str) -> list[tuple[str, dict[str, str]]]:
    """A wire, and its other end where that is in this namespace, with the offloads that have to be off."""
    other = case.behind.links[name].other_end
    return [(name, RECEIVING)] + ([(other, SENDING)] if other in case.behind.links else [])


def remarks(case: Case, network: Network) -> Iterator[str]:
    """What can't be seen from here."""
    link = case.behind.links.get(case.wires.get(network.bssid, ""))
    if link and link.kind == "veth" and link.other_end not in case.behind.links:
        yield (f"the other end of {link.name} is in another namespace, and wasn't looked at: there it has to be "
               "`ethtool -K NAME tx off gso off tso off`")
