"""What has to be so before anything is changed; each fault says what a person can do."""
import os
import re
import shutil
import subprocess
import time
from contextlib import ExitStack
from dataclasses import dataclass

import called
from explaining.whole import explain_config, unexplained
from frames import address_of, address_text
from live import changes, machine
from live.changes import Change, Changes
from live.children import text_of_child
from live.faults import Fault
from live.machine import Interface
from live.other_programs import advice, in_the_way
from live.phys import Phy
from live.settings import MOST_EVENTS, Settings, read_settings
from live.telling import tell
from live.ways import Way, this_kernel, ways_again, ways_of
from status.endpoint import Endpoint
from status.names import Names

Wires = tuple[tuple[bytes, str], ...]
Shares = tuple[tuple[bytes, int], ...]
MOST_WEIGHT = 16
MOST_NAME = 15
COUNTRY_SECONDS = 3.0
# For the program to read a configuration, which takes it some milliseconds, and to explain one that has a fault: the
# watchdog is told nothing meanwhile.
PROGRAM_SECONDS, EXPLAIN_SECONDS = 5.0, 1.0
SET_UP = 2  # the number of the way in which `setting_up` sets up a radio; another way has another number
# Of a checkout of the source; an installation has none.
MAKEFILE = os.path.join(os.path.dirname(os.path.realpath(__file__)), "..", "..", "..", "Makefile")
CARGO = "/usr/bin/cargo"
PACKAGES = ("cargo librust-ahash-dev librust-hex-dev librust-humantime-dev librust-libc-dev librust-serde-dev "
            "librust-serde-json-dev")


@dataclass(frozen=True)
class Wanted:
    """What the words ask for; `wires` are pairs of a BSSID and an interface, and more of them stand in the file
    `wires_file`; `shares` are pairs of a BSSID and the weight of its share of the air, which is 1 of all others. Stations
    of which nothing was heard for `idle` seconds are asked, with 0 nobody is. With `as_root` the bridge and the program
    run as root, and the program without bounds. `way` forces the kind of interfaces that the networks have. The page has
    names of stations of the file `names`. A record has at most `record_limit` octets, where it has a limit. With
    `tells_wires` a network's wire learns which stations join. With `station_metrics` the page's metrics have those of each
    station."""

    config: str
    program: str
    bridge: str
    phy: str
    monitor: str
    wires: Wires
    record: str | None
    tables: float | None
    idle: int = 300
    country: str | None = None
    wires_file: str | None = None
    status: Endpoint | None = None
    shares: Shares = ()
    as_root: bool = False
    way: Way | None = None
    names: str | None = None
    record_limit: int | None = None
    tells_wires: bool = True
    station_metrics: bool = False

    def network_interface(self, place: int) -> str:
        """The interface that stands for the network of this place, so that the radio acknowledges what comes to it."""
        return f"{self.monitor}n{place + 1}"


@dataclass(frozen=True)
class Plan:
    """What is to be served: the settings of a configuration in which no fault was found, the wires, the weights of
    shares of the air, and the ways in which the radio can serve, the one that is taken first."""

    settings: Settings
    wires: Wires
    shares: Shares = ()
    ways: tuple[Way, ...] = (Way.ACTIVE_MONITORS,)

    @property
    def way(self) -> Way:
        """The one that is taken."""
        return self.ways[0]

    @property
    def served(self) -> str:
        """What is served, in few words."""
        return f"{len(self.settings.networks)} networks are on channel {self.settings.channel}"


def check(wanted: Wanted, made: Changes, stack: ExitStack) -> Plan:
    """The plan, where all is as it has to be. What an earlier start left is taken back, and the country is set: all else
    of this machine stays as it is."""
    check_bridge(wanted.bridge)
    check_program(wanted.program)
    settings = check_config(wanted.program, wanted.config)
    wires = wanted.wires + read_wires(wanted.wires_file)
    check_wires(wanted, settings, wires)
    check_shares(wanted, settings)
    check_station_names(wanted.names)
    check_record(wanted, settings)
    ways = check_radio(wanted, settings, made, stack)
    return Plan(settings, wires, wanted.shares, ways)


def check_again(wanted: Wanted, before: Plan) -> Plan:
    """The plan of a configuration that is read again while a bridge runs; nothing is changed. A wire or a share of the
    words whose network is there no more is told, and not used."""
    settings = check_config(wanted.program, wanted.config)
    known = [(bssid, name) for bssid, name in wanted.wires if bssid in settings.bssids]
    for bssid, name in set(wanted.wires) - set(known):
        tell(f"--wire {address_text(bssid)}={name}: no network has this BSSID any more: this wire isn't used")
    shares = tuple((bssid, weight) for bssid, weight in wanted.shares if bssid in settings.bssids)
    for bssid, weight in wanted.shares:
        if bssid not in settings.bssids:
            tell(f"--share {address_text(bssid)}={weight}: no network has this BSSID any more: this share isn't used")
    wires = tuple(known) + read_wires(wanted.wires_file)
    check_wires(wanted, settings, wires)
    check_names(wanted, len(settings.networks))
    for place in range(len(before.settings.networks), len(settings.networks)):
        name = wanted.network_interface(place)
        if Interface(name).exists:
            raise Fault(f"{name}: there already, and not of this bridge")
    phy = machine.phy_of(wanted.phy)
    ways = ways_again(wanted.phy, phy, this_kernel(), len(settings.networks), wanted.way, before.way)
    check_channel(phy, settings)
    return Plan(settings, wires, shares, ways)


def check_rights() -> None:
    """Only root makes interfaces and hears all of one."""
    if os.geteuid() != 0:
        raise Fault("run it as root (sudo): it makes interfaces on the radio and hears all that comes by them")
    missing = [package for command, package in machine.PACKAGES.items() if shutil.which(command) is None]
    if missing:
        raise Fault(f"install Debian's packages {' '.join(missing)}")


def check_bridge(bridge: str) -> None:
    """The bridge has to be built, which takes packages of Debian."""
    if os.access(bridge, os.X_OK):
        return
    if not os.path.exists(MAKEFILE):
        raise Fault(f"{bridge} isn't there: in a checkout of the source `make bridge` builds it, and then "
                    "`make install` installs it")
    if shutil.which(CARGO) is None:
        raise Fault(f"the bridge isn't built: install Debian's packages {PACKAGES}, and then `make bridge` builds it")
    raise Fault(f"{bridge} isn't there: `make bridge` builds it")


def check_program(program: str) -> None:
    """The program has to be built."""
    if not os.path.isfile(program):
        raise Fault(f"{program} isn't there: {called.program_comes()}")
    if not os.access(program, os.X_OK):
        raise Fault(f"{program} can't be run: it isn't executable")


def check_config(program: str, config: str) -> Settings:
    """The program has to find no fault in the configuration."""
    try:
        done = subprocess.run([program, "check", config], capture_output=True, text=True, check=False,
                              timeout=PROGRAM_SECONDS)
    except OSError as fault:
        raise Fault(f"{program} can't be run: {fault.strerror}") from None
    except subprocess.TimeoutExpired:
        raise Fault(f"{config}: the program hasn't read it within {PROGRAM_SECONDS:.0f} seconds") from None
    if done.returncode != 0:
        raise Fault(f"{config}: {explained(config, done.stderr.strip())}")
    return read_settings(config)


def explained(config: str, said: str) -> str:
    """What the program said of a configuration, and what it means: that is found by a child, which can't keep this
    process for longer than a second."""
    found = text_of_child(lambda: "\n".join(explain_config(config, said)), EXPLAIN_SECONDS)
    return "\n".join(unexplained(config, said)) if found is None else found


def wire_of(text: str) -> tuple[bytes, str]:
    """A wire as `BSSID=INTERFACE`; ValueError where it is none."""
    bssid, separator, name = text.partition("=")
    if not separator or not name:
        raise ValueError(f"{text} is no BSSID=INTERFACE")
    return address_of(bssid), name


def share_of(text: str) -> tuple[bytes, int]:
    """A share as `BSSID=WEIGHT`; ValueError where it is none."""
    bssid, _, weight = text.partition("=")
    if not (weight.isascii() and weight.isdigit() and 1 <= int(weight) <= MOST_WEIGHT):
        raise ValueError(f"{text} is no BSSID=WEIGHT with a weight from 1 to {MOST_WEIGHT}")
    return address_of(bssid), int(weight)


def check_shares(wanted: Wanted, settings: Settings) -> None:
    """Each share has to be of one network."""
    bssids = [bssid for bssid, _ in wanted.shares]
    for bssid, weight in wanted.shares:
        if bssid not in settings.bssids:
            raise Fault(f"--share {address_text(bssid)}={weight}: no network of {wanted.config} has this BSSID")
        if bssids.count(bssid) > 1:
            raise Fault(f"--share {address_text(bssid)}: this network has two shares")


def read_wires(path: str | None) -> Wires:
    """The wires of a file, `BSSID=INTERFACE` a line; empty lines, and what stands behind `#`, are skipped."""
    if path is None:
        return ()
    try:
        with open(path, encoding="utf-8") as file:
            lines = [line.partition("#")[0].strip() for line in file]
        return tuple(wire_of(line) for line in lines if line)
    except (OSError, ValueError) as fault:
        raise Fault(f"--wires {path}: {fault}") from None


def check_wires(wanted: Wanted, settings: Settings, wires: Wires) -> None:
    """Each wired port has to be of one network, and to serve nothing else."""
    bssids, names = [bssid for bssid, _ in wires], [name for _, name in wires]
    for bssid, name in wires:
        if bssid not in settings.bssids:
            raise Fault(f"--wire {address_text(bssid)}={name}: no network of {wanted.config} has this BSSID")
        if bssids.count(bssid) > 1:
            raise Fault(f"--wire {address_text(bssid)}: this network has two interfaces")
        if names.count(name) > 1:
            raise Fault(f"--wire {address_text(bssid)}={name}: this interface is given for two networks")
        if "/" in name or len(name) > MOST_NAME:
            raise Fault(f"--wire {address_text(bssid)}={name}: no interface has such a name")
        if Interface(name).exists:  # one that isn't there yet is taken once it is (`wires.Wires`)
            check_wire(Interface(name))


def missing_wires(plan: Plan) -> tuple[str, ...]:
    """The wires that aren't there."""
    return tuple(name for _, name in plan.wires if not Interface(name).exists)


def check_wire(interface: Interface) -> None:
    """An interface of Ethernet that serves nothing else."""
    name = interface.name
    if not interface.exists:
        raise Fault(f"{name}: there is no such interface (`ip link` lists them)")
    if interface.radio is not None:
        raise Fault(f"{name}: is an interface of the radio {interface.radio}, and no wired port")
    if not interface.is_ethernet:
        raise Fault(f"{name}: is no interface of Ethernet")
    if interface.users:
        users = ", ".join(interface.users)
        raise Fault(f"{name}: serves {users}: what this machine sends by it would reach no station (docs/OPERATING.md, "
                    "'The wired ports')")
    if interface.addresses:
        raise Fault(f"{name}: has the address {interface.addresses[0]}, so it serves this machine: take its addresses "
                    f"off by `ip link set {name} addrgenmode none` and `ip address flush dev {name}`, or give another")


def check_radio(wanted: Wanted, settings: Settings, made: Changes, stack: ExitStack) -> tuple[Way, ...]:
    """The radio has to be there, to be free, and to be able to do what is asked; the ways in which it can."""
    if wanted.phy not in machine.radios():
        raise Fault(f"{wanted.phy}: there is no such radio; there are: {' '.join(machine.radios()) or 'none'}")
    check_names(wanted, len(settings.networks))
    check_left(wanted, made.left_interfaces())
    ways = ways_of(wanted.phy, machine.phy_of(wanted.phy), this_kernel(), len(settings.networks), wanted.way)
    handed_on = next((way for way in ways if is_handed_on(wanted, settings, way, made)), None)
    if handed_on is not None:
        ways = ways[ways.index(handed_on):]
        made.go_on()
        stack.callback(made.take_back_rest)
    else:
        made.take_back_left()
    for interface in in_the_way(wanted.phy, made.handed_interfaces()):
        raise Fault(f"{wanted.phy} has the interface {interface.name}, which is up: {advice(interface, wanted.phy)}")
    set_country(wanted.country, made, stack)
    check_channel(machine.phy_of(wanted.phy), settings)
    return ways


def as_set_up(settings: Settings, way: Way) -> str:
    """How the radio is set up for these settings, in so far as its interfaces don't tell it themselves: a start that goes on
    with them compares this."""
    return f"{SET_UP} {way.value} {settings.frequency}\n"


def is_handed_on(wanted: Wanted, settings: Settings, way: Way, made: Changes) -> bool:
    """Whether the start before has handed on just the interfaces that these settings take, each as it would be made."""
    names = {wanted.network_interface(place): network.bssid for place, network in enumerate(settings.networks)}
    left = {change.name for change in made.left if change.kind == changes.INTERFACE}
    if made.handed_on != as_set_up(settings, way) or left != {wanted.monitor, *names}:
        return False
    if any(change.kind == changes.COUNTRY for change in made.left) and wanted.country != machine.country():
        return False
    found = [Interface(name) for name in left]
    return (all(interface.radio == wanted.phy and interface.is_up for interface in found)
            and all(Interface(name).address == address_text(bssid) for name, bssid in names.items()))


def check_names(wanted: Wanted, networks: int) -> None:
    """The names of the interfaces to be made must not be too long."""
    longest = wanted.network_interface(networks - 1)
    if len(longest) > MOST_NAME:
        raise Fault(f"--monitor {wanted.monitor}: too long a name: {longest} has more than {MOST_NAME} characters")


def check_left(wanted: Wanted, own: list[str]) -> None:
    """No interface may be there that has such a name, but those that an earlier start for this radio left."""
    left = [interface.name for interface in machine.interfaces()
            if re.fullmatch(rf"{re.escape(wanted.monitor)}(n\d+)?", interface.name) and interface.name not in own]
    if left:
        commands = "; ".join(f"iw dev {name} del" for name in left)
        raise Fault(f"{', '.join(left)}: there already, and made by no earlier start for {wanted.phy}; where nothing "
                    f"uses them, this removes them: `{commands}`, or take other names by --monitor")


def set_country(country: str | None, made: Changes, stack: ExitStack) -> None:
    """Sets the country whose rules of the air hold, until the last access point that asked for one ends: they all have
    the same."""
    if country is None:
        return
    handed = made.take_over_country()
    if handed is not None:
        stack.callback(made.take_back, handed)
        return
    with made.countries() as others:
        now = machine.country()
        if country == now and not others:
            return
        change = Change(changes.COUNTRY, others[0].name if others else now, (country,))
        made.add(change)
        stack.callback(made.take_back, change)
        if country != now:
            machine.run("iw", "reg", "set", country)
            await_country(country)


def await_country(country: str) -> None:
    """Waits until it holds; a fault where that takes long."""
    until = time.monotonic() + COUNTRY_SECONDS
    while machine.country() != country:
        if time.monotonic() > until:
            raise Fault(f"--country {country}: the kernel keeps to {machine.country()}: is Debian's package "
                        "wireless-regdb installed?")
        time.sleep(0.1)


def check_station_names(path: str | None) -> None:
    """The file of the names of stations has to be read."""
    try:
        if path is not None:
            Names(path)
    except (OSError, ValueError) as fault:
        raise Fault(f"--names: {fault}") from None


def check_channel(phy: Phy, settings: Settings) -> None:
    """The radio has to have the channel, and to be allowed to send there."""
    reason = phy.fault_of(settings.frequency)
    if reason:
        raise Fault(f"channel {settings.channel} ({settings.frequency} MHz): {reason}: nothing may be sent there; "
                    "choose another, or set the country by `iw reg set`")


def check_record(wanted: Wanted, settings: Settings) -> None:
    """The record's folder has to be there; how far `run` goes with it is told."""
    if wanted.record is None:
        return
    if not os.path.isdir(os.path.dirname(wanted.record) or "."):
        raise Fault(f"--record {wanted.record}: its folder isn't there")
    for network in settings.networks:
        if network.max_events < MOST_EVENTS:
            tell(f"--record {wanted.record}: `run` on it ends with {network.max_events} events of the network "
                 f"{address_text(network.bssid)}, its `max_events`; `max_events = {MOST_EVENTS}` goes furthest")
