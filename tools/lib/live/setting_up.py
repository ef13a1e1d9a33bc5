"""What the bridge changes on this machine, part by part: when the configuration is read again, those parts alone are
taken back that it has no more."""
import os
from contextlib import ExitStack
from dataclasses import dataclass

from frames import address_text
from live import changes, machine
from live.changes import Change, Changes, reload_network_manager
from live.checks import Plan, Wanted
from live.drivers import meaning_of
from live.faults import Fault
from live.kernel_beacon import other_address, start_words
from live.machine import Interface
from live.telling import WARNING, tell
from live.ways import Way

MTU = 2304
ADDRESS_MODE, NO_ADDRESS = "/proc/sys/net/ipv6/conf/{}/addr_gen_mode", "none"
ADDRESS_MODES = {"0": "eui64", "1": "none", "2": "stable_secret", "3": "random"}
UNMANAGED = "/run/NetworkManager/conf.d/waltigon-{}.conf"
# The words of `iw` for the interface of a network, which has this address; `flags` have to stand last.
KINDS = {Way.ACTIVE_MONITORS: "monitor addr {} flags active", Way.MANAGED: "managed addr {}",
         Way.ACCESS_POINTS: "__ap addr {}"}
# What `ethtool -K` calls an offload, and `ethtool -k`.
RECEIVING = {"gro": "generic-receive-offload", "lro": "large-receive-offload"}
SENDING = {"tx": "tx-checksumming", "gso": "generic-segmentation-offload", "tso": "tcp-segmentation-offload"}


@dataclass(frozen=True)
class WirePart:
    """The wired port of a network."""

    interface: str


@dataclass(frozen=True)
class RadioPart:
    """The monitor interface, on the channel of this frequency, beside which networks have interfaces of a kind."""

    frequency: int
    way: Way


@dataclass(frozen=True)
class NetworkPart:
    """The interface that stands for a network; one on another channel is another one, since the channel can only be set
    while the monitor interface is alone. The kernel's beacon of an access point interface has an address of its own."""

    interface: str
    bssid: bytes
    frequency: int
    way: Way
    beacon_from: bytes = b""


Part = WirePart | RadioPart | NetworkPart


class SettingUp:
    """Makes the changes; `stack` takes them back in reverse order."""

    def __init__(self, wanted: Wanted, made: Changes, stack: ExitStack) -> None:
        self.wanted = wanted
        self.made = made
        self.parts: dict[Part, ExitStack] = {}
        self.indices: dict[str, str | None] = {}  # of the wires that were set up, by their names
        self.stack = stack  # of the part that is being set up
        stack.callback(self.take_down)

    def follow(self, plan: Plan, missing: tuple[str, ...] = ()) -> None:
        """Takes down what isn't in the plan, and sets up what isn't there; all else stays as it is. Wires that are missing
        are set up later."""
        for network in plan.settings.networks:
            if network.bssid not in dict(plan.wires):
                tell(f"the network {address_text(network.bssid)} has no --wire: what it sends there is lost")
        wanted = self.parts_of(plan)
        for part in reversed(list(self.parts)):
            if part not in wanted:
                self.parts.pop(part).close()
        for part in wanted:
            if part not in self.parts and not (isinstance(part, WirePart) and part.interface in missing):
                self.begin(part)
        self.made.take_back_rest()

    def begin(self, part: Part) -> None:
        """Sets one part up, with a stack of its own. An interface of the radio that the start before has handed on is set up
        already."""
        self.stack = self.parts[part] = ExitStack()
        handed = self.made.take_over(self.names_of(part))
        for change in handed:
            self.stack.callback(self.made.take_back, change)
        if not any(change.kind == changes.INTERFACE for change in handed):
            self.set_up(part)

    def names_of(self, part: Part) -> set[str]:
        """The names of what is changed for a part."""
        match part:
            case WirePart(name):
                other = Interface(name).other_end if self.made.handed else None
                return {name} if other is None else {name, other.name}
            case RadioPart():
                return {self.wanted.monitor, UNMANAGED.format(self.wanted.monitor)}
            case NetworkPart(name):
                return {name}

    def radio_interfaces(self) -> list[str]:
        """The interfaces of the radio that were set up: the monitor interface, and then those of networks."""
        networks = [part.interface for part in self.parts if isinstance(part, NetworkPart)]
        return [self.wanted.monitor, *networks] if any(isinstance(part, RadioPart) for part in self.parts) else []

    def set_up_radio_again(self) -> None:
        """Takes all interfaces of the radio down, and up again in their order, which gives the radio its channel back: the
        monitor interface is the first that is up."""
        for name in reversed(self.radio_interfaces()):
            if Interface(name).exists:
                machine.run("ip", "link", "set", name, "down")
        for part in self.parts:
            match part:
                case RadioPart(frequency):
                    self.tune(frequency)
                case NetworkPart(name):
                    if not Interface(name).exists:
                        machine.run(*self.adding(part))
                    self.bring_network_up(part)

    def has_wire(self, interface: Interface) -> bool:
        """Whether this very interface was set up as a wire."""
        return WirePart(interface.name) in self.parts and interface.index == self.indices.get(interface.name)

    def forget_wire(self, interface: Interface) -> None:
        """What was set up by this name is gone: of that nothing is taken back."""
        part = self.parts.pop(WirePart(interface.name), None)
        if part is not None:
            part.pop_all()
            self.made.forget_gone(interface.name)

    def set_up_wire_again(self, interface: Interface) -> None:
        """Sets up a wire that is there now; where that fails, all of it is taken back."""
        part = WirePart(interface.name)
        try:
            self.begin(part)
        except BaseException:
            self.parts.pop(part).close()
            raise

    def parts_of(self, plan: Plan) -> list[Part]:
        """What a plan takes, in the order in which it is set up."""
        settings, way = plan.settings, plan.way
        frequency = settings.frequency
        sender = other_address(self.wanted.phy, settings.bssids) if way is Way.ACCESS_POINTS else b""
        networks = [NetworkPart(self.wanted.network_interface(place), network.bssid, frequency, way, sender)
                    for place, network in enumerate(settings.networks)]
        return [*(WirePart(name) for _, name in plan.wires), RadioPart(frequency, way), *networks]

    def take_down(self) -> None:
        """Takes all back."""
        while self.parts:
            self.parts.popitem()[1].close()

    def set_up(self, part: Part) -> None:
        """Sets one part up."""
        match part:
            case WirePart(name):
                self.set_up_wire(Interface(name))
            case RadioPart(frequency):
                self.set_up_radio(frequency)
            case NetworkPart():
                self.set_up_network(part)

    def set_up_wire(self, interface: Interface) -> None:
        """Sets one wired port up: no frames are joined to larger ones."""
        self.turn_off(interface, RECEIVING)
        other = interface.other_end
        if other is not None:
            self.turn_off(other, SENDING)
        elif interface.is_veth:
            tell(f"{interface.name}: its other end is in another namespace; there, turn off what would be left to this "
                 "end: `ethtool -K NAME tx off gso off tso off`")
        if not interface.is_up:
            self.bring_up(interface.name)
        self.indices[interface.name] = interface.index

    def turn_off(self, interface: Interface, offloads: dict[str, str]) -> None:
        """Turns off those offloads that are on."""
        found = interface.offloads()
        on = [short for short, name in offloads.items() if found.get(name)]
        if on:
            self.change(Change(changes.OFFLOADS, interface.name, tuple(on)),
                        "ethtool", "-K", interface.name, *(word for short in on for word in (short, "off")))

    def set_up_radio(self, frequency: int) -> None:
        """Sets the radio up: a monitor interface on the channel, before the interfaces of the networks, by which the
        radio acknowledges."""
        self.keep_network_manager_out()
        monitor = self.wanted.monitor
        self.change(Change(changes.INTERFACE, monitor),
                    "iw", "phy", self.wanted.phy, "interface", "add", monitor, "type", "monitor", "flags", "control")
        machine.run("ip", "link", "set", monitor, "mtu", str(MTU))
        self.tune(frequency)

    def tune(self, frequency: int) -> None:
        """Brings the monitor interface up on the channel, while it is the only interface that is up. Before Linux 6.9 what
        it sends is judged by the channel on which it came up, so it comes up there once more."""
        monitor = self.wanted.monitor
        machine.run("ip", "link", "set", monitor, "up")
        machine.run("iw", "dev", monitor, "set", "freq", str(frequency))
        machine.run("ip", "link", "set", monitor, "down")
        machine.run("ip", "link", "set", monitor, "up")
        found = Interface(monitor).frequency
        if found != frequency:
            place = "on no channel" if found is None else f"on {found} MHz"
            raise Fault(f"{self.wanted.phy}: its channel was set to {frequency} MHz, and {monitor} is {place}: does "
                        "something else use this radio?")

    def set_up_network(self, part: NetworkPart) -> None:
        """Adds the interface that stands for a network, and brings it up."""
        self.change(Change(changes.INTERFACE, part.interface), *self.adding(part))
        self.bring_network_up(part)

    def adding(self, part: NetworkPart) -> list[str]:
        """The command that adds it."""
        kind = KINDS[part.way].format(address_text(part.bssid)).split()
        return ["iw", "phy", self.wanted.phy, "interface", "add", part.interface, "type", *kind]

    def bring_network_up(self, part: NetworkPart) -> None:
        """Brings it up; a driver may take no more of them, or not with this address."""
        self.keep_without_address(part.interface)
        try:
            machine.run("ip", "link", "set", part.interface, "up")
        except Fault as fault:
            meaning = meaning_of(str(fault), self.wanted.phy)
            raise Fault(f"{fault}: {meaning}" if meaning else str(fault)) from None
        if part.way is Way.ACCESS_POINTS:
            machine.run("iw", "dev", part.interface, *start_words(part.frequency, part.beacon_from))

    def bring_up(self, name: str) -> None:
        """Sets an interface up, without an address of its own."""
        before = machine.read_file(ADDRESS_MODE.format(name))
        if ADDRESS_MODES.get(before or "", NO_ADDRESS) != NO_ADDRESS:
            self.change(Change(changes.ADDRESS_MODE, name, (ADDRESS_MODES[before or ""],)),
                        "ip", "link", "set", name, "addrgenmode", NO_ADDRESS)
        self.change(Change(changes.UP, name), "ip", "link", "set", name, "up")

    def keep_without_address(self, name: str) -> None:
        """Lets the kernel give an interface of ours no IPv6 address, where it has IPv6."""
        if machine.read_file(ADDRESS_MODE.format(name)) is not None:
            machine.run("ip", "link", "set", name, "addrgenmode", NO_ADDRESS)

    def change(self, change: Change, *words: str) -> None:
        """Makes a change that is taken back in the end, or by the next start where this one is killed."""
        self.made.add(change)
        try:
            machine.run(*words)
        except BaseException:
            self.made.forget(change)
            raise
        self.stack.callback(self.made.take_back, change)

    def keep_network_manager_out(self) -> None:
        """NetworkManager would scan by the new interfaces, and so move the channel: a file says that it leaves them alone,
        and those that the radio has already. It is there whether NetworkManager runs or not, which may begin later."""
        path = UNMANAGED.format(self.wanted.monitor)
        change = Change(changes.UNMANAGED, path)
        self.made.add(change)
        others = [interface.name for interface in machine.interfaces()
                  if interface.radio == self.wanted.phy and not interface.name.startswith(self.wanted.monitor)]
        try:
            os.makedirs(os.path.dirname(path), exist_ok=True)
            with open(path, "w", encoding="utf-8") as file:
                file.write(leave_alone(self.wanted.monitor, others))
        except OSError as fault:
            self.made.forget(change)
            tell(f"{path}: {fault.strerror}: NetworkManager may take the interfaces of this radio", WARNING)
            return
        self.stack.callback(self.made.take_back, change)
        reload_network_manager()


def leave_alone(monitor: str, others: list[str]) -> str:
    """A file by which NetworkManager leaves alone what has a name of ours, and others (NetworkManager.conf(5)). A section of
    its own holds beside an operator's list of unmanaged devices."""
    devices = ",".join(f"interface-name:{name}" for name in (f"{monitor}*", *others))
    return f"[device-waltigon-{monitor}]\nmatch-device={devices}\nmanaged=0\n"
