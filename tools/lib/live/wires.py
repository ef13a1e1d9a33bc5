"""The wires of the networks while they are served: each is open, or missing until its interface is there, or there again,
also under another index. The other networks run meanwhile."""
import socket
from dataclasses import dataclass

from frames import address_text
from live.checks import Plan, check_wire
from live.faults import Fault
from live.machine import Interface
from live.packets import open_wire
from live.setting_up import SettingUp
from live.telling import WARNING, tell


@dataclass
class Wire:
    """The wire of a network: its interface, the socket by which bridges have it, if it is open, and what was told last of
    why it isn't."""

    bssid: bytes
    interface: Interface
    opened: socket.socket | None = None
    told: str = ""

    def close(self) -> None:
        """Has no socket any more."""
        if self.opened is not None:
            self.opened.close()
            self.opened = None


class Wires:
    """Those of a plan, by the places of their networks."""

    def __init__(self, setting_up: SettingUp) -> None:
        self.setting_up = setting_up
        self.wires: dict[int, Wire] = {}

    def open(self, plan: Plan) -> dict[int, socket.socket]:
        """Opens those that are there, as the plan has set them up; the others are told. One that a bridge before had stays
        open meanwhile, so that what comes by it waits for the next."""
        names = dict(plan.wires)
        before = {wire.interface.name: wire for wire in self.wires.values()}
        self.wires = {}
        for place, network in enumerate(plan.settings.networks):
            if network.bssid in names:
                wire = Wire(network.bssid, Interface(names[network.bssid]))
                if self.setting_up.has_wire(wire.interface) and wire.interface.name in before:
                    wire.opened, before[wire.interface.name].opened = before[wire.interface.name].opened, None
                self.wires[place] = wire
        for wire in before.values():
            wire.close()
        self.look()
        return {place: wire.opened for place, wire in self.wires.items() if wire.opened is not None}

    def went_down(self, place: int) -> None:
        """The bridge has closed the wire of the network of this place."""
        if place in self.wires:
            self.wires[place].close()

    def close(self) -> None:
        """Closes all."""
        for wire in self.wires.values():
            wire.close()

    @property
    def are_missing(self) -> bool:
        """Whether one isn't open."""
        return any(wire.opened is None for wire in self.wires.values())

    def look(self) -> dict[int, socket.socket]:
        """Opens those that are missing and that are there now."""
        opened = {}
        for place, wire in self.wires.items():
            if wire.opened is None:
                try:
                    found = self.take(wire.interface)
                    reason = "it is down" if found is None else ""
                except (Fault, OSError) as fault:
                    found, reason = None, str(fault)
                if found is not None:
                    opened[place] = wire.opened = found
                if reason and reason != wire.told:
                    tell(f"the network {address_text(wire.bssid)} has no wire until {wire.interface.name} serves it: "
                         f"{reason}", WARNING)
                wire.told = reason
        return opened

    def take(self, interface: Interface) -> socket.socket | None:
        """Opens an interface, or None where somebody has set it down: who did so sets it up again. One that isn't what was
        set up is set up anew; a fault where it can't serve."""
        if not self.setting_up.has_wire(interface):
            self.setting_up.forget_wire(interface)
            check_wire(interface)
            self.setting_up.set_up_wire_again(interface)
        elif not interface.is_up:
            return None
        return open_wire(interface.name)
