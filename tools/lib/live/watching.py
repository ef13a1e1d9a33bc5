"""What may stop a radio while it serves: another interface of it that comes up, one of its own that somebody takes down,
and what the bridge tells of beacons and of the channel. It is told, and mended where that can be done."""
import time
from contextlib import ExitStack

from live import machine
from live.bridge import Bridge
from live.checks import Plan, Wanted
from live.faults import Fault
from live.links import Link, Links
from live.machine import Interface
from live.service import Service
from live.setting_up import SettingUp
from live.telling import ERROR, NOTICE, WARNING, tell
from live.ways import Way

PAGE = "docs/OPERATING.md, 'The radio'"
TRY_SECONDS = 1.0  # until the radio is set up anew once more, where that failed
# What another interface that is up does to the networks.
HARM = {Way.ACTIVE_MONITORS: "while it is up, this radio sends nothing, and stations lose their networks",
        Way.MANAGED: "where it scans or joins a network, this radio leaves its channel",
        Way.ACCESS_POINTS: "while it scans, this radio leaves its channel"}


class RadioWatch:
    """Looks at all of this whenever something changes."""

    def __init__(self, wanted: Wanted, setting_up: SettingUp, service: Service, stack: ExitStack) -> None:
        self.wanted, self.setting_up, self.service = wanted, setting_up, service
        self.links = Links(stack)
        self.others: set[str] = set()  # other interfaces of the radio that are up
        self.is_silent = False  # no beacon is told as sent
        self.elsewhere: int | None = None  # the frequency on which the radio hears, where that isn't its channel's
        self.is_due = False  # the radio is to be set up anew
        self.failed = ""  # why that failed last
        self.next_try = 0.0

    def begin(self, plan: Plan) -> None:
        """From now on it is looked at: the radio has just been set up, and another bridge serves it."""
        self.links.changed()
        self.is_silent, self.elsewhere = False, None
        self.is_due = not all(Interface(name).is_up for name in self.setting_up.radio_interfaces())
        self.came_up({interface.name for interface in machine.interfaces() if self.is_other(interface)}, plan)

    @property
    def seconds(self) -> float | None:
        """After how many seconds something is to be done, whatever changes."""
        return max(0.0, self.next_try - time.monotonic()) if self.is_due and not self.others else None

    def look(self, bridge: Bridge, plan: Plan) -> None:
        """Looks at what changed, and does what is to be done."""
        self.look_at_links(self.links.changed(), plan)
        self.look_at_bridge(bridge, plan)
        if self.is_due and not self.others and time.monotonic() >= self.next_try:
            self.set_up_anew(plan)

    def is_other(self, interface: Interface) -> bool:
        """Whether an interface is another one of the radio, and up; monitors disturb nobody."""
        return (interface.radio == self.wanted.phy and interface.is_up and not interface.is_monitor
                and interface.name not in self.setting_up.radio_interfaces())

    def look_at_links(self, changed: list[Link], plan: Plan) -> None:
        """Another interface that was up, if only for a moment, and one of the radio's own that is down."""
        own = self.setting_up.radio_interfaces()
        self.came_up({link.name for link in changed if link.is_up and not link.is_monitor and link.name not in own
                      and Interface(link.name).radio == self.wanted.phy}, plan)
        gone = {name for name in self.others if not self.is_other(Interface(name))}
        if gone:
            self.others -= gone
            self.say(f"{listed(gone)} of {self.wanted.phy} is down again", NOTICE, plan)
            self.is_due |= plan.way is not Way.ACCESS_POINTS  # these have kept their channel
        down = {link.name for link in changed if link.name in own and not link.is_up}
        if down and not self.is_due:
            self.say(f"{listed(down)} was taken down by somebody", WARNING, plan)
            self.is_due = True

    def came_up(self, names: set[str], plan: Plan) -> None:
        """Others of the radio are up."""
        for name in sorted(names - self.others):
            self.others.add(name)
            self.say(f"{name} of {self.wanted.phy} is up: {HARM[plan.way]}; take it down by `ip link set {name} down`, and "
                     f"keep what has set it up away from this radio ({PAGE})", WARNING, plan)

    def look_at_bridge(self, bridge: Bridge, plan: Plan) -> None:
        """Whether beacons go, and on which channel the radio is. The bridge has told that in the log; here stands what is
        done about it, once each time."""
        if (bridge.is_unsent, bridge.elsewhere) == (self.is_silent, self.elsewhere):
            return
        became_silent = bridge.is_unsent and not self.is_silent
        went_away = bridge.elsewhere is not None and bridge.elsewhere != self.elsewhere
        self.is_silent, self.elsewhere = bridge.is_unsent, bridge.elsewhere
        self.service.status(self.status(plan))
        if became_silent and not self.others:
            tell(f"{self.wanted.phy} sends nothing: its interfaces are taken down and up once; where that doesn't help, "
                 f"`dmesg` and `iw dev` may say why ({PAGE})", WARNING)
        if went_away and not self.others:
            tell(f"{self.wanted.phy} is on {self.elsewhere} MHz, so no station finds the networks: it is set back to "
                 f"{plan.settings.frequency} MHz ({PAGE})", WARNING)
        self.is_due |= became_silent or went_away

    def set_up_anew(self, plan: Plan) -> None:
        """Takes the radio's interfaces down and up again; where that fails it is tried again."""
        try:
            self.setting_up.set_up_radio_again()
        except Fault as fault:
            if str(fault) != self.failed:
                tell(f"the radio isn't set up anew, which is tried again each second: {fault}", ERROR)
            self.failed, self.next_try = str(fault), time.monotonic() + TRY_SECONDS
            return
        self.is_due, self.failed = False, ""
        self.links.changed()
        self.say(f"{self.wanted.phy} was set up anew", NOTICE, plan)
        self.came_up({interface.name for interface in machine.interfaces() if self.is_other(interface)}, plan)

    def say(self, text: str, level: int, plan: Plan) -> None:
        """Tells people, and the manager of services how it stands now."""
        tell(text, level)
        self.service.status(self.status(plan))

    def status(self, plan: Plan) -> str:
        """What is served, and what keeps stations from it now, in few words."""
        found = [plan.served, *(f"{name} of {self.wanted.phy} is up beside them" for name in sorted(self.others))]
        found += ["no beacon is told as sent"] if self.is_silent else []
        found += [] if self.elsewhere is None else [f"the radio is on {self.elsewhere} MHz"]
        return "; ".join(found)


def listed(names: set[str]) -> str:
    """Names in a sentence."""
    return ", ".join(sorted(names))
