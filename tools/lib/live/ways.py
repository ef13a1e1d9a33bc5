"""By which interfaces a radio acknowledges what comes to the networks' addresses: the ways there are, and the rule that
chooses one for a radio and a kernel."""
import os
import re
from enum import Enum

from live.faults import Fault
from live.phys import ACCESS_POINT, MANAGED, MONITOR, Phy

Kernel = tuple[int, int]
# From here on each driver has channel contexts: without one for the monitor interface nothing is sent on its channel.
FIRST_WITH_CONTEXTS: Kernel = (6, 9)
RELEASE = re.compile(r"(\d+)\.(\d+)")


class Way(Enum):
    """The kind of interface that each network has, beside the monitor interface by which all is heard and sent."""

    ACTIVE_MONITORS = "active-monitors"
    MANAGED = "managed"
    ACCESS_POINTS = "access-points"

    @property
    def interfaces(self) -> str:
        """What these interfaces are called."""
        return NAMES[self]


NAMES = {Way.ACTIVE_MONITORS: "active monitor interfaces", Way.MANAGED: "managed interfaces",
         Way.ACCESS_POINTS: "access point interfaces"}
MODES = {Way.MANAGED: MANAGED, Way.ACCESS_POINTS: ACCESS_POINT}


def kernel_of(release: str) -> Kernel:
    """The version of a kernel, as (6, 12), of its release's name."""
    match = RELEASE.match(release)
    if match is None:
        raise Fault(f"the kernel's release {release} tells no version")
    return int(match[1]), int(match[2])


def this_kernel() -> Kernel:
    """The version of the kernel that runs."""
    return kernel_of(os.uname().release)


def reason_against(way: Way, phy: Phy, kernel: Kernel, networks: int) -> str | None:
    """Why a radio can't take a way for so many networks, or None where it can."""
    if MONITOR not in phy.modes:
        return f"it has no mode {MONITOR}"
    if way is Way.ACTIVE_MONITORS:
        return None if phy.has_active_monitors else "it has no active monitors"
    mode = MODES[way]
    if mode not in phy.modes:
        return f"it has no mode {mode}"
    if way is Way.MANAGED and kernel >= FIRST_WITH_CONTEXTS:
        return "from kernel 6.9 on they take the channel away from the monitor interface"
    if way is Way.MANAGED and phy.has_contexts:
        return "it can be on several channels, and then they take the channel away from the monitor interface"
    most = phy.most_networks(mode)
    if networks > most:
        return f"it allows {most} of them beside a monitor interface, and {networks} networks take one each"
    return None


def ways_of(name: str, phy: Phy, kernel: Kernel, networks: int, forced: Way | None = None) -> tuple[Way, ...]:
    """The ways that a radio can take for so many networks, the best one first; another one is tried where the radio sends
    nothing by the one before. A forced one is the only one. A fault where there is none."""
    asked = (forced,) if forced else tuple(Way)
    reasons = {way: reason_against(way, phy, kernel, networks) for way in asked}
    found = tuple(way for way, reason in reasons.items() if reason is None)
    if not found:
        listed = "; ".join(f"not by {way.interfaces}: {reason}" for way, reason in reasons.items())
        raise Fault(f"{name}: this radio can't serve {networks} networks: {listed} (`iw phy {name} info`; "
                    "docs/OPERATING.md, 'The radio', says which radios can)")
    return found[:1] if found[0] is Way.ACTIVE_MONITORS else found


def ways_again(name: str, phy: Phy, kernel: Kernel, networks: int, forced: Way | None, now: Way) -> tuple[Way, ...]:
    """The ways for so many networks of a radio that serves in one of them: that one, and those that come behind it. A fault
    where that one doesn't hold so many."""
    ways_of(name, phy, kernel, networks, now)
    found = ways_of(name, phy, kernel, networks, forced)
    return found[found.index(now):] if now in found else (now,)
