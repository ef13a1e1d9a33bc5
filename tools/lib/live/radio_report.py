"""What a radio can do for an access point, told before it is one; nothing is changed."""
from dataclasses import dataclass

import called
from live import machine
from live.changes import interfaces_made
from live.drivers import Driver, Used, driver_of, known
from live.faults import Fault
from live.other_programs import advice, in_the_way
from live.phys import Phy
from live.ways import MODES, Way, this_kernel, ways_of

MOST_NETWORKS = 16  # of a configuration
CHANNELS = {2484 if channel == 14 else 2407 + 5 * channel: channel for channel in range(1, 15)}
COSTS = {
    Way.ACTIVE_MONITORS: "each network has one; no other interface of this radio may be up meanwhile",
    Way.MANAGED: "each network has one; the kernel answers Public Action frames to them by itself",
    Way.ACCESS_POINTS: "each network has one; for each the kernel sends a beacon of its own every 10.24 seconds"}
RATES = {Used.YES: "the bridge's choice is used", Used.NO: "the radio chooses those of data by itself",
         Used.NOT_READ: "not known"}
OUTCOMES = {Used.YES: "told for each frame", Used.NO: "not told, so silent stations have to join again",
            Used.NOT_READ: "not known"}


@dataclass(frozen=True)
class Radio:
    """A radio of this machine: its name, what it says, its driver's name, and what is known of that."""

    name: str
    phy: Phy
    driver_name: str | None
    driver: Driver | None


def find(name: str) -> Radio:
    """The radio of this name."""
    if name not in machine.radios():
        raise Fault(f"{name}: there is no such radio; there are: {' '.join(machine.radios()) or 'none'}")
    driver_name = driver_of(name)
    return Radio(name, machine.phy_of(name), driver_name, known(driver_name))


def report(name: str, forced: Way | None) -> tuple[list[str], list[str]]:
    """What is told of a radio, a line each, and what is missing."""
    radio = find(name)
    missing = []
    lines = [f"{name}: the driver is {radio.driver_name or 'not named by the kernel'}{said(radio.driver)}"]
    try:
        ways = ways_of(name, radio.phy, this_kernel(), 1, forced)
    except Fault as fault:
        missing.append(str(fault))
    else:
        lines += [line for number, way in enumerate(ways) for line in lines_of(radio, way, number)]
    usable = [channel for frequency, channel in CHANNELS.items() if radio.phy.fault_of(frequency) is None]
    lines.append(f"channels that may be used: {' '.join(map(str, usable)) or 'none'} (country {machine.country()})")
    if not usable:
        missing.append("no channel from 1 to 14 may be used: set the country by --country or `iw reg set`")
    own = interfaces_made(name)
    lines += [f"{called.fellow('live')} has made {', '.join(own)} on it: it serves by these, or else the next start goes on "
              "with them or removes them"] if own else []
    missing += [f"{interface.name} is up, another interface of this radio: {advice(interface, name)}"
                for interface in in_the_way(name, own)]
    return lines, missing


def said(driver: Driver | None) -> str:
    """How far a driver is known."""
    if driver is None:
        return ", of which nothing is known here"
    return f" ({driver.notes})" if driver.notes else " (its source was read, and it was not tried)"


def lines_of(radio: Radio, way: Way, number: int) -> list[str]:
    """What is told of one way."""
    first = "it serves by" if number == 0 else "where it sends nothing by these, it serves by"
    lines = [f"{first} {way.interfaces} (--by {way.value}): {COSTS[way]}"]
    lines.append(f"networks: at most {min(MOST_NETWORKS, most_networks(radio, way))}")
    driver = radio.driver
    if driver and driver.bssids and way is Way.ACTIVE_MONITORS:
        lines.append(f"addresses: {driver.bssids}")
    if number == 0:
        lines.append(f"rates: {RATES[driver.rates if driver else Used.NOT_READ]}")
        lines.append(f"acknowledgements: {OUTCOMES[driver.outcomes if driver else Used.NOT_READ]}")
    return lines


def most_networks(radio: Radio, way: Way) -> int:
    """How many networks a radio serves in a way."""
    if way is Way.ACTIVE_MONITORS:
        return radio.driver.most if radio.driver and radio.driver.most else MOST_NETWORKS
    return radio.phy.most_networks(MODES[way])
