"""What the sources of radios' drivers say of them (Linux 6.12 unless another one is named). It was read; of these drivers
mac80211_hwsim alone was tried."""
import os
import re
from dataclasses import dataclass
from enum import Enum

from live import machine

DRIVER = "device/driver"
NO_ROOM, BUSY = "No space left on device", "Device or resource busy"


class Used(Enum):
    """Whether something is used, or told."""

    YES = "yes"
    NO = "no"
    NOT_READ = "not known"


@dataclass(frozen=True)
class Driver:
    """A driver, as the kernel names it; whether it says that it has active monitors, and how many networks it serves by
    them, where it bounds them; what BSSIDs it takes; whether it sends data at the rates that the bridge chooses, and
    whether it tells which frames were acknowledged."""

    names: str
    has_active_monitors: bool
    most: int | None = None
    bssids: str = ""
    rates: Used = Used.NOT_READ
    outcomes: Used = Used.NOT_READ
    notes: str = ""

    def is_of(self, name: str) -> bool:
        """Whether the kernel means this driver."""
        return re.fullmatch(self.names, name) is not None


MASK = ("it also acknowledges other addresses, which lie between the BSSIDs: choose BSSIDs that differ in few bits")
LIKE_ITS_OWN = "the BSSIDs have to be the radio's own address but for bits 2 to 4 of the first octet"
DRIVERS = (
    Driver("mac80211_hwsim", True, None, "", Used.YES, Used.YES, "simulated, and tried"),
    Driver("ath9k", True, None, MASK, Used.YES, Used.YES),
    Driver("mt7603e|mt76_wmac", True, 4, "", Used.NOT_READ, Used.YES),
    Driver("mt76x[02][eu]", True, 8, LIKE_ITS_OWN, Used.YES, Used.YES),
    Driver("mt7615e|mt7663[us]|mt7622-wmac", True, 15, "", Used.NO, Used.YES),
    Driver("mt7915e|mt7915_hif|mt798x-wmac|mt7996e|mt7996_hif", True, 15, "", Used.NO, Used.YES),
    Driver("mt7921[eus]|mt7925[eu]", True, 3, "", Used.NO, Used.YES,
           "on Linux 7.3 it has no active monitors; its firmware decides what is acknowledged"),
    Driver("mt7601u", True, 1, "the BSSID becomes the radio's own address", Used.YES, Used.YES),
    Driver("ath9k_htc|carl9170|ath1[012]k(_.*)?|iwlwifi|rtw_.*|rtw8[89].*|rtl.*|rt2[0-9]{3}.*|rt[67][0-9].*|b43|brcmsmac"
           "|p54.*|zd1211rw|wcn36xx", False))


def driver_of(phy: str) -> str | None:
    """The name of a radio's driver, or None where the kernel names none."""
    path = os.path.join(machine.RADIOS, phy, DRIVER)
    return os.path.basename(os.path.realpath(path)) if os.path.exists(path) else None


def known(name: str | None) -> Driver | None:
    """What is known of a driver."""
    return next((driver for driver in DRIVERS if name is not None and driver.is_of(name)), None)


def meaning_of(refusal: str, phy: str) -> str:
    """What it means where a radio doesn't bring an interface of a network up, and what to do; nothing where that isn't
    known."""
    name = driver_of(phy)
    driver = known(name)
    if NO_ROOM in refusal:
        most = f", at most {driver.most} for networks" if driver and driver.most else ""
        return f"the driver {name} takes no more such interfaces{most}: serve fewer networks by this radio"
    if BUSY in refusal:
        own = machine.read_file(machine.RADIOS, phy, "macaddress")
        what = driver.bssids if driver and driver.bssids else "choose BSSIDs that are like the radio's own address"
        return f"the driver {name} takes no interface with this address: {what} ({own})"
    return ""
