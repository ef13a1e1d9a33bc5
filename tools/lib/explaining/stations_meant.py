"""What a frame may not be meant to say of its station: that it is awake, that it dozes where that isn't read, or that
it leaves and stays known."""
from explaining.nothing import Looked
from explaining.past import home_of, station_in
from explaining.reason import Lack, Reason
from frames import (ASSOCIATION_REQUEST, AUTHENTICATION, DATA, DEAUTHENTICATION, DISASSOCIATION, PROBE_REQUEST,
                    REASSOCIATION_REQUEST, Frame, address_text)
from in_words import kind_text
from reading import is_poll

POWER_MANAGEMENT, LEAVING = 0x10, bytes([8, 0])  # the reason of a station that disassociates since it leaves (9.4.1.7)
REQUESTS = (PROBE_REQUEST, AUTHENTICATION, ASSOCIATION_REQUEST, REASSOCIATION_REQUEST)


def of_waking(looked: Looked, frame: Frame) -> Reason | None:
    """Data by which a station that dozed is awake, though it goes on polling, or is to get a unit from a beacon on."""
    station, past, number = looked.station(frame.transmitter), looked.past, looked.step.line.number
    if station is None or not station.doze or frame.power_management:
        return None
    following = past.next_frame(looked.bssid, frame.transmitter, number)
    sent = f", so that the units kept for it are sent at once: {station.kept}" if station.kept else ""
    dozing = bytes([frame.octets[0], frame.octets[1] | POWER_MANAGEMENT])
    if following and is_poll(following[1]):
        return Reason(f"the station dozed, and this frame says that it is awake{sent}; its poll in line {following[0]} "
                      "brings nothing then", (1, 2), f"where it goes on dozing write `{dozing.hex()}`")
    if station.kept:  # it wakes to get them, as stations do
        return None
    unit = past.next_unit(looked.bssid, frame.transmitter, number)
    if unit is None or past.dozes_behind(looked.bssid, frame.transmitter, number):
        return None
    return Reason(f"the station dozed, and this frame says that it is awake{sent}; the unit for it in line {unit} "
                  "isn't kept then", (1, 2), f"where it goes on dozing write `{dozing.hex()}`")


def of_mode(frame: Frame) -> Reason | None:
    """A request that says that its station dozes, which is read in data frames alone (11.2.3.2)."""
    if not frame.power_management or frame.subtype not in REQUESTS:
        return None
    plain = bytes([frame.octets[0], frame.octets[1] & ~POWER_MANAGEMENT])
    return Reason("Power Management is 1 in it, and is read in Data and Null frames alone: the station doesn't doze by "
                  "it", (1, 2), f"write `{plain.hex()}`; a Null that begins with `4811` says that an associated "
                  "station dozes")


def of_disassociation(looked: Looked, frame: Frame) -> Reason | None:
    """A station that disassociates and sends nothing more: it stays known. A trace with deauthentications too says that
    it is meant, and where another frame follows so does the reason of a disassociation."""
    before, after = looked.station(frame.transmitter), station_in(looked.step.after[looked.bssid], frame.transmitter)
    past, number = looked.past, looked.step.line.number
    if frame.subtype != DISASSOCIATION or before is None or before.aid is None or after is None or \
            past.has_deauthentications or past.next_frame(looked.bssid, frame.transmitter, number) or \
            frame.body[:2] == LEAVING and past.last_to[looked.bssid] > number:
        return None
    return Reason(f"by a disassociation {address_text(frame.transmitter)} stays known, as authenticated only", (0, 2),
                  f"where it is to be forgotten write `c0{frame.octets[1]:02x}`, a deauthentication")


def of_departure(looked: Looked, frame: Frame) -> Reason | None:
    """A station that leaves a network, and goes on to send to it as one that is associated; or that leaves the network
    to which it went over last, and is still in the one before."""
    station, past, number = looked.station(frame.transmitter), looked.past, looked.step.line.number
    if frame.subtype not in (DISASSOCIATION, DEAUTHENTICATION) or station is None or station.aid is None:
        return None
    following = past.next_frame(looked.bssid, station.address, number)
    talks = following is not None and (following[1].type == DATA or is_poll(following[1]))
    home = home_of(looked.step, looked.bssid, station.address)
    unit = past.next_unit(looked.bssid, station.address, number)
    since, earlier = (past.arrivals.get(Lack(bssid or b"", station.address, True), 0) for bssid in (looked.bssid, home))
    is_last = home is not None and since > earlier > 0 and past.next_frame(home, station.address, number) is None
    if not talks and not (is_last and unit):
        return None
    what = f"{kind_text(following[1].octets)} of it in line {following[0]} is" if following and talks else \
        f"a unit for it in line {unit} comes"
    said = f"by this line {address_text(station.address)} leaves {looked.section.name}, which it joined in line " \
        f"{since}, and {what} to {looked.section.name} still"
    if home is None or not is_last:
        return Reason(said, (0, 2), "leave the line out, or write it behind the last line of that station")
    other = looked.step.before[home]
    return Reason(f"{said}; it is a station of {other.name} too, since line {earlier}", (4, 10),
                  f"where it leaves {other.name} write `{home.hex()}` as Address 1 and as Address 3")
