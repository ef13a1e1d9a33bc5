"""What a frame that a network read may not be meant to say: fields with their octets the wrong way round, and a
destination that isn't reached. Such a frame does something, often not what was meant."""
from typing import NamedTuple

from explaining.configuration import Keys
from explaining.nothing import Looked, slip_of_group, with_data
from explaining.past import home_of, station_in
from explaining.reason import Lack, Reason
from explaining.odd_config import STATIONS_HAVE
from explaining.rates_lacking import DECIMAL_ID, OF_RATES
from explaining.stations_meant import of_departure, of_disassociation, of_mode, of_waking
from explaining.unheard import nearest
from explaining.units_meant import is_packet, is_test, of_unit
from explaining.values import BASIC, UNITS
from explaining.wired_meant import doubtful_on_wire
from fields import FIXED
from frames import (ASSOCIATION_REQUEST, AUTHENTICATION, DATA, DEAUTHENTICATION, DISASSOCIATION,
                    EXTENDED_SUPPORTED_RATES, HEADER_LEN, MANAGEMENT, PLAIN_DATA, PROBE_REQUEST, REASSOCIATION_REQUEST,
                    SSID, Frame, address_text, elements, is_group, number)
from in_words import ssid_text
from reading import FIXED_LEN, is_poll

WITH_FIELDS = (ASSOCIATION_REQUEST, REASSOCIATION_REQUEST, DISASSOCIATION, DEAUTHENTICATION)
WITH_NAMES = (ASSOCIATION_REQUEST, REASSOCIATION_REQUEST, PROBE_REQUEST)
TURNED = {"capability": "says no ESS", "beacon intervals": "is {value:,} beacon intervals",
          "reason": "is the reason {value}"}
ESS, PRIVACY, HIGH_BITS = 0x01, 0x10, 0xC000
RSN, VENDOR, WPA = 48, 221, bytes.fromhex("0050f201")
THIRD, STATUS, MOST_RATES = (16, 22), (4, 6), 4
LEAST_ZEROS = 2
LEAST_SELECTOR = 122  # from here on stand among rates what a station has to be able to do, as HT (9.4.2.3)


class Relay(NamedTuple):
    """Whether a network relays between its stations, and where its configuration says that it doesn't."""

    is_on: bool
    place: str = ""

    def advice(self) -> str:
        """What lets stations reach each other."""
        return f"with `relay = true`{self.place} stations reach each other"


def doubts(looked: Looked, relay: Relay, keys: Keys) -> list[Reason]:
    """What is doubtful in a frame that a network took and read: of a unit its destination and its beginning."""
    frame = Frame(looked.step.line.octets)
    first = doubtful(looked, relay) or (no_sleep(frame, keys) if looked.step.line.kind == "A" else None)
    is_unit = looked.step.line.kind == "A" and frame.type == DATA and frame.subtype == PLAIN_DATA
    unit = of_unit(frame.body) if is_unit and first else None
    return list(dict.fromkeys(filter(None, (first, unit))))


def doubtful(looked: Looked, relay: Relay) -> Reason | None:
    """What is doubtful first; None where nothing is."""
    if looked.step.line.kind == "W":
        return doubtful_on_wire(looked)
    frame = Frame(looked.step.line.octets)
    owner = looked.step.before.get(frame.transmitter)
    if owner and owner.bssid != looked.bssid:
        return Reason(f"its sender, Address 2, is {address_text(frame.transmitter)}, the address of the network "
                      f"{owner.name}",
                      (10, 16), "a station has an address of its own")
    if not any(frame.transmitter):
        return Reason("its sender, Address 2, is all zeros, which no station has", (10, 16),
                      "write the station's address, as `02aa00000001`")
    dropped = of_dropped(looked, frame)
    if frame.type == MANAGEMENT and frame.subtype in WITH_FIELDS:
        return exchanged_fields(frame) or turned_field(frame) or decimal_element(frame) or second_name(frame) or \
            of_encryption(frame) or strange_rates(frame) or of_departure(looked, frame) or dropped or \
            of_association(looked, frame) or of_mode(frame) or of_disassociation(looked, frame)
    if frame.type == MANAGEMENT:
        return of_status(frame) or early_fields(frame) or of_authentication(looked, frame) or second_name(frame) or \
            dropped or strange_rates(frame) or of_mode(frame)
    if is_poll(frame):
        return of_identifier(frame)
    if frame.type != DATA or frame.subtype != PLAIN_DATA:
        return with_data(frame)
    return of_destination(looked, frame, relay) or of_unit(frame.body) or of_waking(looked, frame) or \
        of_copy(looked, frame)


def of_identifier(frame: Frame) -> Reason | None:
    """A poll whose identifier lacks the two high bits that a station sets (9.2.4.2), and that nothing looks at here."""
    written = number(frame.octets[2:4])
    meant = (written | HIGH_BITS).to_bytes(2, "little").hex()
    return None if written & HIGH_BITS == HIGH_BITS else Reason(
        f"the identifier of the poll, `{frame.octets[2:4].hex()}`, lacks its two high bits, which a station sets; a "
        "network here reads the low 14 bits alone", (2, 4), f"write `{meant}`")


def no_sleep(frame: Frame, keys: Keys) -> Reason | None:
    """A station that says that it doesn't sleep, where units that wait for longer than it sleeps are lost."""
    entry = keys.table.entries.get("aging") if keys.table else None
    if frame.type != MANAGEMENT or frame.subtype not in (ASSOCIATION_REQUEST, REASSOCIATION_REQUEST) or \
            frame.body[2:4] != bytes(2) or entry is None or entry.value.worth is not True:
        return None
    return Reason("Listen Interval `0000` is 0 beacon intervals, and units age here (`aging = true`): a unit that "
                  "waits for this station is lost at the second `T` behind it", (HEADER_LEN + 2, HEADER_LEN + 4),
                  f"write how many it sleeps, as `0a00` for 10; `aging` stands{keys.where('aging')}")


def of_copy(looked: Looked, frame: Frame) -> Reason | None:
    """Data that came before, octet for octet, of a station that counts its frames: duplicates aren't looked for."""
    same = looked.past.before.get(frame.octets)
    return None if same is None or not frame.sequence_control or frame.retry else Reason(
        f"this line is a copy of line {same}, octet for octet, Sequence Control `{frame.octets[22:24].hex()}` too: "
        "the unit is passed on a second time", (22, 24), "leave the line out, or give a new frame a number of its own")


def strange_rates(frame: Frame) -> Reason | None:
    """Rates in a request that no station of 802.11b or g has (17.3.4, 18.4)."""
    begin = HEADER_LEN + FIXED_LEN[frame.subtype]
    for identifier, octets in elements(frame.octets[begin:]) or [] if frame.subtype in WITH_NAMES else ():
        strange = [rate for rate in dict.fromkeys(octets) if rate & ~BASIC not in STATIONS_HAVE
                   and rate & ~BASIC < LEAST_SELECTOR]
        if identifier in OF_RATES and strange:
            named = ", ".join(f"`{rate:02x}`, {(rate & ~BASIC) / 2:g} Mb/s" for rate in strange[:MOST_RATES])
            return Reason(f"its rates have what no station of 802.11b or g has: {named}",
                          (begin, begin + 2 + len(octets)), "a rate is twice its Mb/s: 11 Mb/s is `16`, 54 `6c`")
        begin += 2 + len(octets)
    return None


def of_status(frame: Frame) -> Reason | None:
    """A status in a request to authenticate, which has 0 there (9.3.3.12)."""
    status = frame.body[STATUS[0]:STATUS[1]]
    if frame.subtype != AUTHENTICATION or not any(status):
        return None
    begin, end = (HEADER_LEN + place for place in STATUS)
    return Reason(f"its status is {number(status)}, and a request has 0: an answer says how it ended",
                  (begin, end), "write `0000`")


def of_authentication(looked: Looked, frame: Frame) -> Reason | None:
    """An authentication that takes back an association, where no association follows, or that was copied for another
    station (docs/PROTOCOL.md, "Stations that come and go")."""
    station, past = looked.station(frame.transmitter), looked.past
    if frame.subtype != AUTHENTICATION or station is None or station.aid is None:
        return None
    same = past.before.get(frame.octets)
    others = past.never_authenticate(looked.bssid) if same else []
    if others:
        return Reason(f"this line is a copy of line {same}, octet for octet, by which "
                      f"{address_text(frame.transmitter)} "
                      f"authenticates a second time; {address_text(others[0])} sends to this network, and never "
                      "authenticates", (10, 16),
                      f"where this is its authentication write `{others[0].hex()}` as Address 2")
    if past.joins_next(looked.bssid, frame.transmitter, looked.step.line.number):
        return None
    first = past.first_sent(looked.bssid, frame, looked.step.line.number)
    again = f"; this line repeats line {first}: Retry is 1, and the sequence number the same" if first else \
        f"; this line is a copy of line {same}, octet for octet" if same else ""
    return Reason(f"{address_text(frame.transmitter)} is associated, and authenticates a second time, by which it is "
                  f"authenticated only: its identifier is free, and no unit is kept for it{again}", (0, 2),
                  "leave the line out" if again else "leave the line out, or have it associate again behind it")


def of_association(looked: Looked, frame: Frame) -> Reason | None:
    """An association of a station that is associated, and perhaps was meant for another one that only authenticated."""
    station = looked.station(frame.transmitter) if frame.subtype == ASSOCIATION_REQUEST else None
    if station is None or station.aid is None:
        return None
    past, same = looked.past, looked.past.before.get(frame.octets)
    since = past.arrivals.get(Lack(looked.bssid, frame.transmitter, True))
    others = [other.address for other in looked.section.stations
              if other.aid is None and past.never_joins(looked.bssid, other.address)]
    said = f"{address_text(frame.transmitter)} is associated already" + (f", since line {since}" if since else "") + \
        (", of which this line is a copy, octet for octet" if same and same == since else "")
    if others:
        return Reason(f"{said}; {address_text(others[0])} has authenticated, and never asks to associate", (10, 16),
                      f"where this is its request write `{others[0].hex()}` as Address 2")
    return Reason(f"{said}: it keeps its "
                  f"identifier", (10, 16), "leave the line out") if same and same == since else None


def of_dropped(looked: Looked, frame: Frame) -> Reason | None:
    """Units that a network drops without counting them as lost, since their station leaves or joins anew."""
    before, after = looked.station(frame.transmitter), station_in(looked.step.after[looked.bssid], frame.transmitter)
    if frame.type != MANAGEMENT or before is None or not before.kept or after is not None and after.kept:
        return None
    return Reason(f"units that were kept for {address_text(frame.transmitter)} are dropped: {before.kept}, which "
                  "`lost` doesn't count", (0, 2), "a PS-Poll or a frame that says that it is awake fetches them before")


def second_name(frame: Frame) -> Reason | None:
    """A name in a second SSID element, of which the first counts."""
    if frame.subtype not in WITH_NAMES:
        return None
    begin = HEADER_LEN + sum(size for _, size, _ in FIXED[frame.subtype])
    places, at_place = [], begin
    for identifier, octets in elements(frame.octets[begin:]) or []:
        places += [(at_place, octets)] * (identifier == SSID)
        at_place += 2 + len(octets)
    first, name = places[0] if places else (0, b"")
    second = next((other for _, other in places[1:] if other and other != name), None)
    zeros = len(frame.octets) - len(frame.octets.rstrip(b"\0"))
    if second is None and name and zeros >= LEAST_ZEROS and any(not other for _, other in places[1:]):
        return Reason(f"{zeros} zeros stand at its end, and are read as empty elements of the ID 0 (SSID), which say "
                      "nothing", (len(frame.octets) - zeros, len(frame.octets)),
                      "leave them out: a frame ends with its last element, without a frame check sequence and without "
                      "padding")
    if second is None:
        return None
    which = ssid_text(name) if name else "an empty one, which names any network"
    more = "; a probe request has no fields before its elements" if frame.subtype == PROBE_REQUEST else ""
    return Reason(f"two SSID elements stand in it, and the first one counts, {which}; the second one has "
                  f"{ssid_text(second)}", (first, first + 2 + len(name)), f"leave one of them out{more}")


def early_fields(frame: Frame) -> Reason | None:
    """The fields of an association request before the elements of a probe request, which has none: they are read as
    elements without octets."""
    body = frame.body
    if not frame.is_management(PROBE_REQUEST) or body[:2] != bytes([ESS, 0]) or body[3:5] != bytes(2):
        return None
    return Reason(f"`{body[:4].hex()}`, Capability Information and Listen Interval as in an association request, stand "
                  "before the elements, and a probe request begins with its elements", (HEADER_LEN, HEADER_LEN + 4),
                  f"leave `{body[:4].hex()}` out")


def of_destination(looked: Looked, frame: Frame, relay: Relay) -> Reason | None:
    """The destination of data that isn't reached, or is no one's."""
    to, station = frame.third, looked.station(frame.third)
    there, what = f"its destination, Address 3, is {address_text(to)}", \
        "Address 3 of data is the destination: a station, a host on the wire, or all (`ffffffffffff`)"
    if to == looked.bssid and is_test(frame.body):
        return None
    if to == looked.bssid:
        return Reason(f"{there}, the network itself, which has no use for it: the unit goes over the wire to that "
                      "address", THIRD, what)
    other = looked.step.before.get(to)
    if other:
        return Reason(f"{there}, the network {other.name} itself, which has no use for it: the unit goes over the wire "
                      f"of {looked.section.name}", THIRD, what)
    group = slip_of_group(looked, to, THIRD[0])
    if group:
        return group
    if not any(to):
        return Reason(f"{there}, which nobody has: the unit goes over the wire", THIRD, what)
    if to == frame.transmitter:
        return Reason(f"{there}, the sender itself", THIRD, what)
    others = [address for address in looked.associated() if address != frame.transmitter]
    is_for_wire = looked.bssid in looked.past.wired or is_packet(frame.body)
    if is_group(to) and not relay.is_on and others and not is_for_wire:
        return Reason(f"{there}, a group, and {looked.section.name} doesn't relay (`relay = false`): the unit goes "
                      f"over the wire alone, and {address_text(others[0])} doesn't get it", THIRD,
                      relay.advice())
    if station is not None and station.aid is not None:
        return None if relay.is_on or is_reflected(looked) else Reason(
            f"{there}, a station of {looked.section.name}, which doesn't relay (`relay = false`): the unit goes over "
            "the wire alone", THIRD, relay.advice())
    home = home_of(looked.step, looked.bssid, to)
    row = station_in(looked.step.before[home], to) if home else None
    if home is None or row is None or row.aid is None:
        return near_station(looked, frame)
    return Reason(f"{there}, a station of {looked.step.before[home].name}, and networks are kept apart: the unit goes "
                  f"over the wire of {looked.section.name}", THIRD, "what joins the two wires would bring it there")


def is_reflected(looked: Looked) -> bool:
    """Whether what the network puts on its wire for a line comes back over that wire."""
    return any(sent.is_wired and looked.past.reflected.comes_back(looked.bssid, sent.octets)
               for sent in looked.step.sent)


def near_station(looked: Looked, frame: Frame) -> Reason | None:
    """A destination that is nearly that of a station or of a host on the wire, and is nobody's that the trace names."""
    past, stations = looked.past, [address for address in looked.associated() if address != frame.transmitter]
    like = None if past.is_named(looked.bssid, frame.third) else nearest(frame.third, [*stations, *past.hosts])
    what = "a station" if like in stations else "one that sends over the wire"
    return Reason(f"its destination, Address 3, is {address_text(frame.third)}, which nobody in this trace has, so "
                  f"that the unit goes over the wire; {address_text(like)} is {what}, and nearly the same", THIRD,
                  f"where that one is meant write `{like.hex()}`") if like else None


def exchanged_fields(frame: Frame) -> Reason | None:
    """Capability Information without ESS, which a station that joins has (9.4.1.4), before a Listen Interval that is
    ESS alone."""
    if frame.subtype not in (ASSOCIATION_REQUEST, REASSOCIATION_REQUEST) or frame.body[0] & ESS or \
            frame.body[2:4] != bytes([ESS, 0]):
        return None
    listen, capability = frame.body[:2].hex(), frame.body[2:4].hex()
    return Reason(f"Capability Information `{listen}` says no ESS, and Listen Interval is `{capability}`: they may "
                  "stand in each other's place", (24, 28),
                  f"Capability Information comes first: write `{capability} {listen}`")


def of_encryption(frame: Frame) -> Reason | None:
    """A request to associate that asks for what isn't here: encryption, or a network without an access point."""
    if frame.subtype not in (ASSOCIATION_REQUEST, REASSOCIATION_REQUEST):
        return None
    begin, written = HEADER_LEN + FIXED_LEN[frame.subtype], frame.body[:2].hex()
    for identifier, octets in elements(frame.octets[begin:]) or []:
        if identifier == RSN or identifier == VENDOR and octets.startswith(WPA):
            return Reason(f"it has an element of encryption ({'RSN' if identifier == RSN else 'WPA'}), which is "
                          "ignored: these networks don't encrypt",
                          (begin, begin + 2 + len(octets)), "leave the element out")
        begin += 2 + len(octets)
    if not frame.body[0] & ESS:
        return Reason(f"Capability Information `{written}` says no ESS, which a station that joins an access point has",
                      (HEADER_LEN, HEADER_LEN + 2), "write `0100`")
    if frame.body[0] & PRIVACY:
        return Reason(f"Capability Information `{written}` says Privacy, and these networks don't encrypt",
                      (HEADER_LEN, HEADER_LEN + 2), f"write `{frame.body[0] & ~PRIVACY:02x}{frame.body[1]:02x}`")
    return None


def turned_field(frame: Frame) -> Reason | None:
    """The first fixed field whose octets may stand the wrong way round: its low octet is 0, and the high one isn't."""
    begin = HEADER_LEN
    for name, size, kind in FIXED[frame.subtype]:
        octets = frame.octets[begin:begin + size]
        if kind in TURNED and size == 2 and octets[0] == 0 and octets[1]:
            said = TURNED[kind].format(value=int.from_bytes(octets, "little"))
            turned = octets[::-1].hex()
            return Reason(f"{name} `{octets.hex()}` {said}: its octets may stand the wrong way round, the low one "
                          "comes first", (begin, begin + size), f"write `{turned}` for {octets[1]}")
        begin += size
    return None


def decimal_element(frame: Frame) -> Reason | None:
    """Rates in an element whose ID is the decimal digits of Extended Supported Rates (9.4.2.13)."""
    begin = HEADER_LEN + sum(size for _, size, _ in FIXED[frame.subtype])
    for identifier, octets in elements(frame.octets[begin:]) or []:
        if identifier == DECIMAL_ID and octets and {rate & ~BASIC for rate in octets} <= UNITS:
            return Reason(f"the element `{DECIMAL_ID:02x}` has rates, and nobody reads it: the ID of Extended "
                          f"Supported Rates, {EXTENDED_SUPPORTED_RATES}, is `{EXTENDED_SUPPORTED_RATES:02x}` in "
                          "hexadecimal digits",
                          (begin, begin + 1), f"write `{EXTENDED_SUPPORTED_RATES:02x}` for `{DECIMAL_ID:02x}`")
        begin += 2 + len(octets)
    return None
