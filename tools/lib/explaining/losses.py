"""Which of three causes a loss has: the quota, age, or that a unit has no wired form."""
from explaining.configuration import Keys
from explaining.nothing import Looked
from explaining.reason import Reason
from frames import HEADER_LEN, address_text
from in_words import address_word, octets_text
from reading import LEAST_LENGTH, MOST_LENGTH, SNAP, Unit, request_of, unit_from_wire, wired_form


def losses(looked: Looked, relays: bool, keys: Keys) -> list[Reason]:
    """The reasons of the units that a line lost; `keys` are those of the network."""
    line, quota = looked.step.line, keys.number("quota")
    lost = looked.step.after[looked.bssid].lost - looked.section.lost
    if line.kind == "T":
        return [of_age(looked, keys)] if lost > 0 else []
    unit = unit_of(looked)
    if lost <= 0 or unit is None:
        return []
    station = looked.station(unit.destination)
    is_here = station is not None and station.aid is not None
    is_for_wire = line.kind == "A" and (not relays or not is_here)
    found = [of_form(unit, line.octets)] if is_for_wire and wired_form(unit) is None else []
    if lost > len(found):
        whom = address_text(unit.destination) if is_here else "the group"
        found.append(Reason(f"with `quota = 0` no unit is kept, and this one for {whom} would have to wait: 0 says "
                            "that none may wait, and not that any number may", None,
                            f"write how many units may wait, as `quota = 64`{keys.where('quota')}") if quota == 0 else
                     Reason(f"the unit for {whom} is above the quota: `quota = {quota}` units are kept already, of all "
                            "stations and the group", None, f"a larger `quota`{keys.where('quota', ',')} keeps more"))
    return found


def unit_of(looked: Looked) -> Unit | None:
    """The unit of a line."""
    line = looked.step.line
    if line.kind == "W":
        return unit_from_wire(line.octets)
    request = request_of(looked.bssid, line.octets)
    return request.unit if request else None


def of_age(looked: Looked, keys: Keys) -> Reason:
    """Units that were kept for too long."""
    after = {row.address: row.kept for row in looked.step.after[looked.bssid].stations}
    old = [f"{address_text(row.address)} ({row.kept - after[row.address]}, listen interval {row.listen})"
           f"{since(looked, row.address)}"
           for row in looked.section.stations if row.kept > after.get(row.address, 0)]
    return Reason("units that waited longer than their station sleeps are too old (`aging = true`): of "
                  f"{', '.join(old)}",
                  None, "the listen interval stands in the association request" +
                  (f", `aging`{where}" if (where := keys.where("aging")) else ""))


def since(looked: Looked, station: bytes) -> str:
    """The line by which a station associated, which says how long it sleeps."""
    line = looked.past.listening.get((looked.bssid, station))
    return f", which line {line} says" if line else ""


def of_form(unit: Unit, octets: bytes) -> Reason:
    """A unit that no frame on the wire has."""
    length, span = len(unit.body), (HEADER_LEN, max(HEADER_LEN + 1, len(octets)))
    verb = "doesn't" if length == 1 else "don't"
    what = f"{octets_text(length)} that {verb} begin with LLC and SNAP, `{SNAP.hex()}`, and a type"
    if unit.body.startswith(SNAP):
        what = f"{octets_text(length)} with LLC and SNAP, and no type of at least 0600 behind them"
    return Reason(f"the unit to {address_word(unit.destination)} has no wired form: {what}", span,
                  f"without a type {LEAST_LENGTH} to {MOST_LENGTH:,} octets go on a wire")

