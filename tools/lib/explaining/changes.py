"""What a line changed in a network, in words: the table before it beside the one after it."""
from frames import address_text
from texts import Section, Station


def changes(before: Section, after: Section) -> list[str]:
    """What is different, but for the counts of events and beacon intervals."""
    if before is after:
        return []
    old = {station.address: station for station in before.stations}
    new = {station.address: station for station in after.stations}
    found = [word for address, station in new.items() for word in of_station(old.get(address), station)]
    found += [f"{address_text(address)} is unknown" for address in old if address not in new]
    found += of_kept("the group", group_kept(before), group_kept(after))
    return found + [f"units lost: {after.lost - before.lost}"] * (after.lost > before.lost)


def of_station(before: Station | None, after: Station) -> list[str]:
    """What is different of one station."""
    name, found = address_text(after.address), []
    if after.aid is None and (before is None or before.aid is not None):
        found.append(f"{name} is authenticated" + (" only" if before else ""))
    if after.aid is not None and (before is None or before.aid != after.aid):
        found.append(f"{name} is associated, identifier {after.aid}")
    if after.aid is not None and before is not None and before.doze != after.doze:
        found.append(f"{name} dozes" if after.doze else f"{name} is awake")
    return found + of_kept(name, before.kept if before else 0, after.kept)


def of_kept(whom: str, before: int, after: int) -> list[str]:
    """How many units are kept for somebody, where that is different."""
    return [f"units kept for {whom}: {after}"] if before != after else []


def group_kept(section: Section) -> int:
    """How many units are kept for the group."""
    return section.kept - sum(station.kept for station in section.stations)


def has_effect(before: Section, after: Section) -> bool:
    """Whether anything is different but how many events the network took and couldn't read."""
    return before is not after and before._replace(events=0, unread=0) != after._replace(events=0, unread=0)
