"""A configuration's TOML as values. The program reads version 1.1, and Python's library 1.0: where a text is 1.1 alone,
the scanner of tools/explain reads it."""
import tomllib
from typing import Any

from explaining.toml_scan import NoToml, Value, scan


def loads(text: str) -> dict[str, Any]:
    """The tables of a text, whatever byte order mark stands before it; tomllib.TOMLDecodeError, with the place in this
    text, where it is no TOML. Of version 1.1 alone, a time is its text."""
    text = text.removeprefix("\ufeff")
    try:
        return tomllib.loads(text)
    except tomllib.TOMLDecodeError as fault:
        try:
            return scanned(text)
        except NoToml:
            raise fault from None


def scanned(text: str) -> dict[str, Any]:
    """The same by the scanner; NoToml where it is none."""
    top: dict[str, Any] = {}
    for table in scan(text):
        held = top
        if table.name:
            holder, last = holder_of(top, table.name)
            if table.is_of_array:
                holder[last] = [*holder.get(last, []), {}]
            held = inner(holder, last)
        for entry in table.entries:
            put(held, entry.key, worth_of(entry.value))
    return top


def worth_of(value: Value) -> Any:
    """What a value is worth; a table's keys are in one another."""
    if value.kind == "array":
        return [worth_of(item) for item in value.items]
    if value.kind != "table":
        return value.worth
    table: dict[str, Any] = {}
    for entry in value.entries:
        put(table, entry.key, worth_of(entry.value))
    return table


def put(table: dict[str, Any], key: tuple[str, ...], worth: Any) -> None:
    """Puts a value under a key, perhaps of several parts."""
    holder, last = holder_of(table, key)
    holder[last] = worth


def holder_of(table: dict[str, Any], key: tuple[str, ...]) -> tuple[dict[str, Any], str]:
    """The table that has the last part of a key, which may be new, and this part."""
    for part in key[:-1]:
        table = inner(table, part)
    return table, key[-1]


def inner(table: dict[str, Any], part: str) -> dict[str, Any]:
    """The table under a part of a key, of several the last one; NoToml where something else is there."""
    found = table.setdefault(part, {})
    found = found[-1] if isinstance(found, list) and found else found
    if not isinstance(found, dict):
        raise NoToml("a table", 0, 1, part)
    return found
