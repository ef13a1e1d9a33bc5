"""A configuration that ends before its last lines do: the keys that its last network lacks are the last ones, in the
order in which the network before has them, or in the usual one."""
from explaining.configuration import Config, NetworkTable
from explaining.keys import NETWORK_KEYS, OPTIONS, SAMPLES
from explaining.source import Finding
from explaining.toml_scan import Entry

OWN_KEYS = ("bssid", "ssid")  # each network has its own
LEAST_MISSING = 2  # behind a text's last line end


def written(config: Config, entry: Entry) -> str:
    """A value as it is written."""
    return config.source.text[entry.value.begin:entry.value.end]


def usual_value(config: Config, entries: dict[str, Entry], key: str) -> str:
    """What the network before has for a key that this one lacks, where networks may have the same; else a sample."""
    place = next((place for place, network in enumerate(config.networks) if network.entries is entries), 0)
    before = config.networks[place - 1].entries.get(key) if place and key not in OWN_KEYS else None
    return written(config, before) if before else SAMPLES.get(key, "..")


def cut_short(config: Config, entries: dict[str, Entry]) -> Finding | None:
    """What is said where the last network lacks its last keys, and the text ends behind the others; None elsewhere."""
    if not entries or not config.networks or config.networks[-1].entries is not entries:
        return None
    before = config.networks[-2] if len(config.networks) > 1 else None
    order = list(before.entries) if before else [*NETWORK_KEYS, *(OPTIONS if config.version == 2 else ())]
    missing = [key for key in order if key not in entries]
    last = max(entries.values(), key=lambda entry: entry.begin)
    rest = config.source.text[last.value.end:]
    if not missing or order[-len(missing):] != missing or rest.strip() or \
            len(missing) < LEAST_MISSING and "\n" in rest:
        return None
    without_end = "," if "\n" in rest else ", without a line end,"
    are = "are" if len(missing) > 1 else "is"
    return Finding(f"the text ends here{without_end} and {listed(missing)} {are} missing: it may not have been written "
                   "or copied to its end" + of_value(config, last, before), config.place(last),
                   f"write {listed([f'{key} = {usual_value(config, entries, key)}' for key in missing])} below it")


def of_value(config: Config, last: Entry, before: NetworkTable | None) -> str:
    """That the last value may be cut too: the network before has a longer one that begins so."""
    key, value = last.key[0], written(config, last)
    other = before.entries.get(key) if before else None
    is_cut = other is not None and written(config, other).startswith(value) and written(config, other) != value
    return f"; look at `{key} = {value}` too: the network {len(config.networks) - 2} has " \
        f"{written(config, other)}" if other and is_cut else ""


def listed(words: list[str]) -> str:
    """Words one after the other."""
    quoted = [f"`{word}`" for word in words]
    return " and ".join(filter(None, (", ".join(quoted[:-1]), quoted[-1])))
