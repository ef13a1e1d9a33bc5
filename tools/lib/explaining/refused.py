"""Why a network refuses a request, or answers it by a notice: by what the frame says, and what the table said
before."""
from collections.abc import Callable, Collection, Mapping
from dataclasses import dataclass
from types import MappingProxyType

from explaining.configuration import Keys
from explaining.names import name_reason
from explaining.rates_lacking import of_rates
from explaining.reason import Reason
from frames import (ASSOCIATION_RESPONSE, AUTHENTICATION, DEAUTHENTICATION, DISASSOCIATION, MANAGEMENT,
                    REASSOCIATION_RESPONSE, Frame, number)
from in_words import ALGORITHMS

# Where the status or the reason stands in the body of an answer.
PLACES = {AUTHENTICATION: 4, ASSOCIATION_RESPONSE: 2, REASSOCIATION_RESPONSE: 2, DEAUTHENTICATION: 0, DISASSOCIATION: 0}
MOST_NAMED = 3
# The fields of an authentication, where they begin, and the number 1 as one, however its octets stand.
AUTHENTICATION_FIELDS = {"algorithm": 24, "sequence number": 26, "status": 28}
AUTHENTICATION_LEN, ONES = 30, (bytes.fromhex("0100"), bytes.fromhex("0001"))
EMPTY: Mapping[bytes, int] = MappingProxyType({})
SENDER = (10, 16)
NOTICES = {DEAUTHENTICATION: "deauthentication", DISASSOCIATION: "disassociation"}


@dataclass(frozen=True)
class Refusal:
    """An answer that refuses: the kind of the answer, both kinds of association response as one, and its status or,
    of a notice, its reason."""

    kind: int
    code: int

    @property
    def is_status(self) -> bool:
        """Whether it is an answer with a status, and no notice."""
        return self.kind not in NOTICES

    def what(self) -> str:
        """What it is, in words."""
        if self.is_status:
            asked = "an authentication" if self.kind == AUTHENTICATION else "an association"
            return f"{asked} is refused with status {self.code}"
        return f"a frame is answered by a {NOTICES[self.kind]}, reason {self.code}"


def refusal_of(octets: bytes) -> Refusal | None:
    """What an answer refuses; None where it doesn't."""
    frame = Frame(octets)
    if frame.type != MANAGEMENT or frame.subtype not in PLACES:
        return None
    place = PLACES[frame.subtype]
    code = number(frame.body[place:place + 2])
    kind = ASSOCIATION_RESPONSE if frame.subtype == REASSOCIATION_RESPONSE else frame.subtype
    return Refusal(kind, code) if code else None


def refused(refusal: Refusal, octets: bytes, keys: Keys, names: dict[bytes, bytes],
            bssid: bytes, homes: Collection[bytes] = (), left: Mapping[bytes, int] = EMPTY) -> Reason | None:
    """Why a request is refused with a status; `names` are the networks' SSIDs, `homes` those that know its sender,
    `left` the stations that disassociated, and are known, each with the number of the line by which it did."""
    parts: dict[tuple[int, int], Callable[[], Reason]] = {
        (AUTHENTICATION, 1): lambda: of_full_table(keys, left),
        (AUTHENTICATION, 13): lambda: of_algorithm(octets), (AUTHENTICATION, 14): lambda: of_number(octets),
        (ASSOCIATION_RESPONSE, 1): lambda: name_reason(octets, names, bssid, homes),
        (ASSOCIATION_RESPONSE, 17): lambda: Reason(
            f"`max_stations = {keys.number('max_stations')}` is reached", SENDER, "`max_stations` in the configuration "
            "says how many are associated at once; one that leaves makes room" +
            (f"; it stands{where}" if (where := keys.where("max_stations")) else "")),
        (ASSOCIATION_RESPONSE, 18): lambda: of_rates(octets, keys)}
    part = parts.get((refusal.kind, refusal.code))
    return part() if part else None


def of_full_table(keys: Keys, left: Mapping[bytes, int]) -> Reason:
    """A network that knows as many stations as it may, among them perhaps some that disassociated."""
    named = ", ".join(f"{address.hex(':')} (line {number})" for address, number in list(left.items())[:MOST_NAMED])
    known, where = keys.number("max_known"), keys.where("max_known")
    stands = f"`max_known` stands{where}" if where else None
    return Reason(f"`max_known = {known}` is reached, and a station stays known until it deauthenticates" +
                  (f"; {named} left by a disassociation, and {'are' if len(left) > 1 else 'is'} known" if left else ""),
                  SENDER, "; ".join(filter(None, ("a deauthentication begins with `c000`, a disassociation with "
                                                  "`a000`" if left else None, stands))) or None)


def of_exchanged(octets: bytes) -> Reason | None:
    """The number 1 of an authentication in another field's place, with all other fields 0."""
    fields = {name: octets[begin:begin + 2] for name, begin in AUTHENTICATION_FIELDS.items()}
    others = [name for name, field in fields.items() if any(field)]
    name = others[0] if len(others) == 1 and fields[others[0]] in ONES else "sequence number"
    if name == "sequence number" or name == "status" and len(octets) > AUTHENTICATION_LEN:
        return None
    order = sorted((name, "sequence number"), key=lambda name: AUTHENTICATION_FIELDS[name])
    begin = AUTHENTICATION_FIELDS[order[0]]
    return Reason(f"its {order[0]} and its {order[1]} stand in each other's place: the algorithm comes first, 0 for "
                  "Open System, then the number 1, then the status, 0", (begin, begin + 4),
                  "write `0000 0100`" if name == "algorithm" else "write `0100 0000`")


def of_algorithm(octets: bytes) -> Reason:
    """An authentication that isn't Open System."""
    algorithm = number(octets[24:26])
    exchanged = of_exchanged(octets)
    if exchanged:
        return exchanged
    named = f" ({ALGORITHMS[algorithm]})" if algorithm in ALGORITHMS else ""
    return Reason(f"its algorithm is {algorithm}{named}, and there is Open System alone, 0", (24, 26), "write `0000`")


def of_number(octets: bytes) -> Reason:
    """An authentication with another sequence number."""
    value, exchanged = number(octets[26:28]), of_exchanged(octets)
    if exchanged:
        return exchanged
    if not any(octets[24:28]) and octets[28:30] == ONES[0]:
        return Reason("its sequence number is read as 0, and the 1 stands behind it: two octets too many stand before "
                      "it", (24, 26), "leave `0000` out")
    turned = int.from_bytes(octets[26:28], "big") == 1
    why = "the low octet comes first" if turned else "an answer has that" if value == 2 else "a request has 1"
    return Reason(f"its sequence number, `{octets[26:28].hex()}`, is {value}, and has to be 1: {why}", (26, 28),
                  "write `0100`")
