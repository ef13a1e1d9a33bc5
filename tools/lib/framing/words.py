"""The words by which a frame is written, and the words that write a frame again."""
import argparse
import shlex

from framing.networks import ALL, Network, Networks, NoNetwork
from frames import BROADCAST, address_of, address_text
from writing import (KINDS, NOBODY, TWO_HIGH_BITS, USUAL_HOST, USUAL_LISTEN, USUAL_PAYLOAD, WIRED, Wanted, WiredFrame,
                     rest_of, two)

MOST = {"sequence": 4095, "aid": 0x3FFF}
HELP = {"probe": "asks which networks are there", "auth": "authenticates", "join": "asks to associate",
        "rejoin": "asks to reassociate", "disassoc": "disassociates", "deauth": "deauthenticates",
        "data": "sends a unit",
        "null": "says whether the station dozes", "poll": "asks for a unit that is kept (PS-Poll)"}
OF_KIND = {"probe": ("ssid", "rates"), "auth": ("algorithm", "number"), "join": ("ssid", "rates", "listen"),
           "rejoin": ("ssid", "rates", "listen", "current"), "disassoc": ("reason",), "deauth": ("reason",),
           "data": ("payload",), "null": (), "poll": ("aid", "aid-octets")}


def number(text: str) -> int:
    """A number of two octets."""
    if not text.isascii() or not text.isdigit() or int(text) > 0xFFFF:
        raise argparse.ArgumentTypeError(f"{text} is no number of 0 to 65535")
    return int(text)


def digits(text: str) -> bytes:
    """Octets as hexadecimal digits."""
    try:
        return bytes.fromhex(text)
    except ValueError:
        raise argparse.ArgumentTypeError(f"{text} isn't pairs of hexadecimal digits") from None


def address(text: str) -> bytes:
    """An address, or `all`."""
    try:
        return BROADCAST if text == ALL else address_of(text)
    except ValueError as fault:
        raise argparse.ArgumentTypeError(str(fault)) from None


OPTIONS = {
    "ssid": (str, "NAME", "the name that is asked for (that of NETWORK, or of a probe to all none)"),
    "rates": (digits, "HEX", "the station's rates, as in a configuration (those of NETWORK, or 1, 2, 5.5, 11)"),
    "listen": (number, "N", f"the listen interval, in beacon intervals ({USUAL_LISTEN})"),
    "current": (address, "BSSID", "the access point that it comes from (NETWORK)"),
    "algorithm": (number, "N", "the algorithm (0, Open System)"), "number": (number, "N", "the sequence number (1)"),
    "reason": (number, "N", "the reason (3, the station leaves)"), "aid": (number, "N", "the station's identifier (1)"),
    "aid-octets": (digits, "HEX", "the field AID as two octets, in place of --aid"),
    "payload": (digits, "HEX", "the type and what follows it, behind LLC and SNAP, or on a wire behind the addresses "
                f"({USUAL_PAYLOAD.hex()}, a stub of IPv4)"),
    "from": (address, "ADDRESS", f"the host that sends it ({address_text(USUAL_HOST)})"),
    "to": (address, "ADDRESS", "Address 3: of data the destination (all), else the BSSID"),
    "body": (digits, "HEX", "what follows the header, in place of all that"),
    "duration": (number, "N", "Duration (0)"), "sequence": (number, "N", "the sequence number of the frame (0)")}
FLAGS = {"doze": "Power Management is 1: the station dozes", "retry": "Retry is 1", "more": "More Data is 1"}


def add_kinds(parsers) -> None:
    """A parser for each kind."""
    for kind in KINDS:
        parser = parsers.add_parser(kind, help=HELP[kind], description=f"The station {HELP[kind]}.")
        parser.add_argument("station", metavar="STATION", type=address, help="the station's address")
        if kind == "probe":
            parser.add_argument("--direct", action="store_true", help="Address 1 and 3 are the BSSID, and not all")
        needs = {"nargs": "?", "default": ALL} if kind == "probe" else {}
        parser.add_argument("network", metavar="NETWORK", help="a BSSID, or with --config an SSID", **needs)
        parser.add_argument("--config", metavar="CONFIG", help="the configuration that has the network")
        common = ("body",) if kind == "poll" else ("to", "body", "duration", "sequence")
        for name in OF_KIND[kind] + common:
            type_of, shown, said = OPTIONS[name]
            parser.add_argument(f"--{name}", metavar=shown, type=type_of, help=said)
        for name, said in FLAGS.items():
            parser.add_argument(f"--{name}", action="store_true", help=said)


    add_wired(parsers)


def add_wired(parsers) -> None:
    """The parser of a frame that comes over a wire."""
    parser = parsers.add_parser(WIRED, help="a host sends a unit over the wire", description="A host on the wire of a "
                                "network sends a unit to a station.")
    parser.add_argument("station", metavar="STATION", type=address, help="the station's address, or `all`")
    parser.add_argument("network", metavar="NETWORK", help="a BSSID, or with --config an SSID")
    parser.add_argument("--config", metavar="CONFIG", help="the configuration that has the network")
    for name in ("from", "payload"):
        type_of, shown, said_of = OPTIONS[name]
        parser.add_argument(f"--{name}", metavar=shown, type=type_of, help=said_of)


def wired(asked: argparse.Namespace, networks: Networks) -> WiredFrame:
    """What the words of a frame on a wire ask for."""
    network, source = networks.named(asked.network), getattr(asked, "from")
    if network.bssid == BROADCAST:
        raise NoNetwork("a frame comes over the wire of one network, and not of all")
    return WiredFrame(network.bssid, asked.station, USUAL_HOST if source is None else source,
                      USUAL_PAYLOAD if asked.payload is None else asked.payload)


def words_of_wired(bssid: bytes, octets: bytes) -> str:
    """The words that write a frame of a wire again, without the tool's name."""
    ends = len(NOBODY), 2 * len(NOBODY)
    frame = WiredFrame(bssid, octets[:ends[0]], octets[ends[0]:ends[1]], octets[ends[1]:])
    to = ALL if frame.destination == BROADCAST else address_text(frame.destination)
    words = [WIRED, to, address_text(bssid)]
    words += ["--from", address_text(frame.source)] * (frame.source != USUAL_HOST)
    return shlex.join(words + ["--payload", frame.payload.hex()] * (frame.payload != USUAL_PAYLOAD))


def wanted(asked: argparse.Namespace, networks: Networks) -> Wanted:
    """What the words ask for. NoNetwork where a name is missing or a number is too large."""
    network, kind = networks.named(asked.network), asked.kind
    if network.bssid == BROADCAST and kind != "probe":
        raise NoNetwork(f"a {kind} is to one network, and not to all")
    for name, most in MOST.items():
        if (getattr(asked, name, None) or 0) > most:
            raise NoNetwork(f"--{name} is at most {most}")
    said = {name: value for name in ("duration", "sequence", "listen", "current", "algorithm", "number", "reason",
                                     "payload") if (value := getattr(asked, name, None)) is not None}
    if getattr(asked, "aid", None) is not None:
        said["aid"] = asked.aid | TWO_HIGH_BITS
    if getattr(asked, "aid_octets", None) is not None:
        said["aid"] = int.from_bytes(asked.aid_octets[:2], "little")
    to_all = kind == "probe" and not asked.direct
    return Wanted(kind, asked.station, BROADCAST if to_all else network.bssid,
                  getattr(asked, "to", None) or (BROADCAST if kind == "data" else None),
                  is_retry=asked.retry, is_dozing=asked.doze, has_more=asked.more, rest=asked.body,
                  ssid=name_for(asked, network), rates=rates_for(asked, network), **said)


def name_for(asked: argparse.Namespace, network: Network) -> bytes | None:
    """The SSID that a request names."""
    name = getattr(asked, "ssid", None)
    if name is not None:
        return name.encode()
    if network.ssid is None and asked.kind in ("join", "rejoin") and asked.body is None:
        raise NoNetwork("the SSID isn't known: say it by --ssid, or the configuration by --config")
    return b"" if network.ssid is None else network.ssid


def rates_for(asked: argparse.Namespace, network: Network) -> bytes:
    """The rates that a station says it has: those of the network, without what is basic there."""
    rates = getattr(asked, "rates", None)
    return bytes(rate & 0x7F for rate in network.rates) if rates is None else rates


def words_of(frame: Wanted) -> str:
    """The words that write a frame again, without the tool's name."""
    words = [frame.kind, address_text(frame.station)]
    if frame.kind != "probe" or frame.bssid != BROADCAST:
        words += [address_text(frame.bssid)] + ["--direct"] * (frame.kind == "probe")
    if frame.third not in (None, BROADCAST if frame.kind == "data" else frame.bssid):
        words += ["--to", ALL if frame.third == BROADCAST else address_text(frame.third)]
    usual = Wanted(frame.kind, frame.station, frame.bssid, ssid=b"" if frame.kind == "probe" else None)
    words += body_words(frame, usual)
    words += [word for name in ("duration", "sequence") if getattr(frame, name)
              for word in (f"--{name}", str(getattr(frame, name)))]
    return shlex.join(words + [f"--{name}" for name, is_set in (
        ("doze", frame.is_dozing), ("retry", frame.is_retry), ("more", frame.has_more)) if is_set])


def body_words(frame: Wanted, usual: Wanted) -> list[str]:
    """The words for what follows the header: each field that isn't as usual, or its octets where there are no words."""
    names = OF_KIND[frame.kind]
    if frame.rest is not None or "ssid" in names and not is_sayable(frame.ssid):
        return ["--body", (rest_of(frame) if frame.rest is None else frame.rest).hex()] + aid_words(frame)
    words = aid_words(frame)
    for name in names:
        value = getattr(frame, name, None)
        if name in ("aid", "aid-octets") or value == getattr(usual, name) or name == "current" and value == frame.bssid:
            continue
        words += [f"--{name}", said(name, value)]
    return words


def said(name: str, value) -> str:
    """The value of an option as a word."""
    if name == "ssid":
        return value.decode()
    if name == "current":
        return address_text(value)
    return value.hex() if isinstance(value, bytes) else str(value)


def aid_words(frame: Wanted) -> list[str]:
    """The words for the identifier of a PS-Poll."""
    if frame.kind != "poll" or frame.aid == TWO_HIGH_BITS | 1:
        return []
    if frame.aid < TWO_HIGH_BITS:
        return ["--aid-octets", two(frame.aid).hex()]
    return ["--aid", str(frame.aid ^ TWO_HIGH_BITS)]


def is_sayable(ssid: bytes | None) -> bool:
    """Whether a name can be a word."""
    try:
        return ssid is not None and ssid.decode().isprintable()
    except UnicodeDecodeError:
        return False
