"""Frames of a wire with something else where their type stands."""
from explaining.source import Finding, Source
from explaining.spans import also_in, place_of_octets
from reading import LEAST_TYPE, SNAP, wired_unread_kind
from texts import Line

TYPES = {bytes.fromhex(digits) for digits in ("0800", "0806", "86dd", "888e")}
HEADER_LEN, IPV4_LEN, IPV6_LEN = 14, 20, 40
ARP = bytes.fromhex("000108000604")
VLAN = bytes.fromhex("8100")


def other_packet(kind: bytes, packet: bytes) -> str | None:
    """The type of a packet by its beginning, where another one of the three types stands before it."""
    begins = {"0806": packet.startswith(ARP), "0800": len(packet) >= IPV4_LEN and packet[0] == 0x45,
              "86dd": len(packet) >= IPV6_LEN and packet[0] >> 4 == 6}
    found = next((name for name, is_one in begins.items() if is_one), None)
    is_sure = kind.hex() in begins or packet_type(packet) is not None
    return found if found and is_sure and kind.hex() != found else None


def packet_type(packet: bytes) -> str | None:
    """The type of a packet that is as long as it says itself; None for other octets."""
    if packet.startswith(ARP):
        return "0806"
    if len(packet) >= IPV4_LEN and packet[0] == 0x45 and int.from_bytes(packet[2:4], "big") == len(packet):
        return "0800"
    is_ipv6 = len(packet) >= IPV6_LEN and packet[0] >> 4 == 6 and \
        int.from_bytes(packet[4:6], "big") == len(packet) - IPV6_LEN
    return "86dd" if is_ipv6 else None


def of_wired_types(lines: list[Line], traces: list[Source]) -> list[Finding]:
    """Frames of a wire with something else where their type stands, which are passed on all the same."""
    parts = ((lambda octets: octets[12:18] == SNAP, "LLC and SNAP (`aaaa03000000`) stand",
              "on a wire the type follows the "
              "addresses at once: leave them out"),
             (is_turned, "`{written}`, the type `{turned}` with its octets the wrong way round, stands",
              "write `{turned}`"),
             (lambda octets: octets[12:14] == VLAN, "the tag of a VLAN (`8100`) stands",
              "leave `8100` and the two octets behind it out; the bridge drops frames with a tag"),
             (lambda octets: other_packet(octets[12:14], octets[HEADER_LEN:]), "a type of another packet than the one "
              "behind it stands", "IPv4 is `0800`, ARP `0806` and IPv6 `86dd`"),
             (lambda octets: octets[12:14] == b"\x45\0", "an IPv4 packet (`4500`) stands",
              "write the type `0800` before it"))
    findings = []
    for is_it, what, advice in parts:
        found = [line for line in lines if line.kind == "W" and is_it(line.octets) and
                 wired_unread_kind(line.octets) is None]
        if found:
            octets = found[0].octets
            digits = {"written": octets[12:14].hex(), "turned": octets[13:11:-1].hex()}
            findings.append(Finding(f"{what.format(**digits)} where the type of a frame on a wire does: "
                                    f"{read_as(octets)}{also_in(found, traces)}",
                                    place_of_octets(traces[0], found[0], (12, 18 if octets[12:18] == SNAP else 14))
                                    if len(traces) == 1 else None, advice.format(**digits)))
    return findings


def is_turned(octets: bytes) -> bool:
    """Whether a type stands with its octets the wrong way round."""
    return octets[13:11:-1] in TYPES and octets[12:14] not in TYPES


def read_as(octets: bytes) -> str:
    """How the two octets are read that stand where the type does."""
    field, more = int.from_bytes(octets[12:14], "big"), len(octets) - HEADER_LEN
    if field >= LEAST_TYPE:
        return "these octets are passed on as a type"
    return f"these octets are read as a length of {field}" + \
        (f", and the {more - field} octets behind so many are left out as padding" if more > field else "")
