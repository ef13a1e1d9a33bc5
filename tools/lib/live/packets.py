"""Packet sockets (packet(7)) of the radio's monitor interface and of wires: they are opened here, as root, and handed to
the bridge, which may open none."""
import ctypes
import socket
import struct

from live.faults import Fault

ALL_PROTOCOLS = 0x0003  # ETH_P_ALL
SOL_PACKET, ADD_MEMBERSHIP, AUXDATA, IGNORE_OUTGOING, PROMISCUOUS = 263, 1, 8, 23, 1
RECEIVING_ROOM_FORCED, SENDING_ROOM_FORCED, TIMESTAMPS, ATTACH_FILTER = 33, 32, 35, 26
RECEIVING_ROOM = 16 << 20
# How many octets wait in the kernel at most to be sent by an interface: so what is sent next never waits long.
AIR_ROOM, WIRE_ROOM = 32 << 10, 256 << 10
NOTHING = struct.pack("HBBI", 0x06, 0, 0, 0)  # a filter of one step: of each packet no octet is let through


def open_radio(monitor: str) -> list[socket.socket]:
    """What the bridge has of a monitor interface: by the first socket it hears and sends, by the second it sends beacons,
    and by the third it learns what was acknowledged. The last two hear nothing until the bridge sets their filters."""
    return [open_packets(monitor, AIR_ROOM), open_packets(monitor, AIR_ROOM, True), open_packets(monitor, AIR_ROOM, True)]


def open_wire(name: str) -> socket.socket:
    """What the bridge has of a wire, which is heard whole: frames for any receiver."""
    opened = open_packets(name, WIRE_ROOM)
    membership = struct.pack("iHH8s", socket.if_nametoindex(name), PROMISCUOUS, 0, b"")
    opened.setsockopt(SOL_PACKET, ADD_MEMBERSHIP, membership)
    return opened


def open_packets(name: str, sending_room: int, is_quiet: bool = False) -> socket.socket:
    """A socket that hears all of an interface, or nothing yet, and sends whole frames by it."""
    opened = socket.socket(socket.AF_PACKET, socket.SOCK_RAW | socket.SOCK_NONBLOCK | socket.SOCK_CLOEXEC, 0)
    try:
        opened.setsockopt(socket.SOL_SOCKET, RECEIVING_ROOM_FORCED, RECEIVING_ROOM)
        opened.setsockopt(socket.SOL_SOCKET, SENDING_ROOM_FORCED, sending_room)
        opened.setsockopt(socket.SOL_SOCKET, TIMESTAMPS, 1)
        opened.setsockopt(SOL_PACKET, AUXDATA, 1)
        opened.setsockopt(SOL_PACKET, IGNORE_OUTGOING, 1)
        if is_quiet:
            steps = ctypes.create_string_buffer(NOTHING, len(NOTHING))
            opened.setsockopt(socket.SOL_SOCKET, ATTACH_FILTER, struct.pack("HP", 1, ctypes.addressof(steps)))
        opened.bind((name, ALL_PROTOCOLS))
    except OSError as fault:
        opened.close()
        raise Fault(f"{name}: no packet socket: {fault.strerror}") from None
    return opened
