"""Where the page is served: an address of this machine and a port, by which names it may be asked for, and from where."""
import errno
import ipaddress
import re
import socket
from dataclasses import dataclass

LOCAL = "127.0.0.1"
LOCAL_NAME = "localhost"
MOST_PORT = 65535
LABEL = "[a-z0-9](?:[a-z0-9-]{0,61}[a-z0-9])?"
NAME = re.compile(rf"(?=.{{1,253}}\Z){LABEL}(?:\.{LABEL})*", re.IGNORECASE)  # RFC 1123, 2.1
HOST = re.compile(r"(\[[0-9a-f:.]+\]|[^\[\]:]+)(?::[0-9]{1,5})?", re.IGNORECASE)  # RFC 9110, 7.2
EVERYBODY = ipaddress.ip_address("255.255.255.255")


@dataclass(frozen=True)
class Endpoint:
    """A port of an address of this machine, more names that a request may name as its host, and the networks from which
    alone requests may come, where there are some."""

    port: int
    address: str = LOCAL
    names: tuple[str, ...] = ()
    sources: tuple[str, ...] = ()

    @property
    def is_local(self) -> bool:
        """Whether only programs of this machine reach it."""
        return ipaddress.ip_address(self.address).is_loopback

    @property
    def family(self) -> socket.AddressFamily:
        """The kind of its address."""
        return socket.AF_INET6 if ":" in self.address else socket.AF_INET

    @property
    def host(self) -> str:
        """The address, as a request names it."""
        return f"[{self.address}]" if ":" in self.address else self.address

    @property
    def hosts(self) -> tuple[str, ...]:
        """All that a request may name as its host."""
        return (self.host, *((LOCAL_NAME,) if self.is_local else ()), *self.names)

    @property
    def word(self) -> str:
        """As people write it."""
        return str(self.port) if self.address == LOCAL else f"{self.host}:{self.port}"

    def answers(self, host: str) -> bool:
        """Whether it answers a request that names this host: a page of elsewhere, whose name leads here, names another
        one."""
        found = HOST.fullmatch(host)
        try:
            return found is not None and name_of(found[1]) in self.hosts
        except ValueError:
            return False

    def serves(self, client: str) -> bool:
        """Whether a request may come from this address: from this machine it always may."""
        address = ipaddress.ip_address(client.partition("%")[0])
        return not self.sources or str(address) == self.address or address.is_loopback or any(
            address in ipaddress.ip_network(source) for source in self.sources)

    def fault(self) -> str | None:
        """Why nothing can be served there now, and until when, if that is so."""
        with socket.socket(self.family) as trying:
            try:
                trying.setsockopt(socket.SOL_SOCKET, socket.SO_REUSEADDR, 1)
                trying.bind((self.address, self.port))
            except OSError as fault:
                is_missing = fault.errno == errno.EADDRNOTAVAIL
                until = "this machine has this address" if is_missing else "this port is free"
                return f"{fault.strerror}: there is no page until {until}"
        return None


def endpoint_of(text: str) -> Endpoint:
    """The words PORT, ADDRESS:PORT and [ADDRESS]:PORT; a ValueError says what is wrong with others."""
    address, colon, port = text.rpartition(":")
    if not colon:
        return Endpoint(port_of(text))
    if ":" in address and not (address.startswith("[") and address.endswith("]")):
        raise ValueError(f"{text}: an address of IPv6 stands in brackets, as [2001:db8::7]:9617")
    return Endpoint(port_of(port), address_of(address))


def port_of(text: str) -> int:
    """A port."""
    if not text.isascii() or not text.isdigit() or not 0 < int(text) <= MOST_PORT:
        raise ValueError(f"{text} is no port: 1 to {MOST_PORT}")
    return int(text)


def address_of(text: str) -> str:
    """An address that can be one machine's."""
    try:
        address = ipaddress.IPv6Address(text[1:-1]) if text.startswith("[") else ipaddress.IPv4Address(text)
    except ValueError:
        raise ValueError(f"{text} is no address, as 192.0.2.7 or [2001:db8::7] is one") from None
    if address.is_unspecified:
        raise ValueError(f"{text} stands for all addresses of this machine: name the one at which it is asked")
    if address.is_multicast or address == EVERYBODY:
        raise ValueError(f"{text} is the address of many machines")
    if address.version == 6 and address.is_link_local:
        raise ValueError(f"{text} holds on one link alone: name another address of this machine")
    return str(address)


def name_of(text: str) -> str:
    """A host's name, or an address, that a request may name."""
    if NAME.fullmatch(text):
        return text.lower()
    try:
        return f"[{ipaddress.IPv6Address(text[1:-1])}]" if text.startswith("[") else str(ipaddress.IPv4Address(text))
    except ValueError:
        raise ValueError(f"{text} is no name of a host, as ap1.example.net is one") from None


def source_of(text: str) -> str:
    """An address or a network from which requests may come."""
    try:
        return str(ipaddress.ip_network(text.removeprefix("[").removesuffix("]")))
    except ValueError as fault:
        raise ValueError(f"{text} is neither an address nor a network, as 192.0.2.0/24 is one: {fault}") from None
