"""Addresses of UDP as users write them, as 192.0.2.1:50000 or [fe80::1%eth0]:50000, and what datagrams there have."""

from __future__ import annotations

import argparse
import ipaddress
import re
import socket
from typing import Any, NamedTuple, Optional, Union

from bpfrec.formats.limits import MAX_BYTE
from bpfrec.formats.transfer import DATAGRAM_STEP, MAX_DATAGRAM_LEN, MIN_DATAGRAM_LEN
from bpfrec_tools.cli.arguments import natural, natural_up_to

WORD = re.compile(
    r"(?:(?P<plain>[0-9.]{7,15})|\[(?P<bracketed>[0-9a-fA-F:.]{2,45})(?:%(?P<zone>[^\]\s/%]{1,15}))?\])"
    r":(?P<port>[0-9]{1,5})"
)
# A host's name in the place of an address.
NAMED = re.compile(r"[\w.-]*[^\W\d_][\w.-]*:\d+$")
MAX_PORT = 65_535


class UdpAddress(NamedTuple):
    """An address and a port, and the interface that the address is of, where one is named."""

    address: Union[ipaddress.IPv4Address, ipaddress.IPv6Address]
    port: int
    zone: Optional[str] = None

    def __str__(self) -> str:
        zone = f"%{self.zone}" if self.zone else ""
        return f"[{self.address}{zone}]:{self.port}" if self.address.version == 6 else f"{self.address}:{self.port}"

    def family(self) -> socket.AddressFamily:
        """The family of its sockets."""
        return socket.AF_INET6 if self.address.version == 6 else socket.AF_INET

    def is_multicast(self) -> bool:
        """Whether it is a group."""
        return self.address.is_multicast

    def lacks(self, interface: Optional[str]) -> str:
        """What is said where this interface, or the one that it is of, isn't here; nothing where it is."""
        name = interface or self.zone
        return f"{self}: no such interface: {name}" if name and name not in dict(socket.if_nameindex()).values() else ""

    def for_socket(self, interface: Optional[str] = None) -> Any:
        """The address as a socket takes it; OSError where its interface isn't here. One of IPv6 that names no interface
        is of this one."""
        if self.address.version == 4:
            return str(self.address), self.port
        zone = self.zone or interface
        return str(self.address), self.port, 0, socket.if_nametoindex(zone) if zone else 0


def udp_address(word: str) -> UdpAddress:
    """The address that a word is. A name of a host is refused, since a look-up may take long and change."""
    found = WORD.fullmatch(word)
    try:
        address = ipaddress.ip_address((found["plain"] or found["bracketed"]) if found else "")
    except ValueError:
        found = None
    if not found or not 1 <= int(found["port"]) <= MAX_PORT:
        why = "no name is looked up, so it " if NAMED.match(word) else ""
        raise argparse.ArgumentTypeError(f"{word}: {why}needs ADDRESS:PORT or [ADDRESS]:PORT, as 239.1.2.3:50000")
    return UdpAddress(address, int(found["port"]), found["zone"])


def ttl_of(word: str) -> int:
    """The hops that a word says."""
    return natural_up_to(word, MAX_BYTE, f"number from 0 to {MAX_BYTE}")


def length_of(word: str) -> int:
    """The length of a datagram that a word says."""
    number = natural(word)
    if not MIN_DATAGRAM_LEN <= number <= MAX_DATAGRAM_LEN or number % DATAGRAM_STEP:
        limits = f"from {MIN_DATAGRAM_LEN} to {MAX_DATAGRAM_LEN}"
        raise argparse.ArgumentTypeError(f"{word} is no multiple of {DATAGRAM_STEP} {limits}")
    return number
