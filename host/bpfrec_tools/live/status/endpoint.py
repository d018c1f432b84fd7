"""Where the status is served: what `--status` says."""

from __future__ import annotations

import ipaddress
import re
from collections.abc import Sequence
from typing import NamedTuple, Union

LOOPBACK = "127.0.0.1"
# PORT, ADDRESS:PORT, [ADDRESS]:PORT
WORD = re.compile(r"(?:(?P<plain>[0-9.]{7,15}):|\[(?P<bracketed>[0-9a-fA-F:.]{2,45})\]:)?(?P<port>[0-9]{1,5})")
# A name of a host, as a browser asks for it.
NAME = re.compile(r"[A-Za-z0-9_]([A-Za-z0-9_.-]{0,251}[A-Za-z0-9_])?")
MOST_PORT = 65_535

Address = Union[ipaddress.IPv4Address, ipaddress.IPv6Address]


class BadEndpoint(Exception):
    """A word that names no place to serve at."""

    status = 2


class NoServer(Exception):
    """The place can't be served at: another has it, or it may not be had."""

    status = 3


class Endpoint(NamedTuple):
    """An address and a port, and the names by which it may be asked; port 0 is one that the kernel chooses."""

    address: Address
    port: int
    names: frozenset[str] = frozenset()

    def __str__(self) -> str:
        host = f"[{self.address}]" if self.address.version == 6 else str(self.address)
        return f"{host}:{self.port}"


def endpoint_in(word: str, names: Sequence[str] = ()) -> Endpoint:
    """The place that PORT, ADDRESS:PORT or [ADDRESS]:PORT names; without an address it is the loopback's. A name of a
    host is refused, since a look-up may take long and change; by these names it may be asked."""
    for name in names:
        if not NAME.fullmatch(name):
            raise BadEndpoint(f"--status-name {name}: it takes the name of a host, as recorder.example")
    found = WORD.fullmatch(word)
    try:
        address = ipaddress.ip_address((found["plain"] or found["bracketed"] or LOOPBACK) if found else "")
    except ValueError:
        found = None
    if not found or int(found["port"]) > MOST_PORT:
        raise BadEndpoint(f"--status {word}: it takes PORT, ADDRESS:PORT or [ADDRESS]:PORT, as 8080 or 192.0.2.7:8080")
    return Endpoint(address, int(found["port"]), frozenset(it.lower() for it in names))
