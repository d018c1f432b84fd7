"""The socket at which datagrams come, and whose are taken: those of the first sender, until that is silent. Nobody proves
who sends."""

from __future__ import annotations

import argparse
import ipaddress
import socket
import struct
import time
from contextlib import suppress
from typing import Any, Callable, Optional, Union

from bpfrec_tools.cli.addresses import UdpAddress

Address = Union[ipaddress.IPv4Address, ipaddress.IPv6Address]
# For how many seconds a sender is silent until another one is taken, and until a line says so: one that is there sends a
# datagram each second.
SILENCE, DEAD = 2.0, 3.0


class Source:
    """The sender of the stream that comes to an address, by its own and its port. `begin_anew` is called where another one
    takes its place, and `report` takes a line of the first datagram that is another's, and of silences."""

    def __init__(
        self, where: str, asked: Optional[Address], begin_anew: Callable[[], None], report: Callable[[str], None]
    ) -> None:
        self.where, self.asked, self.begin_anew, self.report = where, asked, begin_anew, report
        self.sender: Optional[tuple[str, int]] = None
        # When its last datagram came, or this began; and the time at which the silence began that was said last.
        self.last_at = time.monotonic()
        self.dead_since = ""
        self.foreign = 0

    def takes(self, address: tuple[Any, ...], now: float) -> bool:
        """Whether the datagram of a sender is one of the stream."""
        sender = address[0], address[1]
        is_silent = self.sender is None or now - self.last_at >= SILENCE
        if self.asked and plain(sender[0]) != self.asked or sender != self.sender and not is_silent:
            self.leave_out(sender)
            return False
        if self.sender not in (None, sender):
            self.begin_anew()
        if self.dead_since:
            self.report(f"datagrams come again, of {sender[0]} port {sender[1]}, after {now - self.last_at:.1f} s")
            self.dead_since = ""
        self.sender, self.last_at = sender, now
        return True

    def look(self, now: float) -> None:
        """Says once where nothing at all has come for a while, as from a quiet recorder it would."""
        if self.dead_since or now - self.last_at < DEAD:
            return
        self.dead_since = time.strftime("%Y-%m-%dT%H:%M:%SZ", time.gmtime(time.time() - (now - self.last_at)))
        asked = f" from {self.asked}" if self.asked else ""
        whose = f" from {self.sender[0]} port {self.sender[1]}" if self.sender else asked
        self.report(f"nothing has come to {self.where}{whose} since {self.dead_since}")

    def leave_out(self, sender: tuple[str, int]) -> None:
        """Counts a datagram that is another's."""
        self.foreign += 1
        if self.foreign == 1:
            whose = f"{self.sender[0]} port {self.sender[1]}" if self.sender else str(self.asked)
            self.report(f"datagrams of {sender[0]} port {sender[1]} are left out: the stream is of {whose}")


def plain(address: str) -> Address:
    """An address without its zone; one of IPv4 as that."""
    found = ipaddress.ip_address(address.partition("%")[0])
    return found.ipv4_mapped or found if isinstance(found, ipaddress.IPv6Address) else found


def address_of(word: str) -> Address:
    """The address that a word is."""
    try:
        return plain(word)
    except ValueError:
        raise argparse.ArgumentTypeError(f"{word} is no address, as 192.0.2.7") from None


# What the system keeps of datagrams until they are read, at most.
BUFFER_LEN = 32 << 20
MAX_DATAGRAM_LEN = 65_535
# Linux has it, and Python doesn't name it.
SO_RCVBUFFORCE = 33


def opened(address: UdpAddress, interface: Optional[str]) -> socket.socket:
    """A socket that is bound to an address, and that has joined where it is a group; OSError where that can't be."""
    made = socket.socket(address.family(), socket.SOCK_DGRAM)
    try:
        made.setblocking(False)
        made.setsockopt(socket.SOL_SOCKET, socket.SO_RCVBUF, BUFFER_LEN)
        with suppress(OSError):
            made.setsockopt(socket.SOL_SOCKET, SO_RCVBUFFORCE, BUFFER_LEN)
        if address.is_multicast():
            # Others may listen to the group too.
            made.setsockopt(socket.SOL_SOCKET, socket.SO_REUSEADDR, 1)
        made.bind(address.for_socket(interface))
        if address.is_multicast():
            join(made, address, interface or address.zone)
    except OSError:
        made.close()
        raise
    return made


def join(made: socket.socket, address: UdpAddress, interface: Optional[str]) -> None:
    """Joins a group, on an interface or the one that the system chooses."""
    index = socket.if_nametoindex(interface) if interface else 0
    group = address.address.packed
    if address.address.version == 6:
        made.setsockopt(socket.IPPROTO_IPV6, socket.IPV6_JOIN_GROUP, struct.pack("@16sI", group, index))
    else:
        made.setsockopt(socket.IPPROTO_IP, socket.IP_ADD_MEMBERSHIP, struct.pack("@4s4si", group, bytes(4), index))
