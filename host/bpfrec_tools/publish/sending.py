"""Sending datagrams: a socket that never lets its caller wait, unless it is asked to, and what it refused."""

from __future__ import annotations

import errno
import os
import select
import socket
import struct
import time
from contextlib import suppress
from typing import Callable, NamedTuple, Optional

from bpfrec_tools.cli.addresses import UdpAddress

# What the socket holds at most until it is on its way.
BUFFER_LEN = 8 << 20
# Seconds between two tries to open a socket, for which room is waited for where it may be, and between lines of a fault.
AGAIN_AFTER, ROOM_AFTER, LINE_AFTER = 0.2, 1.0, 5.0
FULL, REFUSED, NO_ROUTE = "socket full", "connection refused", "no route"
REASONS = {
    errno.EAGAIN: FULL,
    errno.ENOBUFS: FULL,
    errno.ECONNREFUSED: REFUSED,
    errno.ENETUNREACH: NO_ROUTE,
    errno.EHOSTUNREACH: NO_ROUTE,
    errno.ENETDOWN: NO_ROUTE,
    errno.ENODEV: NO_ROUTE,
    errno.EADDRNOTAVAIL: NO_ROUTE,
}
# Linux has both, and Python the first one alone.
SO_SNDBUFFORCE = 32


class Route(NamedTuple):
    """Where datagrams go: the address, and the hops of those of a group and the interface by which they go."""

    address: UdpAddress
    ttl: int = 1
    interface: Optional[str] = None


class Lost:
    """Datagrams that were refused for a reason, and the line that says so, every few seconds at most."""

    def __init__(self, reason: str) -> None:
        self.reason = reason
        self.count = self.said = 0
        self.line_at = 0.0

    def line(self, now: float, is_last: bool = False) -> Optional[str]:
        """The line of those that weren't said yet; None where there is none, or not yet."""
        count = self.count - self.said
        if not count or not is_last and now < self.line_at:
            return None
        self.said, self.line_at = self.count, now + LINE_AFTER
        return f"{self.reason}: datagrams lost: {count}"


class Sending:
    """Sends datagrams by a route. `err` takes a line of what is lost."""

    def __init__(self, route: Route, err: Callable[[str], None]) -> None:
        self.route, self.err = route, err
        self.socket: Optional[socket.socket] = None
        self.open_at = 0.0
        self.closed_by = NO_ROUTE
        # Whether room in the socket is waited for, and whether the last wait was in vain.
        self.waits = self.has_waited = False
        self.sent = 0
        self.lost: dict[str, Lost] = {}

    def send(self, datagram: bytes) -> None:
        """Sends a datagram, or counts it as lost."""
        if self.socket is None and not self.open():
            self.lose(self.closed_by)
            return
        assert self.socket
        try:
            self.try_to_send(self.socket, datagram)
            self.sent += 1
            self.has_waited = False
        except OSError as error:
            self.fail(error)

    def try_to_send(self, through: socket.socket, datagram: bytes) -> None:
        """Sends a datagram. That nobody listens is said of one before, which was lost; this one is sent then."""
        try:
            through.send(datagram)
        except ConnectionRefusedError:
            self.lose(REFUSED)
            through.send(datagram)
        except BlockingIOError:
            if not self.waits or self.has_waited:
                raise
            self.has_waited = True
            select.select([], [through], [], ROOM_AFTER)
            through.send(datagram)

    def fail(self, error: OSError) -> None:
        """A datagram was refused."""
        reason = REASONS.get(error.errno or 0) or (os.strerror(error.errno) if error.errno else str(error)).lower()
        self.lose(reason)
        if reason == NO_ROUTE:
            # Another socket finds another way, once there is one.
            self.close(reason)

    def lose(self, reason: str) -> None:
        """Counts a datagram as lost."""
        lost = self.lost.setdefault(reason, Lost(reason))
        lost.count += 1
        line = lost.line(time.monotonic())
        if line:
            self.err(line)

    def lost_in_all(self) -> int:
        """How many datagrams were lost."""
        return sum(it.count for it in self.lost.values())

    # ---- the socket

    def open(self) -> bool:
        """Opens the socket, where it is time to try: whether it is open."""
        now = time.monotonic()
        if now < self.open_at:
            return False
        self.open_at = now + AGAIN_AFTER
        try:
            self.socket = opened(self.route)
        except OSError as error:
            self.closed_by = REASONS.get(error.errno or 0) or NO_ROUTE
            return False
        return True

    def close(self, reason: str = NO_ROUTE) -> None:
        """Closes the socket."""
        if self.socket:
            self.socket.close()
        self.socket, self.closed_by, self.open_at = None, reason, time.monotonic() + AGAIN_AFTER

    def end(self) -> None:
        """Says what was not said yet of what was lost."""
        self.close()
        for lost in self.lost.values():
            line = lost.line(time.monotonic(), is_last=True)
            if line:
                self.err(line)


def opened(route: Route) -> socket.socket:
    """A socket that is connected to where datagrams go."""
    made = socket.socket(route.address.family(), socket.SOCK_DGRAM)
    try:
        made.setblocking(False)
        make_room(made)
        made.setsockopt(socket.SOL_SOCKET, socket.SO_BROADCAST, 1)
        if route.address.is_multicast():
            set_multicast(made, route)
        made.connect(route.address.for_socket(route.interface))
    except OSError:
        made.close()
        raise
    return made


def make_room(made: socket.socket) -> None:
    """Gives a socket a large buffer: as large as the system allows, where it allows less."""
    made.setsockopt(socket.SOL_SOCKET, socket.SO_SNDBUF, BUFFER_LEN)
    with suppress(OSError):
        made.setsockopt(socket.SOL_SOCKET, SO_SNDBUFFORCE, BUFFER_LEN)


def set_multicast(made: socket.socket, route: Route) -> None:
    """Sets by which interface datagrams go to a group, and their hops."""
    interface = route.interface or route.address.zone
    index = socket.if_nametoindex(interface) if interface else 0
    if route.address.address.version == 6:
        made.setsockopt(socket.IPPROTO_IPV6, socket.IPV6_MULTICAST_HOPS, route.ttl)
        if index:
            made.setsockopt(socket.IPPROTO_IPV6, socket.IPV6_MULTICAST_IF, index)
        return
    made.setsockopt(socket.IPPROTO_IP, socket.IP_MULTICAST_TTL, route.ttl)
    if index:
        made.setsockopt(socket.IPPROTO_IP, socket.IP_MULTICAST_IF, struct.pack("4s4si", bytes(4), bytes(4), index))
