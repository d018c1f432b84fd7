"""Packets put into datagrams: as many whole ones as fit, or a part of one that doesn't fit."""

from __future__ import annotations

import time
from typing import Callable

from bpfrec.formats.transfer import HEAD, PART_HEAD, Part, part_head, whole_head

# For how many seconds nothing goes out at most.
SILENCE = 1.0


class Datagrams:
    """Datagrams of at most `most` bytes, each of which `send` takes; they are numbered from 0 on."""

    def __init__(self, most: int, send: Callable[[bytes], None]) -> None:
        self.most, self.send = most, send
        self.number = self.packets = 0
        self.held: list[bytes] = []
        self.room = most - HEAD.size
        self.last_at = time.monotonic()

    def add(self, packet: bytes) -> None:
        """Takes a packet, which may wait for others."""
        self.packets += 1
        if len(packet) > self.room:
            self.flush()
        if len(packet) > self.room:
            self.cut(packet)
            return
        self.held.append(packet)
        self.room -= len(packet)

    def flush(self) -> None:
        """Sends the packets that wait."""
        if self.held:
            self.send_whole()

    def beat(self) -> None:
        """Sends a datagram without a packet where nothing has gone out for long, so that a receiver sees that all is
        well."""
        if time.monotonic() - self.last_at >= SILENCE:
            self.send_whole()

    def send_whole(self) -> None:
        """Sends a datagram of whole packets, which may be none."""
        self.send_next(b"".join((whole_head(self.number), *self.held)))
        self.held, self.room = [], self.most - HEAD.size

    def cut(self, packet: bytes) -> None:
        """Sends a packet in parts."""
        channel, sequence = int.from_bytes(packet[2:4], "little"), packet[13]
        length = self.most - PART_HEAD.size
        for at in range(0, len(packet), length):
            self.send_next(part_head(self.number, Part(channel, sequence, at)) + packet[at : at + length])

    def send_next(self, datagram: bytes) -> None:
        """Sends a datagram."""
        self.send(datagram)
        self.number += 1
        self.last_at = time.monotonic()
