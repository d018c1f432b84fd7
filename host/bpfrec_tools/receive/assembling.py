"""Packets of datagrams: whole ones, and those that are put together of parts. What is damaged is counted."""

from __future__ import annotations

from typing import Callable, Optional

from bpfrec.formats.limits import HEADER_LEN, MAX_SETUP_PACKET_LEN
from bpfrec.formats.packet import Header, has_right_sum, header_or_fault
from bpfrec.formats.transfer import Datagram, Part


class Assembling:
    """`take` gets each packet whose header and data checksum are right."""

    def __init__(self, take: Callable[[Header, bytes], None]) -> None:
        self.take = take
        self.damaged = 0
        # The packet that is put together: its header, what came of it, and where the next part belongs.
        self.header: Optional[Header] = None
        self.held = bytearray()
        self.due: Optional[Part] = None
        # Parts without a beginning were counted as lost, or their beginning as damaged.
        self.is_skipping = False

    def add(self, datagram: Datagram) -> None:
        """Takes the next datagram."""
        if datagram.part is None:
            self.is_skipping = False
            self.break_off()
            self.add_whole(datagram.data)
        elif datagram.part.at == 0:
            self.is_skipping = False
            self.break_off()
            self.begin(datagram.part, datagram.data)
        elif datagram.part == self.due:
            self.extend(datagram.part, datagram.data)
        elif not self.is_skipping:
            self.fail()
            self.is_skipping = True

    def gap(self) -> None:
        """Datagrams are missing: what was put together lacks a part."""
        self.drop()
        self.is_skipping = True

    def break_off(self) -> None:
        """Another packet begins: one that isn't whole is damaged."""
        if self.header:
            self.fail()

    def drop(self) -> None:
        """Forgets the packet that is put together."""
        self.header, self.due = None, None
        self.held.clear()

    def fail(self) -> None:
        """Counts something as damaged."""
        self.damaged += 1
        self.drop()

    def add_whole(self, data: bytes) -> None:
        """Takes a datagram of whole packets."""
        at = 0
        while at < len(data):
            header = header_in(data[at : at + HEADER_LEN])
            if header is None or header.packet_len > len(data) - at:
                self.fail()
                return
            self.judge(header, data[at : at + header.packet_len])
            at += header.packet_len

    def begin(self, part: Part, data: bytes) -> None:
        """Takes the part that begins a packet."""
        header = header_in(data[:HEADER_LEN])
        if header is None or (header.channel, header.sequence) != (part.channel, part.sequence):
            self.fail()
            self.is_skipping = True
            return
        self.header = header
        self.extend(part, data)

    def extend(self, part: Part, data: bytes) -> None:
        """Takes the next part of a packet, which may be the last one."""
        assert self.header
        self.held += data
        self.due = part._replace(at=len(self.held))
        if len(self.held) > self.header.packet_len:
            self.fail()
        elif len(self.held) == self.header.packet_len:
            header, packet = self.header, bytes(self.held)
            self.drop()
            self.judge(header, packet)

    def judge(self, header: Header, packet: bytes) -> None:
        """Gives a packet on whose data checksum is right."""
        if header.has_checksum() and has_right_sum(packet):
            self.take(header, packet)
        else:
            self.fail()


def header_in(head: bytes) -> Optional[Header]:
    """The header that bytes are; None where they are none, or no packet is that long."""
    found = header_or_fault(head) if len(head) == HEADER_LEN else None
    return found if isinstance(found, Header) and found.packet_len <= MAX_SETUP_PACKET_LEN else None
