"""The files of what is received: one for each recording, which begins with its setup record."""

from __future__ import annotations

import os
import time
from collections import deque
from contextlib import suppress
from typing import Optional

from bpfrec.formats.body import BadBody
from bpfrec.formats.limits import BODY_WORD_LEN, ETHERNET_DATA, HEADER_LEN, RECORD_CHANNEL, SETUP
from bpfrec.formats.names import Names
from bpfrec.formats.packet import Header
from bpfrec.formats.records import End, record_in
from bpfrec_tools.cli.streams import STREAM, Output
from bpfrec_tools.receive.shown import Shown

# How many bytes of packets wait for the first setup record, at most, and those that each takes beside its own.
MOST_KEPT, OVERHEAD = 64 << 20, 512
# How many files begin in a second, at most.
MOST_FILES = 10


class Files:
    """Writes packets into OUT, and those of further recordings into files with a number behind that name; without an OUT
    they are shown alone."""

    def __init__(self, out: Optional[str], is_forced: bool, shown: Optional[Shown] = None) -> None:
        self.is_kept, self.shown = out is not None, shown
        out = out or os.devnull
        self.out = Output(out, is_forced=is_forced)
        self.names = Names(out)
        # The first of further recordings is the second.
        self.names.number = 1
        # The text of the setup record of the recording that is written.
        self.text: Optional[bytes] = None
        self.has_written = False
        # Packets that came ahead of the first setup record, which is repeated.
        self.kept: deque[tuple[Header, bytes]] = deque()
        self.kept_len = 0
        # When files were begun in the last second.
        self.begun: list[float] = []
        # Channels that have frames or a program, and no end yet.
        self.open: set[int] = set()
        self.packets = self.skipped = 0

    def take(self, header: Header, packet: bytes) -> None:
        """Takes a packet: those ahead of the first setup record wait for it."""
        if header.is_setup():
            self.take_setup(header, packet)
        elif self.text is None:
            self.keep(header, packet)
        else:
            self.write(header, packet)

    def take_setup(self, header: Header, packet: bytes) -> None:
        """Takes a setup record. One of another text begins another recording."""
        text = packet[HEADER_LEN + BODY_WORD_LEN : HEADER_LEN + header.data_len]
        if text == self.text:
            self.write(header, packet)
            return
        if self.has_written:
            if not self.may_begin(time.monotonic()):
                self.text = None
                self.skipped += 1
                return
            self.begin_next()
        self.text = text
        if not header.sequence:
            # The first of a recording, of which nothing came before it.
            self.drop_kept()
        self.write_kept(header, packet)

    def keep(self, header: Header, packet: bytes) -> None:
        """Keeps a packet until a setup record comes, and as many of the last ones as there is room for."""
        self.kept.append((header, packet))
        self.kept_len += len(packet) + OVERHEAD
        while self.kept_len > MOST_KEPT:
            self.kept_len -= len(self.kept.popleft()[1]) + OVERHEAD
            self.skipped += 1

    def drop_kept(self) -> None:
        """Leaves out what was kept."""
        self.skipped += len(self.kept)
        self.kept.clear()
        self.kept_len = 0

    def write_kept(self, header: Header, packet: bytes) -> None:
        """Writes a setup record, and what was kept behind it."""
        self.write(header, packet)
        for kept in self.kept:
            self.write(*kept)
        self.kept.clear()
        self.kept_len = 0

    def restart(self) -> bool:
        """Another stream has begun, whose setup record comes first: whether the recording before it has ended."""
        has_ended = not self.open
        self.text = None
        self.drop_kept()
        return has_ended

    def end(self) -> None:
        """Nothing comes any more."""
        self.drop_kept()
        self.flush()
        self.out.close()

    def may_begin(self, now: float) -> bool:
        """Whether a further file may begin by now: else its packets wait for its next setup record."""
        self.begun = [it for it in self.begun if now - it < 1]
        if len(self.begun) == MOST_FILES:
            return False
        self.begun.append(now)
        return True

    def begin_next(self) -> None:
        """Begins a further file, under a name that nothing has; a pipe gets all."""
        self.open.clear()
        if self.out.name == STREAM or not self.is_kept:
            return
        self.out.close()
        self.out = Output(self.names.next()[1])

    def write(self, header: Header, packet: bytes) -> None:
        """Writes a packet."""
        self.has_written = True
        self.packets += 1
        self.note_end(header, packet)
        self.out.write(packet)
        if self.shown:
            self.shown.take(header, packet)

    def flush(self) -> None:
        """Has all seen that was written."""
        self.out.flush()
        if self.shown:
            self.shown.flush()

    def is_in_vain(self) -> bool:
        """Whether nobody gets what comes: the capture's reader has left, and there is no OUT."""
        return not self.is_kept and self.shown is not None and not self.shown.has_reader

    def note_end(self, header: Header, packet: bytes) -> None:
        """Notes which channels have not ended."""
        if header.kind == ETHERNET_DATA:
            self.open.add(header.channel)
        elif header.channel == RECORD_CHANNEL and header.kind != SETUP:
            with suppress(BadBody):
                record = record_in(packet[HEADER_LEN : HEADER_LEN + header.data_len])
                if record:
                    (self.open.discard if isinstance(record, End) else self.open.add)(record.channel)
