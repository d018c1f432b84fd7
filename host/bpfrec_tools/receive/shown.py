"""What is received as a capture too: names by the setup record, and times by the time packets."""

from __future__ import annotations

import os
from typing import BinaryIO

from bpfrec.formats.body import Frames
from bpfrec.formats.packet import Header, body_of, data_of
from bpfrec.formats.records import Program
from bpfrec.formats.whole_file import is_own
from bpfrec_tools.cli import printing
from bpfrec_tools.follow.view import UNTIMED, View, moment_in
from bpfrec_tools.follow.within import Within


class Shown:
    """The capture of a stream and those that follow it, as long as somebody reads it."""

    def __init__(self, verb: str, out: BinaryIO) -> None:
        self.verb, self.out = verb, out
        self.view = View(verb, out, [])
        self.within = Within()
        self.has_reader, self.has_shown_frames = True, False

    def take(self, header: Header, packet: bytes) -> None:
        """Shows a packet, whose sums are right."""
        if not self.has_reader:
            return
        try:
            if is_own(header.kind):
                self.within.take(header, packet)
            else:
                self.take_body(header, packet)
        except BrokenPipeError:
            self.leave()

    def take_body(self, header: Header, packet: bytes) -> None:
        """Shows frames, or notes a filter."""
        what, fault = body_of(header, packet)
        if fault is not None:
            return
        if isinstance(what, Program):
            self.view.program(what, self.within.name(what.channel))
        elif isinstance(what, Frames):
            if not self.has_shown_frames and not self.within.known:
                printing.err(f"{self.verb}: {UNTIMED}")
            self.has_shown_frames = True
            interface = self.view.interface(header.channel, self.within.name(header.channel))
            for counter, marks, frame in self.view.frames_in(what, data_of(header, packet)):
                self.view.frame(interface, moment_in(self.within.known, counter), marks, frame)

    def flush(self) -> None:
        """Has the reader see what was shown."""
        try:
            self.out.flush()
        except BrokenPipeError:
            self.leave()

    def leave(self) -> None:
        """The reader has left: nothing is shown any more."""
        self.has_reader = False
        os.dup2(os.open(os.devnull, os.O_WRONLY), self.out.fileno())
