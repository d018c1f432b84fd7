"""A pipe by which lines come from a child, the capture or a publisher: its counts, where somebody observes the run, and
what it prints, where a table is shown on the terminal of standard error.

A child waits for nobody: a line that a pipe has no room for is left out.
"""

from __future__ import annotations

import os
from typing import Callable, Optional

from bpfrec_tools.live.parts.loop import Loop

READ_LEN = 1 << 16


class ChildLines:
    """A pipe from a child, whose writing end is given to it. `take` takes each line."""

    def __init__(self, loop: Loop, take: Callable[[str], None]) -> None:
        self.loop, self.take = loop, take
        self.reader, self.writer = os.pipe2(os.O_CLOEXEC)
        os.set_blocking(self.reader, False)
        self.rest = b""

    def follow(self) -> None:
        """Takes lines from now on, since the child has the other end."""
        os.close(self.writer)
        self.loop.on_read(self.reader, self.take_all)

    def take_all(self) -> None:
        """Takes the lines that came."""
        part = self.read()
        while part:
            *lines, self.rest = (self.rest + part).split(b"\n")
            for line in lines:
                self.take(os.fsdecode(line))
            part = self.read()
        if part == b"":
            self.loop.on_read(self.reader, None)

    def read(self) -> Optional[bytes]:
        """What came; None where there is nothing yet, and nothing where no more will come."""
        try:
            return os.read(self.reader, READ_LEN)
        except BlockingIOError:
            return None

    def end(self) -> None:
        """The child has ended: takes what is left."""
        self.take_all()
        self.loop.on_read(self.reader, None)
        os.close(self.reader)
