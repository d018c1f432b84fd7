"""The capture of all interfaces, as live runs it."""

from __future__ import annotations

import os
import signal
import subprocess
from typing import Callable, Optional

from bpfrec_tools.live.arguments import Arguments
from bpfrec_tools.live.model import KILLED
from bpfrec_tools.live.parts import children, system
from bpfrec_tools.live.parts.child_lines import ChildLines
from bpfrec_tools.live.parts.events import Counted, event_in
from bpfrec_tools.live.parts.folder import Folder
from bpfrec_tools.live.parts.loop import Loop
from bpfrec_tools.live.run.ports import Counts

# An interface whose reader has left waits so long for word that a recorder follows, in seconds.
HOLD = 3


class Capture:
    """A capture that is started once."""

    def __init__(self, program: str, given: Arguments, folder: Folder, loop: Loop) -> None:
        self.program, self.given, self.folder, self.loop = program, given, folder, loop
        self.child: Optional[children.Child] = None
        # What comes here of it: the lines that it prints, and its counts.
        self.lines: Optional[ChildLines] = None
        self.has_table = False
        self.counts: Optional[ChildLines] = None
        # What it has counted last, by interface.
        self.last: dict[str, Counts] = {}

    def read_lines(self, err: Callable[[str], None], has_table: bool) -> None:
        """Has the lines come here that it prints; where there is a table without those of each second."""
        self.lines, self.has_table = ChildLines(self.loop, err), has_table

    def read_counts(self, counted: Callable[[str, Counts], None]) -> None:
        """Has its counts come here each second, also where it prints no line of them."""

        def take(line: str) -> None:
            event = event_in(line)
            if isinstance(event, Counted):
                self.last[event.interface] = event.counts
                counted(event.interface, event.counts)

        self.counts = ChildLines(self.loop, take)

    def arguments(self) -> list[str]:
        """Its command line."""
        arguments = [self.program, *self.given.options]
        arguments += ["--quiet"] if self.has_table else []
        if self.given.reads_captures():
            return [*arguments, "--events", str(self.folder.events), "--parent", str(os.getpid()), *self.files()]
        arguments += ["--counts", str(self.counts.writer)] if self.counts else []
        arguments += self.folder.prefilters() if self.given.is_prefiltered else []
        arguments += self.folder.span_arguments()
        arguments += ["--events", str(self.folder.events), "--parent", str(os.getpid())]
        arguments += ["--hold", str(HOLD)] if self.given.is_rotating() else []
        return arguments + self.folder.sources()

    def files(self) -> list[str]:
        """Its captures with their pipes."""
        return ["-r", *self.folder.sources()]

    def start(self, everybody: int, ended: Callable[[int], None]) -> None:
        """Starts it. `everybody` is what each program has open that live starts."""
        errors = self.lines.writer if self.lines else None
        kept = [everybody, *([self.counts.writer] if self.counts else [])]
        manner = children.Manner(kept, has_capabilities=True)
        self.child = children.start(self.arguments(), (subprocess.DEVNULL, None, errors), manner)
        # It alone needs the permission to capture.
        system.give_capabilities_up()
        self.loop.follow(self.child, ended)
        for pipe in self.pipes():
            pipe.follow()

    def pipes(self) -> list[ChildLines]:
        """The pipes by which lines come here."""
        return [it for it in (self.counts, self.lines) if it]

    def send(self, number: signal.Signals) -> None:
        """Sends it a signal."""
        if self.child:
            self.child.send(number)

    def end(self, status: int) -> list[str]:
        """It has ended: takes the rest of what comes of it. Gives the lines of its last counts where it was killed, and
        would have printed them at its end alone."""
        for pipe in self.pipes():
            pipe.end()
        is_quiet = self.has_table or "--quiet" in self.given.options
        return [line_of(*it) for it in self.last.items() if is_quiet and status > KILLED]


def line_of(interface: str, counts: Counts) -> str:
    """The line that the capture prints of these counts."""
    return f"bpfrec capture: {interface} {' '.join(f'{name} {count}' for name, count in counts._asdict().items())}"
