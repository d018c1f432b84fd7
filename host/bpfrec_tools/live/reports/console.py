"""What a run tells: lines on standard error, reports and audits on standard output."""

from __future__ import annotations

from typing import Callable

from bpfrec_tools.live.parts.loop import Loop
from bpfrec_tools.live.reports.standard_streams import Lines, Printed
from bpfrec_tools.live.said import said
from bpfrec_tools.live.status import Terminal


class AboveTable(Lines):
    """Lines that stand above the table on a terminal."""

    def __init__(self, terminal: Terminal) -> None:
        super().__init__()
        self.terminal = terminal

    def write(self, line: str) -> bool:
        """Writes a line: whether there was room."""
        return self.terminal.show([line])


class Console:
    """The standard streams of a run. `failed` is called once, where standard output can't be written."""

    def __init__(self, loop: Loop, failed: Callable[[], None], terminal: Terminal) -> None:
        self.loop, self.failed, self.terminal = loop, failed, terminal
        self.lines, self.printed = AboveTable(terminal) if terminal.is_shown() else Lines(), Printed()
        self.has_told = False

    def err(self, line: str) -> None:
        """Tells a line on standard error."""
        self.lines.put(line)

    def takes_lines(self) -> bool:
        """Whether lines of programs have to come through here, since there is a table, or they need their priorities."""
        return self.terminal.is_shown() or self.lines.is_journal

    def out(self, text: str) -> None:
        """Prints a text on standard output, now or as there is room."""
        if self.terminal.is_of(1):
            self.lines.put(*text.splitlines())
        else:
            self.printed.put(text)
            self.check()

    def check(self) -> None:
        """Tells the first time that standard output doesn't take what is printed."""
        if self.printed.has_failed and not self.has_told:
            self.has_told = True
            self.err(said("-: standard output takes no more"))
            self.failed()

    def write_on(self) -> None:
        """Has the rest written once there is room."""
        self.loop.on_room(self.printed.descriptor, self.write if self.printed.waiting else None)

    def write(self) -> None:
        """Writes what there is room for."""
        self.printed.write()
        self.check()

    def finish(self, is_given_up: Callable[[], bool]) -> None:
        """Waits until standard output has taken all, or nobody waits for that any more."""
        while self.printed.waiting and not is_given_up():
            self.write_on()
            self.loop.turn(None)
        if self.printed.waiting:
            self.printed.fail()
        self.write_on()
        self.check()
