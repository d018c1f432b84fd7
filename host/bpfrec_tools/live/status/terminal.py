"""A terminal on which the table is written again and again in its place, with the lines that are said above it.

Nothing waits for whoever reads the terminal: what it has no room for is left out. What is being typed stands below the
table and stays, as long as the table keeps its height.
"""

from __future__ import annotations

import os
import re
from collections.abc import Sequence
from typing import Optional

from bpfrec_tools.live.status.alarms import Alarm
from bpfrec_tools.live.status.table import columns_of, lines_of
from bpfrec_tools.live.status.view import View

# To the beginning of a line so many above; what clears all behind the cursor, and the rest of a line; what keeps the
# cursor's place and goes back to it.
UP, CLEAR_BELOW, CLEAR_LINE, KEEP, BACK = "\x1b[{}F", "\x1b[J", "\x1b[K", "\x1b7", "\x1b8"
COLOUR = re.compile("\x1b\\[[0-9;]*m")
# A terminal of which nothing is known.
USUAL_SIZE = os.terminal_size((80, 24))


class Terminal:
    """Standard error, where it is a terminal that shows tables. It is opened once more by its name, so that a write
    that it has no room for ends at once and other programs' writes stay as they are."""

    def __init__(self, stream: int = 2, is_quiet: bool = False) -> None:
        self.descriptor = -1
        # The lines that stand there, on a terminal of so many columns, and how many were typed below them; and what is
        # left of a write that was cut.
        self.drawn: list[str] = []
        self.columns = self.typed = 0
        self.rest = b""
        try:
            if not is_quiet and os.isatty(stream) and os.environ.get("TERM", "dumb") != "dumb":
                flags = os.O_WRONLY | os.O_NONBLOCK | os.O_NOCTTY | os.O_CLOEXEC
                self.descriptor = os.open(os.ttyname(stream), flags)
        except OSError:
            self.descriptor = -1

    def is_shown(self) -> bool:
        """Whether there is a table at all; where there is none, lines are said as ever."""
        return self.descriptor >= 0

    def is_of(self, stream: int) -> bool:
        """Whether a table is shown on the terminal that this stream is: then its lines are to go through `say`."""
        try:
            return (
                self.is_shown() and os.isatty(stream) and os.fstat(stream).st_rdev == os.fstat(self.descriptor).st_rdev
            )
        except OSError:
            return False

    def draw(self, view: View, alarms: tuple[Alarm, ...]) -> bool:
        """Writes the table in the place of the last one: whether there was room to begin with it."""
        if not self.is_shown() or not self.flush():
            return False
        size = self.size()
        lines = lines_of(view, alarms, size.columns - 1, size.lines - 1)
        is_same = len(lines) == len(self.drawn) and size.columns == self.columns and not self.typed
        if is_same:
            inside = "".join(f"{it}{CLEAR_LINE}\n" for it in lines)
            self.write(f"{KEEP}{UP.format(len(lines))}{inside}{BACK}")
            self.drawn = lines
        else:
            self.replace([], lines, size.columns)
        return True

    def show(self, lines: Sequence[str]) -> bool:
        """Writes lines in the place of the table, which comes back below them: whether there was room to begin with
        them. What was begun is written to its end before anything else."""
        if not self.is_shown() or not self.flush():
            return False
        self.replace(lines, self.drawn, self.size().columns)
        return True

    def clear(self) -> None:
        """Takes the table away; what was said stays."""
        if self.is_shown() and self.flush():
            self.replace([], [], self.size().columns)

    def note_typed(self) -> None:
        """A line was typed below the table."""
        self.typed += 1 if self.is_shown() else 0

    def close(self) -> None:
        """Ends; a table that is there stays."""
        if self.is_shown():
            self.flush()
            os.close(self.descriptor)
        self.descriptor = -1

    def size(self) -> os.terminal_size:
        """The terminal's size by now."""
        try:
            found = os.get_terminal_size(self.descriptor)
        except OSError:
            return USUAL_SIZE
        return found if found.columns and found.lines else USUAL_SIZE

    def replace(self, said: Sequence[str], lines: list[str], columns: int) -> None:
        """Takes the table away, also where the terminal has become narrower since and broke its lines, and writes what
        is said and another table."""
        rows = sum(max(-(-width_of(it) // columns), 1) for it in self.drawn) + self.typed
        erased = (UP.format(rows) if rows else "") + CLEAR_BELOW
        self.drawn, self.columns, self.typed = lines, columns, 0
        self.write(erased + "".join(f"{it}\n" for it in (*said, *lines)))

    def flush(self) -> bool:
        """Whether nothing is left of what was written before."""
        return not self.rest or self.write("")

    def write(self, text: str) -> bool:
        """Writes as much as there is room for; the rest goes ahead of what comes next."""
        data: Optional[bytes] = self.rest + text.encode("utf-8", "replace")
        while data:
            try:
                data = data[os.write(self.descriptor, data) :]
            except BlockingIOError:
                break
            except OSError:
                # It is gone.
                data = b""
        self.rest = data or b""
        return not self.rest


def width_of(line: str) -> int:
    """How many columns a line takes."""
    return sum(map(columns_of, COLOUR.sub("", line)))
