"""Bytes that came of somebody who sends lines, as lines that are taken one by one."""

from __future__ import annotations

from collections import deque
from typing import Callable, Optional

from bpfrec_tools.live.control.words import mark_in

# So much is read at once.
READ_LEN = 1 << 16


class LineBuffer:
    """The whole lines that nobody has taken yet, how many of them are marks, and the part of one that came last."""

    def __init__(self) -> None:
        self.lines: deque[bytes] = deque()
        self.rest, self.marks = b"", 0

    def put(self, part: bytes) -> None:
        """Takes bytes that came."""
        *lines, self.rest = (self.rest + part).split(b"\n")
        self.lines += lines
        self.marks += sum(mark_in(it) is not None for it in lines)

    def end_line(self) -> None:
        """Takes the last part for a line: no more bytes come, or too many came."""
        if self.rest:
            self.put(b"\n")

    def take(self, may_take: Callable[[], bool]) -> Optional[bytes]:
        """The next line, if one may be taken; else the next mark, which is of this moment."""
        if self.lines and (may_take() or mark_in(self.lines[0]) is not None):
            line = self.lines.popleft()
        elif self.marks:
            line = next(it for it in self.lines if mark_in(it) is not None)
            self.lines.remove(line)
        else:
            return None
        self.marks -= mark_in(line) is not None
        return line

    def clear(self) -> None:
        """Forgets all."""
        self.lines.clear()
        self.rest, self.marks = b"", 0
