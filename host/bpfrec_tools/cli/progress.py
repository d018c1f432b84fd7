"""How far a long reading has come: a line on a terminal."""

from __future__ import annotations

import os
import stat
import sys
import time
from typing import Union

from bpfrec_tools.cli import printing
from bpfrec_tools.cli.quantities import duration_text, size_text

# Seconds until the first line, and between two.
FIRST_AFTER, BETWEEN = 2.0, 0.2
# Returns to the line's beginning and empties it.
EMPTY_LINE = "\r\033[K"


class Progress:
    """Tells on standard error, where that is a terminal, how many bytes of `total` are read, how fast, and how long
    the rest takes; nothing in the first two seconds. A total of 0 isn't known."""

    def __init__(self, what: str, total: int, is_quiet: bool = False) -> None:
        self.what, self.total = what, total
        self.is_shown = not is_quiet and is_terminal()
        self.begin = time.monotonic()
        self.next = self.begin + FIRST_AFTER
        self.is_on_line = False

    def __enter__(self) -> "Progress":
        if self.is_shown:
            printing.before_text = self.clear
        return self

    def __exit__(self, *_: object) -> None:
        self.clear()
        if self.is_shown:
            printing.before_text = nothing

    def at(self, done: int) -> None:
        """Tells that so many bytes are read, where it is time for a line."""
        if self.is_shown and time.monotonic() >= self.next:
            self.show(done)

    def show(self, done: int) -> None:
        """Writes the line."""
        now = time.monotonic()
        self.next = now + BETWEEN
        self.write(EMPTY_LINE + self.text(done, now - self.begin)[: width() - 1])
        self.is_on_line = True

    def text(self, done: int, seconds: float) -> str:
        """The line, after so many seconds."""
        rate = done / seconds
        told = f"{self.what}: {size_text(done)}"
        if self.total:
            told += f" of {size_text(self.total)} ({min(100 * done // self.total, 100)} %)"
        told += f", {size_text(rate)}/s"
        if self.total and rate:
            told += f", {duration_text(max(self.total - done, 0) / rate)} left"
        return told

    def clear(self) -> None:
        """Empties the line, so that something else is printed there."""
        if self.is_on_line:
            self.write(EMPTY_LINE)
            self.is_on_line = False

    def write(self, text: str) -> None:
        """Writes to the terminal; where that fails, nothing is shown any more."""
        try:
            sys.stderr.write(text)
            sys.stderr.flush()
        except OSError:
            self.is_shown = False


def nothing() -> None:
    """Does nothing."""


def is_terminal() -> bool:
    """Whether standard error is a terminal that takes a line again."""
    try:
        return sys.stderr is not None and sys.stderr.isatty() and os.environ.get("TERM") != "dumb"
    except (OSError, ValueError):
        return False


def width() -> int:
    """The columns of the terminal."""
    try:
        return os.get_terminal_size(sys.stderr.fileno()).columns or 80
    except (OSError, ValueError):
        return 80


def size_of(file: Union[str, int]) -> int:
    """The bytes of a regular file, by its path or its descriptor; 0 where they aren't known."""
    try:
        found = os.stat(file)
    except OSError:
        return 0
    return found.st_size if stat.S_ISREG(found.st_mode) else 0
