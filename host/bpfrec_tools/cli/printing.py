"""What a tool prints: texts on standard output, lines on standard error."""

from __future__ import annotations

import errno
import os
import sys
from typing import Callable, Iterable, Iterator

# So many letters go out at once: a pipe takes a shorter text as a whole, also where its reader leaves early.
PART_LEN = 1 << 15

# What is done before a text is printed: a line of progress is emptied.
before_text: Callable[[], None] = lambda: None


def out(text: str) -> None:
    """Prints a text on standard output, at once."""
    out_parts([text])


def grouped(parts: Iterable[str]) -> Iterator[str]:
    """The same text in fewer parts, each but the last of PART_LEN letters or more."""
    held: list[str] = []
    length = 0
    for part in parts:
        held.append(part)
        length += len(part)
        if length >= PART_LEN:
            yield "".join(held)
            held, length = [], 0
    yield "".join(held)


def out_parts(parts: Iterable[str]) -> None:
    """Prints a text that is made part by part, of which the whole isn't held."""
    before_text()
    try:
        if sys.stdout is None:
            raise OSError(errno.EBADF, os.strerror(errno.EBADF))
        for part in grouped(parts):
            sys.stdout.write(part)
        sys.stdout.flush()
    except OSError as error:
        error.filename = "-"
        raise


def err(line: str) -> None:
    """Prints a line on standard error; one that it can't take is left out, since there is nowhere to say so."""
    before_text()
    try:
        print(line, file=sys.stderr, flush=True)
    except OSError:
        silence(2)


def silence(stream: int) -> None:
    """Puts the null device in the place of a stream, so that what it couldn't take isn't tried again at the end."""
    try:
        null = os.open(os.devnull, os.O_WRONLY)
    except OSError:
        # Descriptors are short.
        return
    os.dup2(null, stream)
    os.close(null)


def hold_streams() -> None:
    """Fills the place of each standard stream that is closed, so that no file is opened there. What is written to such
    a stream fails, since the null device is opened to be read."""
    for stream in range(3):
        try:
            os.fstat(stream)
        except OSError:
            os.open(os.devnull, os.O_RDONLY)
