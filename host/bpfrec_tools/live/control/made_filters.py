"""Filters that lines give in words: programs make listings of them, and the lines behind wait."""

from __future__ import annotations

import subprocess
from functools import partial
from pathlib import Path
from typing import Callable, Optional, Sequence

from bpfrec_tools.live.parts import children
from bpfrec_tools.live.parts.expressions import NO_TCPDUMP, arguments_for, fault_of
from bpfrec_tools.live.parts.loop import Loop

# Starts a program, whose output and errors go to two files, and calls with its status.
Start = Callable[[Sequence[str], Path, Path, Callable[[int], None]], None]


class MadeFilter:
    """A filter that is made: the file of its listing once it is there, and what is wrong with it if it can't be."""

    def __init__(self, listing: Path) -> None:
        self.listing = listing
        self.errors = Path(f"{listing}.errors")
        self.has_ended = False
        self.fault: Optional[str] = None

    def end(self, arguments: list[str], status: int) -> None:
        """The program has ended that makes it."""
        self.has_ended = True
        if status != 0:
            errors = self.errors.read_bytes() if self.errors.exists() else b""
            self.fault = fault_of(arguments, status, errors)
            self.listing.unlink(missing_ok=True)
        self.errors.unlink(missing_ok=True)

    def refuse(self, fault: str) -> None:
        """It can't be made."""
        self.has_ended, self.fault = True, fault


def make(text: str, listing: Path, bpfrec: str, start: Start) -> MadeFilter:
    """Has a program make the listing of a filter in words."""
    made = MadeFilter(listing)
    arguments = arguments_for(text, bpfrec)
    if arguments is None:
        made.refuse(NO_TCPDUMP)
        return made
    try:
        start(arguments, made.listing, made.errors, partial(made.end, arguments))
    except OSError as error:
        made.refuse(f"{error.strerror}")
    return made


class Maker:
    """Makes listings by `bpfrec` and tcpdump; each program has `everybody` open, as all that live starts."""

    def __init__(self, loop: Loop, bpfrec: str, everybody: int) -> None:
        self.loop, self.bpfrec, self.everybody = loop, bpfrec, everybody

    def make(self, text: str, listing: Path) -> MadeFilter:
        """Has the listing of a filter in words made."""
        return make(text, listing, self.bpfrec, self.start)

    def start(self, arguments: Sequence[str], out: Path, errors: Path, ended: Callable[[int], None]) -> None:
        """Starts a program that makes a listing; what waits for it goes on when it has ended."""
        with open(out, "wb") as printed, open(errors, "wb") as told:
            manner = children.Manner([self.everybody])
            child = children.start(arguments, (subprocess.DEVNULL, printed, told), manner)
        self.loop.follow(child, ended)
