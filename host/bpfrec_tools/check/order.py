"""In which order recordings follow one another: by the run and the number in their names, as flight_00003.ch11."""

from __future__ import annotations

import os
import re
from typing import NamedTuple

# A file's name has 255 bytes at most.
NUMBERED = re.compile(r"(.*)_([0-9]{5,255})(\.[^.]*)?", re.DOTALL)


class Place(NamedTuple):
    """The run that a recording is of, by its name without the number, and its number there; 0 where it has none."""

    run: str
    number: int


def place_of(path: str) -> Place:
    """The place of a recording by its base name, in whichever folder it is."""
    name = os.path.basename(path)
    found = NUMBERED.fullmatch(name)
    return Place(f"{found[1]}{found[3] or ''}", int(found[2])) if found else Place(name, 0)


def in_order(paths: list[str]) -> list[str]:
    """Recordings by their runs, and in each run by their numbers."""
    return sorted(paths, key=lambda path: (place_of(path), path))


class Given(NamedTuple):
    """A recording that was judged: its name and its hash."""

    name: str
    digest: str


class Chain:
    """The recordings that may be the one before another. They are several where folders have recordings of one name."""

    def __init__(self) -> None:
        self.place = Place("", 0)
        self.before: list[Given] = []
        self.current: list[Given] = []

    def move_to(self, place: Place) -> None:
        """Goes on to the next recording in order; the first of a run has none before it."""
        if place.run != self.place.run:
            self.before, self.current = [], []
        elif place.number != self.place.number:
            self.before, self.current = self.current, []
        self.place = place
