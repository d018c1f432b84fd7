"""What files are called: recordings, those of a run as flight_00001.ch11 and so on for flight.ch11, and what is beside them."""

from __future__ import annotations

import os
from glob import escape, glob
from typing import Iterable, Optional

DIGITS = 5
# What recordings end in, which may be left out of the name of a run.
ENDING = ".ch11"


def facts_path(recording: str) -> str:
    """The file of the facts beside a recording."""
    return f"{recording}.json"


def signature_path(facts: str) -> str:
    """The file of the signature beside facts."""
    return f"{facts}.sig"


def whole_path(recording: str) -> str:
    """The whole Chapter 11 file of a recording."""
    return f"{recording}.ch10"


def control_path(run: str) -> str:
    """The socket by which a run takes lines, beside its recordings."""
    return f"{split(run)[0]}.control"


def files_beside(recording: str) -> tuple[str, str, str]:
    """What may be made beside a recording: its facts, their signature, and its whole Chapter 11 file."""
    return facts_path(recording), signature_path(facts_path(recording)), whole_path(recording)


# ---- runs


def split(path: str) -> tuple[str, str]:
    """A path without its ending, and the ending."""
    folder, file = os.path.split(path)
    stem, dot, ending = file.rpartition(".")
    if not stem:
        stem, dot, ending = file, "", ""
    return os.path.join(folder, stem), f"{dot}{ending}"


def number_in(path: str, stem: str, ending: str) -> Optional[int]:
    """The number of a recording in the names of a run; None where it is none of them."""
    middle = path[len(stem) + 1 : len(path) - len(ending)]
    is_numbered = len(middle) >= DIGITS and middle.isascii() and middle.isdigit()
    return int(middle) if is_numbered and path == f"{stem}_{middle}{ending}" else None


def numbered(stem: str, ending: str) -> list[tuple[int, str]]:
    """The recordings of a run's names that are there, in order."""
    found = [(number_in(path, stem, ending), path) for path in glob(f"{escape(stem)}_*{escape(ending)}")]
    return sorted((number, path) for number, path in found if number is not None)


def all_of(path: str) -> list[str]:
    """The recordings that a path names: itself, or of a run's name all that are numbered, in order; also where the name
    lacks its ending. A path of which nothing is there names itself."""
    if path == "-" or os.path.lexists(path):
        return [path]
    for name in (path, f"{path}{ENDING}"):
        if there := [found for _, found in numbered(*split(name))]:
            return there
    return [f"{path}{ENDING}"] if os.path.lexists(f"{path}{ENDING}") else [path]


def last_of_runs(names: Iterable[str]) -> set[str]:
    """The last recordings of the runs that are given by their names."""
    runs = [(it, all_of(it)) for it in names]
    return {run[-1] for name, run in runs if run != [name]}


class Names:
    """The names of recordings that follow one another: flight_00001.ch11 and so on for flight.ch11."""

    def __init__(self, out: str) -> None:
        self.stem, self.ending = split(out)
        self.number = 0

    def next(self) -> tuple[int, str]:
        """The next number whose name nothing has, nor what is made beside a recording, and that name."""
        while True:
            self.number += 1
            out = f"{self.stem}_{self.number:0{DIGITS}}{self.ending}"
            if not any(os.path.lexists(it) for it in (out, *files_beside(out))):
                return self.number, out

    def give_back(self, number: int) -> None:
        """Has a name be tried again."""
        self.number = min(self.number, number - 1)

    def number_of(self, path: str) -> Optional[int]:
        """The number of a recording in these names; None where it is none of them."""
        return number_in(path, self.stem, self.ending)

    def there(self) -> list[tuple[int, str]]:
        """The recordings of these names that are there, in order."""
        return numbered(self.stem, self.ending)


def names_of(path: str) -> Names:
    """The names of the run that a recording is of: flight_00003.ch11 is one of flight.ch11."""
    whole = Names(path)
    stem, mark, _ = whole.stem.rpartition("_")
    run = Names(f"{stem}{whole.ending}")
    return run if mark and run.number_of(path) is not None else whole
