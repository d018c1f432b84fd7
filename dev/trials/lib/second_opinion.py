"""The second opinion of host/second/, asked alone: what is wrong with a file, and what a whole file has."""

import io
from pathlib import Path
from typing import BinaryIO, NamedTuple

from second.told import tell


class Opinion(NamedTuple):
    """Whether all is right, and lines: of what is wrong with its place, of each channel, and of all."""

    is_right: bool
    lines: list[str]


def opinion_on(file: BinaryIO, shows_frames: bool = False) -> Opinion:
    """What it says of a file; where frames are shown a line for each stands ahead, with its time in UTC."""
    lines: list[str] = []
    return Opinion(tell(file, lines.append, shows_frames), lines)


def opinion_of(data: bytes, shows_frames: bool = False) -> Opinion:
    """The same of bytes."""
    return opinion_on(io.BytesIO(data), shows_frames)


def opinion_at(path: Path) -> Opinion:
    """The same of the file at a path."""
    with open(path, "rb") as file:
        return opinion_on(file)
