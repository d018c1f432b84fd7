"""What can be wrong with a recording or with its facts."""

from __future__ import annotations

from dataclasses import dataclass


@dataclass(frozen=True)
class Fault:
    """A damaged place of a recording: the place of its first byte, the kind of damage as `bpfrec list` names it (as
    `DataChecksum` or `Truncated`), and how many bytes are left out. A setup record or a time packet of a whole file that
    can't be read is `Setup` or `Time`."""

    path: str
    place: int
    kind: str
    length: int


class Error(Exception):
    """What this package raises of a recording; wrong arguments are a ValueError or a TypeError of Python's."""

    def __init__(self, path: str, why: str) -> None:
        super().__init__(path, why)
        self.path, self.why = path, why

    def __str__(self) -> str:
        return f"{self.path}: {self.why}"


class Damaged(Error):
    """A place of a recording is damaged. `skip_damage=True` of `bpfrec.open` goes on behind such places."""

    def __init__(self, path: str, place: int, kind: str, length: int) -> None:
        super().__init__(path, f"{kind} at byte {place}")
        self.args = path, place, kind, length
        self.place, self.kind, self.length = place, kind, length


class NotARecording(Error):
    """A file that doesn't begin as a recording; one that is damaged at its very beginning is read with
    `skip_damage=True`, if a packet is found in it."""


class BadFacts(Error):
    """A file of facts that isn't one, by which no frame can have a time."""

    def __str__(self) -> str:
        return f"{self.path}: no facts of a recording: {self.why}"


class NoTimes(Error):
    """Frames of a recording were asked for by time, and nothing says when they came: it has no facts, or these don't
    know the scale of its times."""

    def __str__(self) -> str:
        return f"{self.path}: {self.why}, so its frames have no times"


class UnknownChannel(Error, LookupError):
    """A channel was asked for that no recording has."""
