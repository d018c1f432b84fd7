"""Recordings and runs, as the machine has them, and the programs that they are made by."""

from __future__ import annotations

from enum import Enum
from typing import NamedTuple, Optional

# A status above this says that a signal ended a program, and which one.
KILLED = 128


def are_rotating(every: Optional[int], size: Optional[int]) -> bool:
    """Whether recordings follow one another, by the seconds and the bytes after which they do."""
    return every is not None or size is not None


class Phase(Enum):
    """Where a recording is in its life."""

    OPENING = "opening"
    GOING = "going"
    HANDING_OVER = "handing over"
    ENDING = "ending"
    REPORTED = "reported"
    AUDITED = "audited"


class Plan(NamedTuple):
    """What a run is to do: whether it has interfaces, after how many seconds and bytes a recording is followed by
    another one, whether recordings are audited, and whether lost frames make a status."""

    has_interfaces: bool
    every: Optional[int] = None
    size: Optional[int] = None
    audits: bool = True
    is_strict: bool = False

    def is_rotating(self) -> bool:
        """Whether recordings follow one another."""
        return are_rotating(self.every, self.size)


class Recording:
    """One recording: what it is called, where it is in its life, whether its output failed or couldn't be forced to
    its disk, whether its recorder was killed and another one follows, whether it has little room for filters; its
    recorder's status once that has ended, and its own once it is audited too."""

    def __init__(self, number: int, out: str) -> None:
        self.number, self.out, self.phase = number, out, Phase.OPENING
        self.has_failed = self.is_unforced = self.was_killed = self.is_used_up = False
        self.status: Optional[int] = None
        self.outcome: Optional[int] = None

    def has_ended(self) -> bool:
        """Whether its recorder has ended."""
        return self.status is not None


class Programs(NamedTuple):
    """The programs that live runs, by their paths."""

    bpfrec: str
    capture: str
