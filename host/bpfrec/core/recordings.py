"""Recordings that are read as one: of which recorder and run each is, the IDs of channels that meet, and one clock."""

from __future__ import annotations

import os
from itertools import count
from typing import Iterable, NamedTuple, Optional, Union

from bpfrec.core.index import Index
from bpfrec.core.times import Times
from bpfrec.formats.facts import Facts, Origin


class Run(NamedTuple):
    """A run of a recorder, whose recordings have one host, one first origin and the same interfaces, by their facts."""

    host: str
    origin: str
    interfaces: tuple[tuple[int, str], ...] = ()


def run_of(facts: Facts) -> Run:
    """The run of a recording, by its facts."""
    # As the origin was noted: its scale may have come to be known since.
    return Run(facts.host, facts.origins[0].text, tuple(sorted(facts.interfaces.items())))


class Recorder(NamedTuple):
    """What recorded a channel: the host and its interface, by the facts; a run, where the channel has a feed; or an
    unknown one, of a recording alone."""

    source: str
    interface: Union[str, Run]


class Recording:
    """A recording: what it has, and its times."""

    def __init__(self, index: Index, times: Times) -> None:
        self.index, self.times, self.facts, self.path = index, times, times.facts, index.path

    def interface_of(self, channel: int) -> Optional[str]:
        """The interface that was a channel, by the facts."""
        return self.facts.interfaces.get(channel) if self.facts else None

    def name_of(self, channel: int) -> Optional[str]:
        """What a channel is called, by the facts."""
        return self.facts.shown_name(channel) if self.facts else None

    def recorder_of(self, channel: int) -> Recorder:
        """What recorded a channel. Recordings without facts may be of any recorders."""
        if self.facts is None:
            return Recorder(os.path.basename(self.path), self.path)
        return Recorder(self.facts.host, self.interface_of(channel) or self.run())

    def run(self) -> Run:
        """The run that it is of."""
        return Run(self.path, self.times.known[0].text) if self.facts is None else run_of(self.facts)

    def channels_of(self, asked: Union[int, str]) -> set[int]:
        """The channels of an ID, of an interface, of a name, or of what they are called with their host."""
        facts = self.facts
        return {it for it in self.index.channels if (facts.is_called(it, asked) if facts else it == asked)}


def last_moments(recordings: Iterable[Recording]) -> dict[Run, int]:
    """The moment of counter 0 of each run, by the last origin that any of its recordings knows: a clock that is set is
    right from then on."""
    known: dict[Run, list[Origin]] = {}
    for recording in recordings:
        known[recording.run()] = max(known.get(recording.run(), []), recording.times.known, key=how_much_is_known)
    return {run: origins[-1].moment for run, origins in known.items()}


def how_much_is_known(origins: list[Origin]) -> tuple[int, int]:
    """How much a list of a run's origins says: how many it has, and of how many the scale is known."""
    return len(origins), sum(it.scale is not None for it in origins)


def unique_ids(ids: Iterable[int]) -> list[int]:
    """The IDs of channels that have these in their recordings: the first of an ID keeps it, and each other one gets the
    lowest ID that no recording has."""
    every = list(ids)
    had, kept = set(every), set()
    free = (it for it in count(1) if it not in had)
    found = []
    for number in every:
        found.append(next(free) if number in kept else number)
        kept.add(number)
    return found
