"""Recordings that become one Chapter 11 file: which of them follow one another in a run, by their facts, and which are
missing there."""

from __future__ import annotations

import os
from typing import Container, Iterable, NamedTuple, Optional

from bpfrec.core.recordings import Run, run_of
from bpfrec.formats.facts import Facts
from bpfrec_tools.chapter11.networks import Networks
from bpfrec_tools.chapter11.options import cleaned
from bpfrec_tools.check.order import Place, place_of
from bpfrec_tools.cli.streams import Refused

# A run with its name, since recorders of one origin may have one host's name.
NamedRun = tuple[Run, str]


class Recorded(NamedTuple):
    """A recording: its path, its facts, and the network identifiers of its channels."""

    path: str
    facts: Facts
    networks: Networks

    def name(self) -> str:
        """What it was called when it was recorded."""
        return self.facts.recording or os.path.basename(self.path)

    def run(self) -> NamedRun:
        """The run that it is of."""
        return run_of(self.facts), self.place().run

    def place(self) -> Place:
        """Its number in the names of its run."""
        return place_of(self.name())

    def is_next_to(self, before: Recorded) -> bool:
        """Whether it follows another one, and none is missing between them."""
        return before.facts.following == self.name() or self.facts.before == before.name()


def named_run(path: str, facts: Facts) -> NamedRun:
    """The run of a recording."""
    return Recorded(path, facts, Networks()).run()


class Missing(NamedTuple):
    """What is missing behind a recording: its names."""

    behind: str
    names: str


def judge_twice(recordings: list[Recorded]) -> None:
    """Refuses a copy of a recording that is given too: none else has its name, its host and its origin."""
    known: dict[tuple[Run, str], str] = {}
    for it in recordings:
        taken = known.setdefault((run_of(it.facts), it.name()), it.path)
        if taken != it.path:
            raise Refused(f"{it.path}: it is given twice, by its facts, as {taken} too")


def runs_of(recordings: list[Recorded]) -> list[list[Recorded]]:
    """Recordings by their runs, each in its order, at the place of the first of its recordings."""
    places = {it.path: place for place, it in enumerate(recordings)}
    by_run: dict[NamedRun, list[Recorded]] = {}
    for recorded in recordings:
        by_run.setdefault(recorded.run(), []).append(recorded)
    runs = [run for them in by_run.values() for run in parted(sorted(them, key=Recorded.place))]
    return sorted(runs, key=lambda run: min(places[it.path] for it in run))


def parted(recordings: list[Recorded]) -> list[list[Recorded]]:
    """Recordings of one name in their order, parted where one says that none follows it."""
    found: list[list[Recorded]] = []
    run: list[Recorded] = []
    for before, recorded in zip([None, *recordings], recordings):
        if before is None or not (before.facts.following or recorded.is_next_to(before)):
            run = []
            found.append(run)
        run.append(recorded)
    return found


def missing_in(runs: list[list[Recorded]]) -> list[Missing]:
    """What is missing between recordings of runs."""
    pairs = [pair for run in runs for pair in zip(run, run[1:])]
    return [missing_between(*pair) for pair in pairs if not pair[1].is_next_to(pair[0])]


def missing_among(recordings: Iterable[tuple[str, Optional[Facts]]], last: Container[str]) -> list[Missing]:
    """What is missing between recordings at these paths, by their facts, and behind those that are the last of a run."""
    given = list(recordings)
    found = [Recorded(path, facts, Networks()) for path, facts in given if facts]
    # One without facts is there all the same.
    others = {os.path.basename(path) for path, facts in given if not facts}
    return [it for it in [*missing_in(runs_of(found)), *missing_behind(found, last)] if it.names not in others]


def missing_behind(recordings: list[Recorded], last: Container[str]) -> list[Missing]:
    """What is missing behind recordings that are the last of a run."""
    ends = [it for it in recordings if it.path in last and it.facts.following]
    return [Missing(it.path, cleaned(it.facts.following)) for it in ends]


def missing_between(before: Recorded, after: Recorded) -> Missing:
    """What is missing between two recordings: the one that followed, up to the one before the other."""
    first, last = cleaned(before.facts.following), cleaned(after.facts.before)
    return Missing(before.path, f"{first} to {last}" if last not in ("", first) else first)


def missing_text(missing: list[Missing], is_allowed: bool) -> Optional[str]:
    """What the file says of recordings that are missing; None where none is. They are refused unless they may be."""
    if missing and not is_allowed:
        first, *_ = missing
        raise Refused(f"{first.behind}: next missing: {first.names}: --gaps makes a file without it")
    return f"recordings of a run that are missing: {', '.join(it.names for it in missing)}" if missing else None
