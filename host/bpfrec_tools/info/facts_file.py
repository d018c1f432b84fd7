"""The facts beside a recording, RECORDING.json, as info tells them."""

from __future__ import annotations

import os
import stat
from typing import NamedTuple, Optional

from bpfrec.formats import facts
from bpfrec.formats.clock_state import ClockState, state_in
from bpfrec.formats.names import facts_path
from bpfrec_tools.cli import printing
from bpfrec_tools.cli.arguments import name_of

# The moments of which the facts say how right the clock was, with their names for people.
MOMENTS = {"begin": "beginning", "end": "end"}


class FactsFile(NamedTuple):
    """The facts beside a recording, and the file that has them."""

    path: str
    known: facts.Facts

    def clocks(self) -> dict[str, ClockState]:
        """How right the clock was, at the moments of which the facts say it."""
        told = self.known.synchronisation
        found = told if isinstance(told, dict) else {}
        return {moment: state_in(found[moment]) for moment in MOMENTS if isinstance(found.get(moment), dict)}


def facts_beside(recording: str) -> Optional[FactsFile]:
    """The facts beside a recording; None where there are none, or where they are none, which is told."""
    path = facts_path(recording)
    if not os.path.exists(path):
        return None
    try:
        if not stat.S_ISREG(os.stat(path).st_mode):
            raise facts.NoFacts("it is no regular file")
        found = FactsFile(path, facts.read(path))
    except (OSError, facts.NoFacts) as error:
        why = error.strerror if isinstance(error, OSError) else error
        printing.err(f"{name_of('info')}: {path}: no facts of a recording: {why}")
        return None
    if found.known.is_scale_unsaid:
        printing.err(f"{name_of('info')}: {path}: {facts.SCALE_UNSAID}")
    return found


def interface_of(channel: int, beside: Optional[FactsFile]) -> str:
    """The interface that was a channel, with the channel's name, by the facts; nothing where it isn't known."""
    return "" if beside is None else facts.on_a_line(beside.known.shown_name(channel) or "")


def span_of(channel: int, beside: Optional[FactsFile]) -> Optional[int]:
    """How old a packet of a channel gets, in ticks, and 0 for none; None where it isn't known."""
    return None if beside is None else beside.known.spans.get(channel)


def utc_at(counter: Optional[int], beside: Optional[FactsFile]) -> Optional[str]:
    """The UTC time of a counter, by the facts; None where it isn't known, or its scale isn't."""
    origin = None if beside is None or counter is None else beside.known.origin_at(counter)
    return time_of(counter, beside) if origin and origin.scale else None


def time_of(counter: Optional[int], beside: Optional[FactsFile]) -> Optional[str]:
    """The time of a counter, by the facts, as people read it; None where it isn't known."""
    return None if beside is None or counter is None else beside.known.time_of(counter)
