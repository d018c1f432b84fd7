"""The times of a recording's counters, by its facts, and the counters between two times."""

from __future__ import annotations

from bisect import bisect_left, bisect_right
from typing import NamedTuple, Optional

from bpfrec.core.index import Place
from bpfrec.formats.body import Range
from bpfrec.formats.facts import TURN, Facts, Origin
from bpfrec.formats.limits import MAX_COUNTER, NANOSECONDS_A_TICK

# Without facts times are those since counter 0, which a capture has as times since 1970.
NO_ORIGIN = Origin("0.000000000", 0, 0, None)


class Time(NamedTuple):
    """A time in nanoseconds: since 1970 UTC, or since counter 0."""

    nanoseconds: int
    is_absolute: bool = True


class Times:
    """The times of a recording's counters; `source` is what says them."""

    def __init__(self, facts: Optional[Facts], source: str = "its facts") -> None:
        self.facts, self.source = facts, source
        # The origins that hold for some counter, and all that are known.
        self.origins = [NO_ORIGIN] if facts is None else facts.holding
        self.known = [NO_ORIGIN] if facts is None else facts.origins

    def are_known(self) -> bool:
        """Whether all times are UTC."""
        return self.facts is not None and self.facts.are_all_utc()

    def ranges(self, since: Optional[Time], until: Optional[Time]) -> list[Range]:
        """The counters whose times are from one on and before another, of each origin."""
        ends = [it.counter for it in self.origins[1:]] + [MAX_COUNTER + 1]
        found = []
        for origin, end in zip(self.origins, ends):
            low = origin.counter if since is None else max(counter_at(since, origin), origin.counter)
            high = end if until is None else min(counter_at(until, origin), end)
            if low < high:
                found.append(Range(low, high))
        return found


class Order:
    """By what frames and marks of a recording are sorted: their moments, as if the last moment of counter 0 had always
    been that, but for the turns of counters: no clock is set by as much as half of one."""

    def __init__(self, times: Times, last: int) -> None:
        self.moments = [last + (it.moment - last + TURN // 2) // TURN * TURN for it in times.origins]
        self.counters = [it.counter for it in times.origins[1:]]

    def of(self, counter: int) -> int:
        """Where a counter stands."""
        return self.moments[bisect_right(self.counters, counter)] + counter * NANOSECONDS_A_TICK


def counter_at(time: Time, origin: Origin) -> int:
    """The first counter that is not before a time, by an origin."""
    nanoseconds = time.nanoseconds - origin.moment if time.is_absolute else time.nanoseconds
    return -(-nanoseconds // NANOSECONDS_A_TICK)


def places_in(packets: list[Place], ranges: list[Range]) -> list[Place]:
    """The packets of a channel that may have frames in these ranges: all, where their first counters don't rise."""
    firsts = [it.first for it in packets]
    if any(a > b for a, b in zip(firsts, firsts[1:])):
        return packets
    found: set[int] = set()
    for low, high in ranges:
        # The packet before may end with frames of the same counter as the first of the next.
        found.update(range(max(bisect_left(firsts, low) - 1, 0), bisect_left(firsts, high)))
    return [packets[it] for it in sorted(found)]
