"""Times of the command line, and what a capture needs to know of the times of recordings."""

from __future__ import annotations

import argparse
import re
from typing import NamedTuple, Optional, Union

from bpfrec.core.recordings import Recording
from bpfrec.core.times import Time
from bpfrec.formats.body import Range
from bpfrec.formats.facts import tick_of
from bpfrec.formats.limits import NANOSECONDS_A_SECOND, NANOSECONDS_A_TICK
from bpfrec.formats.pcapng_blocks import MOST_UNITS
from bpfrec_tools.cli.moments import first_from, moment_of, time_of_day
from bpfrec_tools.cli.quantities import MAX_SECONDS, parts
from bpfrec_tools.cli.streams import Refused

SECONDS = re.compile(r"([0-9]{1,12})(?:\.([0-9]{1,9}))?")
# The same with a unit.
moments = parts(0, MAX_SECONDS, "of seconds since counter 0, as 90, 100ms or 1h30m")


class TimeOfDay(NamedTuple):
    """A time of the command line that has no date, in nanoseconds since midnight UTC."""

    nanoseconds: int


NOTHING_BETWEEN = "--to isn't after --from, so no frame lies between them"


# What may stand for a time on the command line.
Asked = Union[Time, TimeOfDay, None]


def time_of(word: str) -> Union[Time, TimeOfDay]:
    """The time that a word is: seconds since counter 0, UTC as 2025-12-01T12:00:00.25Z, or a time of day."""
    of_day = time_of_day(word)
    if of_day is not None:
        return TimeOfDay(of_day)
    found = SECONDS.fullmatch(word)
    if found:
        rest = int((found[2] or "").ljust(9, "0"))
        return Time(int(found[1]) * NANOSECONDS_A_SECOND + rest, False)
    if word[:1].isdigit() and word[-1:].islower():
        return Time(round(moments(word) * NANOSECONDS_A_SECOND), False)
    if not word.endswith("Z"):
        takes = "seconds since counter 0, or UTC with or without its date"
        raise argparse.ArgumentTypeError(f"{word} is no time, as 12.5, 23:36:10 or 2025-12-01T12:00:00.25Z: {takes}")
    return Time(moment_of(word), True)


def refuse_unknown(recording: Recording) -> None:
    """Refuses a recording of which nobody knows the UTC times."""
    if not recording.times.are_known():
        why = "the scale of its times is unknown" if recording.facts else "no facts beside it"
        raise Refused(f"{recording.path}: {why}, so times are seconds since counter 0, as 12.5")


def ranges_of(recording: Recording, since: Optional[Time], until: Optional[Time]) -> list[Range]:
    """The counters of a recording from one time on and before another."""
    if any(it is not None and it.is_absolute for it in (since, until)):
        refuse_unknown(recording)
    return recording.times.ranges(since, until)


def beginning_of(recording: Recording) -> int:
    """When a recording began, in nanoseconds since 1970."""
    refuse_unknown(recording)
    found = recording.facts.beginning() if recording.facts else None
    if found is None:
        raise Refused(f"{recording.path}: its facts don't say when it began, so times have their date, or are seconds")
    return found


def moment_in(recording: Recording, counter: int) -> int:
    """The moment of a counter in nanoseconds since 1970, which a capture must have."""
    moment = recording.facts.moment_of(counter) if recording.facts else counter * NANOSECONDS_A_TICK
    if moment is None:
        raise Refused(f"{recording.path}: counter {counter} is before the first origin of the facts")
    if not 0 <= moment <= MOST_UNITS:
        where = "before" if moment < 0 else "past"
        raise Refused(f"{recording.path}: counter {counter} is {where} the times of a capture")
    return moment


def dated(since: Asked, until: Asked, recordings: list[Recording]) -> tuple[Optional[Time], Optional[Time]]:
    """Both times with their dates: the first such one from the beginning of the first recording on, and of `until` from
    `since` on."""
    if not isinstance(since, TimeOfDay) and not isinstance(until, TimeOfDay):
        return since, until
    first = min(recordings, key=beginning_of)
    begin = on_day(since, beginning_of(first))
    least = beginning_of(first) if begin is None else begin.nanoseconds
    if begin is not None and not begin.is_absolute:
        least += first.times.origins[-1].moment
    return begin, on_day(until, max(least, beginning_of(first)))


def refuse_swapped(since: Asked, until: Asked, begin: Optional[Time], recordings: list[Recording]) -> None:
    """Refuses times of day of which the second is ahead of the first, where all frames are of the day of the first."""
    are_turned = isinstance(since, TimeOfDay) and isinstance(until, TimeOfDay) and until <= since
    spans = [(it, found) for it in recordings if are_turned and (found := counters_of(it))]
    if begin and spans and max(moment_in(it, found.high) for it, found in spans) < first_from(0, begin.nanoseconds):
        raise Refused(NOTHING_BETWEEN)


def counters_of(recording: Recording) -> Optional[Range]:
    """The first and the last counter of a recording, whose headers are read for it, and the last packet of each
    channel; None where it has no frames."""
    index = recording.index
    index.read()
    bodies = [index.body(it.packets[-1]) for it in index.channels.values() if it.packets]
    last = [max(frames.counters) for frames, _ in filter(None, bodies) if frames.counters]
    first = min((it.first for it in index.places), default=0)
    return Range(first, max(last)) if last else None


def refuse_outside(recordings: list[tuple[Recording, list[Range]]]) -> None:
    """Refuses a slice that lies ahead of all frames or behind them, with the time that they have."""
    for recording, ranges in recordings:
        if any(low <= it.first < high for it in recording.index.places for low, high in ranges):
            return
    spans = [(it, found, ranges) for it, ranges in recordings if (found := counters_of(it))]
    if any(low <= found.high and found.low < high for _, found, ranges in spans for low, high in ranges):
        return
    ends = [(moment_in(it, counter), it) for it, found, _ in spans for counter in found]
    first, last = (text_of_end(*found(ends, key=lambda end: end[0])) for found in (min, max)) if ends else ("-", "-")
    raise Refused(f"no frame lies there: the recordings have frames from {first} to {last}")


def text_of_end(moment: int, recording: Recording) -> str:
    """The moment of a frame, as UTC or in seconds since counter 0."""
    return (
        tick_of(moment)
        if recording.facts
        else f"{moment // NANOSECONDS_A_SECOND}.{moment % NANOSECONDS_A_SECOND:09d} s"
    )


def on_day(time: Asked, least: int) -> Optional[Time]:
    """A time with its date, where it had none: the first from a moment on."""
    return Time(first_from(time.nanoseconds, least)) if isinstance(time, TimeOfDay) else time
