"""The time marks of a feed, and what is asked of them, for trials of the capture."""

import time
from pathlib import Path

from frames import Record, records
from support import CAPTURE, MILLISECOND, Running, judge

TICK = 100
# A span in ticks, of 50 ms, and how long a mark may take from its moment to the feed, on a machine with other work.
SPAN, LATE = 500_000, 300 * MILLISECOND


def begin(work: Path, *words: object, span: int = SPAN, **more: dict) -> Running:
    """Captures rx0 into the pipe one.pipe, with a span of so many ticks."""
    running = Running(work, CAPTURE, "--span", f"rx0={span}", *words, f"rx0={work / 'one.pipe'}", **more)
    running.wait_until_told("origin")
    return running


def marks_of(feed: bytes) -> list[int]:
    return [it.counter for it in records(feed) if not it.frame]


def frames_of(feed: bytes) -> list[Record]:
    return [it for it in records(feed) if it.frame]


def gaps_of(counters: list[int]) -> list[int]:
    return [after - before for before, after in zip(counters, counters[1:])]


def judge_ended(running: Running) -> str:
    """Ends it well; what it told."""
    running.end_well()
    return running.told()


def judge_order(feed: bytes) -> None:
    """No frame has a counter below that of a mark ahead of it, nor a mark one below that of a frame ahead of it."""
    backwards = [it for it in gaps_of([it.counter for it in records(feed)]) if it < 0]
    judge(f"none of {len(marks_of(feed))} marks is ahead of a later frame", not backwards, backwards[:20])


def judge_moments(found: list[int], origin: int, begin_at: int, ahead: int = 0) -> None:
    """Marks go on with the real time until now, from a moment on, by a clock that is ahead of it."""
    moments = [origin + it * TICK - ahead for it in found]
    gaps = gaps_of([begin_at, *moments, time.time_ns()])
    judge("marks go on with the real time", max(gaps) < LATE and moments[-1] < time.time_ns(), sorted(gaps)[-5:])
