"""Times as users write them: of a day, as 23:36:10.5, and moments, as seconds since 1970 or 2025-12-01T12:00:00.25Z."""

from __future__ import annotations

import argparse
import re
import time
from typing import Optional

from bpfrec.formats.limits import NANOSECONDS_A_SECOND, NANOSECONDS_A_TICK
from bpfrec_tools.cli.quantities import MAX_SECONDS, parts

TIME = re.compile(r"([01][0-9]|2[0-3]):([0-5][0-9]):([0-5][0-9])(?:\.([0-9]{1,9}))?")
# What reads a time that is waited for, as 0.5, 500ms or 10min.
some_seconds = parts(0.001, MAX_SECONDS, f"from 0.001 to {MAX_SECONDS}, in seconds, or as 500ms or 10m")
A_DAY = 86_400 * NANOSECONDS_A_SECOND


def time_of_day(word: str) -> Optional[int]:
    """The nanoseconds from midnight to the time that a word is; None where it is none."""
    found = TIME.fullmatch(word)
    if not found:
        return None
    seconds = int(found[1]) * 3_600 + int(found[2]) * 60 + int(found[3])
    return seconds * NANOSECONDS_A_SECOND + int((found[4] or "").ljust(9, "0"))


def first_from(time: int, moment: int) -> int:
    """The first moment with this time that isn't before another one; both in nanoseconds since 1970."""
    return moment + (time - moment) % A_DAY


def last_to(time: int, moment: int) -> int:
    """The last moment with this time that isn't behind another one."""
    return moment - (moment - time) % A_DAY


MOMENT = re.compile(
    r"(?:([0-9]{1,10})|([0-9]{4}-[0-9]{2}-[0-9]{2}T[0-9]{2}:[0-9]{2}:[0-9]{2}))(?:\.([0-9]{1,9}))?(Z?)\Z"
)


def moment_of(word: str) -> int:
    """Nanoseconds since 1970 of `zero`, `now`, seconds since 1970 or a time as 2025-12-01T12:00:00.25Z."""
    if word == "zero":
        return 0
    if word == "now":
        now = time.time_ns()
        return now - now % NANOSECONDS_A_TICK
    if time_of_day(word) is not None:
        why = "has no date, and no facts give one here"
        raise argparse.ArgumentTypeError(f"{word} {why}: it takes that too, as 2025-12-01T{word}Z")
    found = MOMENT.match(word)
    if not found or bool(found[2]) != bool(found[4]):
        raise argparse.ArgumentTypeError(f"{word} is no time")
    # Here, since few moments are dates.
    from calendar import timegm

    try:
        seconds = int(found[1]) if found[1] else timegm(time.strptime(found[2], "%Y-%m-%dT%H:%M:%S"))
    except ValueError:
        raise argparse.ArgumentTypeError(f"{word} is no time") from None
    if seconds < 0 or found[2] and found[2][17:] > "59":
        raise argparse.ArgumentTypeError(f"{word} is no time")
    return seconds * NANOSECONDS_A_SECOND + int((found[3] or "").ljust(9, "0"))
