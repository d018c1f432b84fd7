"""A machine's two clocks for tests of the capture's clock, and what it tells and notes of them.

Frames have a stamp by the wall clock, and get the moment that it would have said if it hadn't been set.
"""

import json
import re
from pathlib import Path
from typing import Any, NamedTuple, Optional

from c_units import Script, Units
from support import MILLISECOND, SECOND, nanoseconds

TICK, TURN = 100, 2**48 * 100
NOON = 1_764_590_400 * SECOND
YEAR = 31_557_600 * SECOND
LINE = re.compile(r"bpfrec capture: origin (-?\d+)\.(\d{9}) from counter (\d+) on: (.+)")


class Line(NamedTuple):
    """An origin that is told, in nanoseconds, the counter from which on it holds, and why."""

    origin: int
    counter: int
    why: str


def seconds(nanoseconds: int) -> str:
    whole, rest = divmod(abs(nanoseconds), SECOND)
    return f"{'-' if nanoseconds < 0 else ''}{whole}.{rest:09}"


class Clocks(Script):
    """A machine's two clocks, by which the capture goes; its wall clock is set by whoever does."""

    PROGRAM = "clock"

    def __init__(self, work: Path, units: Units) -> None:
        super().__init__(work, units)
        self.steady, self.origin = 1_000 * SECOND, NOON
        self.first_ahead = self.ahead = NOON - self.steady

    def wall(self) -> int:
        return self.steady + self.ahead

    def real(self) -> int:
        """What the wall clock would say if it hadn't been set."""
        return self.steady + self.first_ahead

    def wait(self, time: int, step: int = 0) -> None:
        """Lets time go by, at whose end the clock is set."""
        self.steady += time
        self.ahead += step
        self.ask("time", self.steady, self.wall())

    def start(self, before: int = 0) -> None:
        """Begins a capture whose counters are 0 so long before, and which has had a frame after a second."""
        self.wait(0)
        self.origin = self.wall() - before
        self.ask("start", self.origin)
        assert self.ask("events", self.path) == "1"
        self.wait(SECOND)
        self.frame()

    def look(self, time: int = 0, step: int = 0, is_end: bool = False) -> list[Line]:
        """Looks at the clocks after so long, and what is told then."""
        self.wait(time, step)
        self.ask("look")
        return self.lines(is_end)

    def look_slowly(self, slow: int) -> None:
        """Looks while those reads of the wall clock take 40 ms that are bits of `slow`."""
        self.ask("slow", slow, 40 * MILLISECOND)
        self.ask("look")
        self.ask("slow", 0, 0)
        self.wait(bin(slow).count("1") * 40 * MILLISECOND)

    def frame(self, stamp: Optional[int] = None, interface: int = 0) -> int:
        """The moment of a frame with this stamp, or one of now."""
        return int(self.ask("frame", interface, self.wall() if stamp is None else stamp))

    def counter(self, moment: int) -> int:
        return (moment - self.origin) // TICK % 2**48

    def lines(self, is_end: bool = False) -> list[Line]:
        self.ask("report", int(is_end))
        found = [LINE.fullmatch(it) for it in self.new_lines()]
        return [Line(nanoseconds(it[1], it[2]), int(it[3]), it[4]) for it in found if it]

    def noted(self) -> list[dict[str, Any]]:
        """The origins that are noted, in order."""
        return [json.loads(it) for it in self.path.read_text().splitlines()]

    def judge_times(self, taken: list[tuple[int, int]]) -> None:
        """By the last origin that is noted and holds, frames have the times of their stamps, to a millisecond."""
        noted = self.noted()
        last = {it.get("setting"): place for place, it in enumerate(noted)}
        counted = [it for place, it in enumerate(noted) if "setting" not in it or last[it["setting"]] == place]
        origins = [(self.origin, 0)] + [(nanoseconds(*it["origin"].split(".")), it["counter"]) for it in counted]
        for counter, stamp in taken:
            origin = [origin for origin, holds in origins if holds <= counter][-1]
            assert abs(origin + counter * TICK - stamp) <= MILLISECOND, (counter, stamp, origins)
