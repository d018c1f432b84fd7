"""The clock of the second writer of whole Chapter 11 files: the time of a counter, and time packets, where they stand and
what they say."""

import datetime
import struct
from bisect import bisect_right
from typing import Iterable, Iterator, NamedTuple, Optional

TICK, TEN_MS, SECOND, COUNTERS = 100, 10_000_000, 1_000_000_000, 1 << 48
EPOCH = datetime.date(1970, 1, 1).toordinal()
YEARS = range(1, 4_000)


class Rule(NamedTuple):
    """An origin, and the counters that it holds for: from `begin` to below `end`."""

    begin: int
    end: int
    nanoseconds: int

    def time(self, counter: int) -> int:
        return self.nanoseconds + counter * TICK

    def tick(self, moment: int) -> Optional[int]:
        """The tick of a moment, if it has one here."""
        found = -((self.nanoseconds - moment) // TICK)
        return found if self.begin <= found < self.end else None


class Mark(NamedTuple):
    """A time packet: its tick, and the moment that it says."""

    tick: int
    moment: int


def rules_of(origins: Iterable[tuple[int, int]]) -> list[Rule]:
    """The origins that hold for some counter, each with those counters: of a counter and the nanoseconds since 1970 at
    counter 0, as they were noted."""
    held: list[tuple[int, int]] = []
    for number, (counter, origin) in enumerate(origins):
        begin = counter if number else 0
        held = [it for it in held if it[0] < begin] + [(begin, origin)]
    ends = [begin for begin, _ in held[1:]] + [COUNTERS]
    return [Rule(begin, end, origin) for (begin, origin), end in zip(held, ends)]


def marks_of(rules: list[Rule], least: int) -> Iterator[Mark]:
    """The time packets of a recording whose least counter this is, as many as one asks for."""
    at = bisect_right([it.begin for it in rules], least) - 1
    before = rules[at].time(least) // TEN_MS * TEN_MS
    yield from marks_under(rules[at], [before, before + TEN_MS])
    for rule in rules[at + 1 :]:
        yield from marks_under(rule, [-(-rule.time(rule.begin) // TEN_MS) * TEN_MS])


def marks_under(rule: Rule, firsts: list[int]) -> Iterator[Mark]:
    """The first of these moments that has a tick under an origin, and each whole second after it that has one."""
    first = next((it for it in firsts if rule.tick(it) is not None), None)
    moment = first
    while moment is not None and (tick := rule.tick(moment)) is not None:
        yield Mark(tick, moment)
        moment = (moment // SECOND + 1) * SECOND


class Civil(NamedTuple):
    """A moment's date, and its hundredths of a second since midnight."""

    date: Optional[datetime.date]
    hundredths: int

    def date_text(self) -> str:
        assert self.date
        return f"{self.date.month:02}-{self.date.day:02}-{self.date.year:04}"

    def clock(self) -> tuple[int, int, int, int]:
        """Hours, minutes, seconds and hundredths."""
        seconds, hundredths = divmod(self.hundredths, 100)
        return seconds // 3_600, seconds // 60 % 60, seconds % 60, hundredths


def civil(moment: int) -> Civil:
    days, hundredths = divmod(moment // TEN_MS, 8_640_000)
    ordinal = EPOCH + days
    is_known = 1 <= ordinal <= datetime.date(YEARS[-1], 12, 31).toordinal()
    return Civil(datetime.date.fromordinal(ordinal) if is_known else None, hundredths)


def time_body(mark: Mark, is_external: bool) -> bytes:
    """The data of a time packet."""
    said = civil(mark.moment)
    assert said.date
    year = said.date.year
    is_leap = year % 4 == 0 and (year % 100 != 0 or year % 400 == 0)
    hour, minute, second, hundredths = said.clock()
    word = is_external | 3 << 4 | is_leap << 8 | 1 << 9
    digits = [f"{second:02}{hundredths:02}", f"{hour:02}{minute:02}", f"{said.date.month:02}{said.date.day:02}"]
    return struct.pack("<I4H", word, *(int(it, 16) for it in [*digits, f"{year:04}"]))
