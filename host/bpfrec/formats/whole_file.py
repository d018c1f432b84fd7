"""What a whole Chapter 11 file says of its channels and its times, as the facts of a recording say it: by its setup record
and its time packets. What of them can't be read isn't known; nothing is judged."""

from __future__ import annotations

import re
from datetime import datetime, timedelta
from typing import Any, NamedTuple, Optional

from bpfrec.formats.facts import EPOCH, Facts, seconds_of, tick_of
from bpfrec.formats.limits import HEADER_LEN, MAX_HOST_LEN, NANOSECONDS_A_TICK
from bpfrec.formats.limits import SETUP as SETUP
from bpfrec.formats.packet import SYNC, Header, data_of, has_right_sum, header_of

INDEX, TIME = 0x03, 0x11
# The word of a setup record: RCC 106-17, in ASCII. Its lines, whose names end at their first colon.
WORD, WORD_LEN = bytes((0x0C, 0, 0, 0)), 4
LINE_END, LINES = ";\r\n", re.compile(r"(?:[ -9<-~]+:[ -:<-~]*;\r\n)*")
CHANNEL_LINE, OF_FRAMES = re.compile(r"R-1\\TK1-([0-9]{1,5})"), "ETHIN"
# What a channel is called that has a name beside its interface.
NAMED = re.compile(r"(.+) \((.+)\)")
# Of the word of a time packet: a real-time clock, with day, month and year.
CLOCK_BITS, CLOCK = 0x2F0, 0x230
WHOLE_SECONDS = len("2025-12-01T12:00:00")
TIME_LEN, HUNDREDTH, TICKS_A_HUNDREDTH = 12, timedelta(milliseconds=10), 100_000


class Unknown(Exception):
    """A setup record or a time packet can't be read."""


class Setup:
    """What a setup record says. Names that stand twice have the first value."""

    def __init__(self, data: bytes) -> None:
        text = data[WORD_LEN:].decode("latin-1")
        if data[:WORD_LEN] != WORD or not LINES.fullmatch(text):
            raise Unknown
        lines = (it.partition(":") for it in text.split(LINE_END)[:-1])
        self.values = dict((name, value) for name, _, value in reversed([*lines]))
        self.host, self.program = self.values.get("G\\DSI-1"), self.values.get("R-1\\R1")
        self.is_external = self.values.get("R-1\\TSRC-1") == "E"
        # The names of the channels of frames.
        self.names: dict[int, str] = {}
        for name, value in self.values.items():
            found = CHANNEL_LINE.fullmatch(name)
            if found and value.isdecimal() and self.values.get(f"R-1\\CDT-{found[1]}") == OF_FRAMES:
                self.names[int(value)] = self.name_of(found[1])

    def name_of(self, number: str) -> str:
        """The name of the channel with this number in the text."""
        return self.values.get(f"R-1\\ENAM-{number}-1") or self.values.get(f"R-1\\DSI-{number}") or ""


class Clock(NamedTuple):
    """What a time packet says: at this counter it is that many ticks since 1970, UTC."""

    counter: int
    moment: int

    def zero(self) -> int:
        """The time of counter 0, in ticks since 1970."""
        return self.moment - self.counter


def clock_in(counter: int, data: bytes) -> Clock:
    """What a time packet says: its decimal digits stand from the last byte on."""
    digits = data[: WORD_LEN - 1 : -1].hex()
    is_clock = len(data) == TIME_LEN and int.from_bytes(data[:2], "little") & CLOCK_BITS == CLOCK
    if not is_clock or not digits.isdecimal():
        raise Unknown
    try:
        moment = datetime.strptime(digits[:-2], "%Y%m%d%H%M%S")
    except ValueError:
        raise Unknown from None
    return Clock(counter, ((moment - EPOCH) // HUNDREDTH + int(digits[-2:])) * TICKS_A_HUNDREDTH)


class WholeFile:
    """The setup record and the time packets of a whole file, as far as they were read."""

    def __init__(self) -> None:
        self.setup: Optional[Setup] = None
        # The time packets at which another origin begins to hold, of which the first is the first of all; and the last one.
        self.clocks: list[Clock] = []
        self.clock: Optional[Clock] = None

    def take(self, header: Header, packet: bytes) -> bool:
        """Takes a setup record or a time packet: whether it can be read."""
        data = data_of(header, packet)
        try:
            if not header.has_checksum() or not has_right_sum(packet):
                raise Unknown
            if header.kind == SETUP:
                self.setup = self.setup or Setup(data)
            else:
                self.take_clock(clock_in(header.counter, data))
        except Unknown:
            return False
        return True

    def take_clock(self, clock: Clock) -> None:
        """Takes what a time packet says; most agree with the one before."""
        self.clock = clock
        if not self.clocks or self.clocks[-1].zero() != clock.zero():
            self.clocks.append(clock)

    def names(self) -> dict[int, str]:
        """The names of the channels of frames."""
        return self.setup.names if self.setup else {}

    def name_of(self, channel: int) -> str:
        """The name of a channel by the setup record; nothing where it has none."""
        return self.names().get(channel, "")

    def ticks_of(self, counter: int) -> Optional[int]:
        """The time of a counter by the last time packet, in ticks since 1970; None ahead of the first."""
        return None if self.clock is None else self.clock.zero() + counter

    def facts(self) -> Optional[Facts]:
        """The same as the facts of a recording; None without a time packet."""
        if not self.clocks:
            return None
        # The first holds from counter 0 on, wherever the first time packet stands.
        counters = [0, *(it.counter for it in self.clocks[1:])]
        origins = [
            {"origin": seconds_of(it.zero() * NANOSECONDS_A_TICK), "counter": at}
            for at, it in zip(counters, self.clocks)
        ]
        interfaces: list[dict[str, Any]] = [
            {"channel": number, **called(name)} for number, name in self.names().items()
        ]
        said: dict[str, Any] = {"facts": 1, "origins": origins, "losses": [], "interfaces": interfaces}
        said["begun"] = f"{time_text(self.clocks[0].moment)[:WHOLE_SECONDS]}Z"
        host, program = (self.setup.host, self.setup.program) if self.setup else (None, None)
        return Facts({**said, "host": (host or "")[:MAX_HOST_LEN], "program": program or ""})


def called(shown: str) -> dict[str, str]:
    """The interface of a channel of the setup record, and its name where it has one."""
    found = NAMED.fullmatch(shown)
    return {"name": found[1], "interface": found[2]} if found else {"interface": shown}


def is_own(kind: int) -> bool:
    """Whether packets of a type are setup records or time packets."""
    return kind in (SETUP, TIME)


def begins_whole_file(head: bytes) -> bool:
    """Whether these first bytes of a file are the header of a setup record, as no recording has it."""
    return len(head) >= HEADER_LEN and head[:2] == SYNC and header_of(head[:HEADER_LEN]).is_setup()


def time_text(ticks: Optional[int]) -> str:
    """A time in ticks since 1970 as UTC; `-` where there is none, or of no year that has four digits."""
    try:
        return "-" if ticks is None else tick_of(ticks * NANOSECONDS_A_TICK)
    except OverflowError:
        return "-"
