"""What packets of a whole file hold: times, frames, and the records of programs and ends."""

from __future__ import annotations

import datetime
import struct
from typing import NamedTuple, Optional

from second.packets import Packet, Wrong

EPOCH = datetime.date(1970, 1, 1).toordinal()
# Ticks of the counter, of 100 ns, and hundredths of a second, in which time packets say the time.
TICKS_A_SECOND, TICKS_A_HUNDREDTH, HUNDREDTHS_A_SECOND, SECONDS_A_DAY = 10_000_000, 100_000, 100, 86_400
# The years that a time packet has digits for.
MOST_YEAR = 3_999
# The word of a time packet: the format of a real-time clock, and a date with day, month and year; what else it may say.
TIME_WORD, LEAP_YEAR, EXTERNAL = 0x230, 1 << 8, 1
TIME_LEN, HEAD_LEN, WORD_LEN = 12, 12, 4
# How far from the first frame of a packet its last one may be.
PACKET_TICKS = 1_000_000
TAG, PROGRAM, END = b"CBPR", 1, 2
PROGRAM_LEN, END_LEN, INSN_LEN = 28, 28, 8


class Clock(NamedTuple):
    """What a time packet says: at this counter it is that many hundredths of a second since 1970, UTC; and whether an
    outside source held the clock."""

    counter: int
    hundredths: int
    is_external: bool

    def zero(self) -> int:
        """The time of counter 0, in ticks since 1970."""
        return self.hundredths * TICKS_A_HUNDREDTH - self.counter

    def ticks(self, counter: int) -> int:
        """The time of a counter, in ticks since 1970."""
        return self.zero() + counter

    def at(self, counter: int) -> Clock:
        """What a time packet at another counter says, where the clock wasn't set."""
        return Clock(counter, self.ticks(counter) // TICKS_A_HUNDREDTH, self.is_external)

    def date_and_time(self) -> str:
        """What it says to the second, as setup records have it."""
        seconds = self.hundredths // HUNDREDTHS_A_SECOND
        date = datetime.date.fromordinal(EPOCH + seconds // SECONDS_A_DAY)
        hour, minute, second = seconds // 3_600 % 24, seconds // 60 % 60, seconds % 60
        return f"{date.month:02}-{date.day:02}-{date.year:04}-{hour:02}-{minute:02}-{second:02}"

    def next_second(self) -> int:
        """The first whole second behind it, in hundredths since 1970."""
        return (self.hundredths // HUNDREDTHS_A_SECOND + 1) * HUNDREDTHS_A_SECOND


class Frame(NamedTuple):
    """A frame of a packet: its counter, and the number of its bytes."""

    counter: int
    length: int


class Record(NamedTuple):
    """A program or an end: its channel; whether it is an end; and whether it has a counter, as all but the end of a
    channel that was offered nothing."""

    channel: int
    is_end: bool
    has_counter: bool


def time_text(ticks: Optional[int]) -> str:
    """A time in ticks since 1970 as UTC; `-` where there is none, or of no year that has four digits."""
    if ticks is None:
        return "-"
    seconds, rest = divmod(ticks, TICKS_A_SECOND)
    days, second = divmod(seconds, SECONDS_A_DAY)
    if not 1 <= EPOCH + days <= datetime.date.max.toordinal():
        return "-"
    date = datetime.date.fromordinal(EPOCH + days).isoformat()
    return f"{date}T{second // 3_600:02}:{second // 60 % 60:02}:{second % 60:02}.{rest:07}Z"


def two_digits(byte: int) -> int:
    """The number of two decimal digits in a byte."""
    if byte >> 4 > 9 or byte & 15 > 9:
        raise Wrong("a digit of the time is over 9")
    return (byte >> 4) * 10 + (byte & 15)


def date_in(low: int, high: int) -> datetime.date:
    """The date that the last two words of a time packet say."""
    year = two_digits(high >> 8) * 100 + two_digits(high & 0xFF)
    month, day = two_digits(low >> 8), two_digits(low & 0xFF)
    try:
        date = datetime.date(year, month, day)
    except ValueError:
        raise Wrong("a time packet has no such date") from None
    if year > MOST_YEAR:
        raise Wrong(f"a time packet of the year {year}")
    return date


def clock_in(packet: Packet) -> Clock:
    """What a time packet says, whose bytes are right."""
    data = packet.data
    if packet.faults:
        raise Wrong("its bytes are wrong")
    if len(data) != TIME_LEN:
        raise Wrong(f"a time packet hasn't {TIME_LEN} bytes of data")
    word, low, high = struct.unpack("<I4xHH", data)
    hundredths, second, minute, hour = map(two_digits, data[4:8])
    date = date_in(low, high)
    is_leap = date.year % 4 == 0 and (date.year % 100 != 0 or date.year % 400 == 0)
    if word & ~EXTERNAL != (TIME_WORD | LEAP_YEAR if is_leap else TIME_WORD):
        raise Wrong(f"the word of a time packet is {word:#x}")
    if max(second, minute) > 59 or hour > 23:
        raise Wrong("a time packet has no such time")
    seconds = (date.toordinal() - EPOCH) * SECONDS_A_DAY + hour * 3_600 + minute * 60 + second
    return Clock(packet.counter, seconds * HUNDREDTHS_A_SECOND + hundredths, bool(word & EXTERNAL))


def frames_in(data: bytes) -> list[Frame]:
    """The frames of a packet, one at least."""
    if len(data) < WORD_LEN:
        raise Wrong("a body of frames has no word")
    (word,) = struct.unpack_from("<I", data)
    if word >> 16:
        raise Wrong(f"the word of a body of frames is {word:#x}")
    frames, at = [], WORD_LEN
    for _ in range(word):
        frame = frame_at(data, at)
        frames.append(frame)
        at += HEAD_LEN + frame.length + frame.length % 2
    if at != len(data) or not frames:
        raise Wrong("frames don't fill their packet")
    return frames


def frame_at(data: bytes, at: int) -> Frame:
    """The frame at a place of a packet's data."""
    if len(data) < at + HEAD_LEN:
        raise Wrong("a frame is cut")
    low, high, zero, word = struct.unpack_from("<IHHI", data, at)
    length = word & 0x3FFF
    end = at + HEAD_LEN + length
    if zero or word >> 14 & 3 or any(data[end : end + length % 2]):
        raise Wrong("a frame has other bits than its word's")
    return Frame(low | high << 32, length)


def frame_faults(counter: int, frames: list[Frame]) -> list[str]:
    """What is wrong with the counters of a packet's frames."""
    counters = [it.counter for it in frames]
    faults = ["the counter isn't the first frame's"] if counters[0] != counter else []
    if counters != sorted(counters):
        faults.append("frames of a packet don't rise")
    elif counters[-1] - counters[0] >= PACKET_TICKS:
        faults.append("frames of a packet span 100 ms")
    return faults


def record_in(data: bytes) -> Record:
    """The record that a packet's data are."""
    if len(data) < HEAD_LEN or data[4:8] != TAG:
        raise Wrong("a record of a kind that isn't known")
    kind, channel = struct.unpack_from("<HH", data, 8)
    if kind not in (PROGRAM, END) or not channel:
        raise Wrong("a record of a kind that isn't known")
    insns = struct.unpack_from("<H", data, 24)[0] if kind == PROGRAM and len(data) >= PROGRAM_LEN else 0
    if len(data) != (END_LEN if kind == END else PROGRAM_LEN + INSN_LEN * insns):
        raise Wrong(f"a record of {len(data)} bytes")
    offered = struct.unpack_from("<Q", data, 12)[0] if kind == END else 1
    return Record(channel, kind == END, offered > 0)
