"""Recordings of a run, packet by packet, for trials of whole Chapter 11 files: they say yes to the audit where they are
made so."""

import struct
from typing import NamedTuple, Optional

from frames import COMPUTER, FRAMES, PROGRAM, body_of, end_data, insns_of, packet_of, program_data
from joined_file import Table
from packets import packets_in
from whole_file_trials import seconds_of

# 2025-12-01 12:00:00, in nanoseconds since 1970.
MOMENT = 1_764_590_400 * 10**9


def insns_for(letter: str) -> bytes:
    """A program that keeps all, and that its letter tells from others; `-` drops all, and `!` is none."""
    return insns_of((0, 0, 0, ord(letter)), (7 if letter == "!" else 6, 0, 0, letter != "-"))


def program(letter: str, version: int = 0, first: int = 0, counter: int = 0, channel: int = 1) -> bytes:
    return packet_of(0, program_data(channel, version, insns_for(letter), first), 0, COMPUTER, counter, True)


def frames(*counters: int, channel: int = 1) -> bytes:
    body = body_of((it, 0, bytes(60)) for it in counters)
    return packet_of(channel, body, 0, FRAMES, counters[0] if counters else 0, True)


def end(offered: int, kept: Optional[int] = None, counter: int = 0, channel: int = 1) -> bytes:
    data = end_data(channel, offered, offered if kept is None else kept)
    return packet_of(0, data, 0, COMPUTER, counter, True)


def one(letter: str = "a", counter: int = 0, channel: int = 1) -> bytes:
    """A recording of a program and a frame."""
    made = program(letter, counter=counter, channel=channel) + frames(counter, channel=channel)
    return made + end(1, counter=counter, channel=channel)


def run_at(*nanoseconds: int) -> Table:
    """SETUP of recordings that follow one another, each with such an origin since the moment."""
    tables: list[Table] = [{"origin": seconds_of(MOMENT + it)} for it in nanoseconds]
    for before, table in enumerate(tables[1:]):
        table["after"] = before
    return {"recording": tables}


class Record(NamedTuple):
    """A program or an end of a file, with its version and first number, or its counts; a program has its letter."""

    counter: int
    channel: int
    numbers: tuple
    letter: str = ""


def records_in(file: bytes) -> list[Record]:
    """The programs and ends of a file, in order."""
    found = []
    for *_, kind, counter, data in packets_in(file):
        if kind == COMPUTER:
            what, channel = struct.unpack_from("<HH", data, 8)
            if what == PROGRAM:
                found.append(Record(counter, channel, struct.unpack_from("<IQ", data, 12), chr(data[32])))
            else:
                found.append(Record(counter, channel, struct.unpack_from("<QQ", data, 12)))
    return found
