"""The records of packets: a filter's program, and the end of a channel."""

from __future__ import annotations

import struct
from typing import NamedTuple, Union

from bpfrec.formats.body import BadBody
from bpfrec.formats.limits import (
    END_RECORD,
    END_RECORD_LEN,
    INSN_LEN,
    PROGRAM_HEAD_LEN,
    PROGRAM_RECORD,
    RECORD_TAG,
    TAGGED_HEAD_LEN,
)

PROGRAM, END = struct.Struct("<HHIQHH"), struct.Struct("<HHQQ")


class Program(NamedTuple):
    """A version of a channel's filter: its number, the first frame that met it, and its instructions as stored."""

    channel: int
    version: int
    first: int
    insns: bytes


class End(NamedTuple):
    """The end of a channel: how many frames it was offered, and how many were kept."""

    channel: int
    offered: int
    kept: int


def record_in(data: bytes) -> Union[Program, End, None]:
    """What a record is; None where it has no tag."""
    if data[4:8] != RECORD_TAG:
        return None
    if len(data) < TAGGED_HEAD_LEN:
        raise BadBody
    kind, channel = struct.unpack_from("<HH", data, 8)
    if kind not in (PROGRAM_RECORD, END_RECORD) or channel == 0:
        raise BadBody
    return end_in(data) if kind == END_RECORD else program_in(data)


def end_in(data: bytes) -> End:
    """The record of a channel's end."""
    if len(data) != END_RECORD_LEN:
        raise BadBody
    _, channel, offered, kept = END.unpack_from(data, 8)
    return End(channel, offered, kept)


def program_in(data: bytes) -> Program:
    """The record of a program."""
    if len(data) < PROGRAM_HEAD_LEN:
        raise BadBody
    _, channel, version, first, count, _ = PROGRAM.unpack_from(data, 8)
    if len(data) != PROGRAM_HEAD_LEN + INSN_LEN * count:
        raise BadBody
    return Program(channel, version, first, data[PROGRAM_HEAD_LEN:])
