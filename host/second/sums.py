"""The sums of a recording: the header checksum of each packet, and each data checksum of 32 bits."""

from __future__ import annotations

import struct
from typing import BinaryIO, Callable, Optional

from second.check import Check

SYNC = 0xEB25
# The type of a setup record, and where a header has it.
SETUP, KIND_AT = 0x01, 15
HEADER, SUM = struct.Struct("<12H"), struct.Struct("<I")
FIELDS = struct.Struct("<4xII2xB")
SECONDARY_BITS, SUM_BITS = 0b1100_0000, 0b0000_0011
# How many bytes of a packet are read at once: whole words.
PIECE = 1 << 16
# What takes a line.
Out = Callable[[str], object]


class Wrong(Exception):
    """Why the reading can't go on."""


def body_len(header: bytes) -> tuple[int, bool]:
    """How many bytes follow this header, and whether the last four are a data checksum that is to be checked."""
    *words, told = HEADER.unpack(header)
    if words[0] != SYNC:
        raise Wrong("no sync pattern")
    if sum(words) % 2**16 != told:
        raise Wrong(f"header checksum {told:04x}, the words add up to {sum(words) % 2**16:04x}")
    packet_len, data_len, flags = FIELDS.unpack_from(header)
    has_sum = flags & SUM_BITS == SUM_BITS
    if packet_len % 4 or packet_len < HEADER.size + data_len + (SUM.size if has_sum else 0):
        raise Wrong(f"lengths {packet_len} {data_len}")
    return packet_len - HEADER.size, has_sum and not flags & SECONDARY_BITS


def data_fault(file: BinaryIO, length: int, is_checked: bool) -> Optional[str]:
    """What is wrong with the data checksum at the end of the next bytes, which are read in pieces; nothing where it is
    right, or isn't checked."""
    added, left, piece = 0, length, b""
    while left:
        piece = file.read(min(left, PIECE))
        if len(piece) < min(left, PIECE):
            raise Wrong("cut")
        left -= len(piece)
        if is_checked:
            added += sum(struct.unpack(f"<{len(piece) // SUM.size}I", piece))
    if not is_checked:
        return None
    (told,) = SUM.unpack(piece[-SUM.size :])
    added = (added - told) % 2**32
    return None if added == told else f"data checksum {told:08x}, the words add up to {added:08x}"


def begins_whole_file(header: bytes) -> bool:
    """Whether a file's first header is that of a setup record."""
    if len(header) < HEADER.size:
        return False
    sync, channel, *_ = HEADER.unpack(header)
    return (sync, channel, header[KIND_AT]) == (SYNC, 0, SETUP)


def check_whole(file: BinaryIO, header: bytes, out: Out) -> bool:
    """The same of a whole Chapter 11 file, whose first header was read."""

    def say(at: int, what: str) -> None:
        out(f"{at} {what}")

    found = Check(say)
    found.read(file, header)
    without = found.packets - found.sums
    out(f"packets {found.packets} data checksums {found.sums} without {without} wrong {found.wrong}")
    return not found.wrong


def check_sums(file: BinaryIO, out: Out) -> bool:
    """Prints what is wrong, and then the counts; whether all is right."""
    header = file.read(HEADER.size)
    if not header:
        out("empty: there is no packet")
    return check_whole(file, header, out) if begins_whole_file(header) else check_recording(file, header, out)


def check_recording(file: BinaryIO, header: bytes, out: Out) -> bool:
    """The same of a recording, whose first header was read."""
    at = packets = sums = wrong = 0
    try:
        while header:
            if len(header) < HEADER.size:
                raise Wrong("cut")
            length, is_checked = body_len(header)
            fault = data_fault(file, length, is_checked)
            if fault:
                out(f"{at} {fault}")
            wrong += fault is not None
            sums += is_checked
            packets += 1
            at += HEADER.size + length
            header = file.read(HEADER.size)
    except Wrong as fault:
        out(f"{at} {fault}")
        wrong += 1
    out(f"packets {packets} data checksums {sums} without {packets - sums} wrong {wrong}")
    return not wrong
