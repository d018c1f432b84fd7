"""The blocks of a pcapng file of Ethernet that is written: a section, its interfaces, and their frames."""

from __future__ import annotations

import struct
from typing import Iterable, Optional

from bpfrec.formats.limits import CHECK_SEQUENCE_LEN, MARK_CHECK_SEQUENCE, MARK_OTHER_FAULT

OPTION_END, OPTION_COMMENT = 0, 1
OPTION_PROGRAM = 4
OPTION_NAME, OPTION_DESCRIPTION = 2, 3
LINK_TYPE_ETHERNET = 1
BLOCK_HEAD_LEN = 8
BLOCK_TAIL_LEN = 4
BYTE_ORDER_MAGIC = 0x1A2B3C4D
FLAG_WRONG_CHECK_SEQUENCE = 1 << 24
INTERFACE_BLOCK = 1
OPTION_CHECK_SEQUENCE_LEN = 13
OPTION_PACKET_FLAGS = 2
OPTION_RESOLUTION = 9
PACKET_BLOCK = 6
SECTION_BLOCK = 0x0A0D0D0A
MAX_OPTION_LEN = 0xFFFF
# Times are nanoseconds: 10 to the power of -9.
NANOSECONDS = b"\x09"
# The length of the check sequence in the flags of a frame, and the flag of a fault that isn't the check sequence's.
FLAGS_LENGTH = CHECK_SEQUENCE_LEN << 5
FLAG_OTHER_FAULT = 1 << 31
MOST_UNITS = (1 << 64) - 1
PACKET_HEAD, LENGTH = struct.Struct("<IIIIIII"), struct.Struct("<I")
PACKET_HEAD_LEN = PACKET_HEAD.size
CUT = " .."


def option(code: int, value: bytes) -> bytes:
    """An option of a block."""
    return struct.pack("<HH", code, len(value)) + value + bytes(-len(value) % 4)


def text_option(code: int, text: str, last: str = "") -> bytes:
    """An option that is a text, and behind it what is never cut. A text that is too long is, and ends with two
    points."""
    value, end = text.encode(errors="replace"), last.encode(errors="replace")
    if len(value) + len(end) > MAX_OPTION_LEN:
        end = f"{CUT}\n".encode() + end if end else CUT.encode()
        value = value[: MAX_OPTION_LEN - len(end)].decode(errors="ignore").encode()
    return option(code, value + end)


def comments(texts: Iterable[str]) -> bytes:
    """The options of comments."""
    return b"".join(text_option(OPTION_COMMENT, it) for it in texts)


def packed(lines: Iterable[str]) -> list[str]:
    """Lines as few texts, none of which is longer than an option: some programs show the first comment alone."""
    found: list[str] = []
    for line in lines:
        both = f"{found[-1]}\n{line}" if found else line
        if found and len(both.encode(errors="replace")) <= MAX_OPTION_LEN:
            found[-1] = both
        else:
            found.append(line)
    return found


def block(kind: int, body: bytes) -> bytes:
    """A block, of a body whose length is a multiple of 4."""
    length = BLOCK_HEAD_LEN + len(body) + BLOCK_TAIL_LEN
    return struct.pack("<II", kind, length) + body + LENGTH.pack(length)


def section(program: str, texts: Iterable[str]) -> bytes:
    """The head of a section of any length, with the program that wrote it and comments."""
    # Comments are behind all other options in each block, since a reader may stop at one.
    options = text_option(OPTION_PROGRAM, program) + comments(texts) + option(OPTION_END, b"")
    return block(SECTION_BLOCK, struct.pack("<IHHq", BYTE_ORDER_MAGIC, 1, 0, -1) + options)


def interface(name: str, description: str, comment: str, last: str) -> bytes:
    """The description of an interface of Ethernet, whose times are in nanoseconds and whose frames end with their
    check sequences. Its comment has what is last in it also where the rest is too long."""
    options = option(OPTION_RESOLUTION, NANOSECONDS) + option(OPTION_CHECK_SEQUENCE_LEN, bytes([CHECK_SEQUENCE_LEN]))
    options += text_option(OPTION_NAME, name) + text_option(OPTION_DESCRIPTION, description)
    options += text_option(OPTION_COMMENT, comment, last)
    return block(INTERFACE_BLOCK, struct.pack("<HHI", LINK_TYPE_ETHERNET, 0, 0) + options + option(OPTION_END, b""))


def packet_options(marks: int, comment: Optional[str]) -> bytes:
    """The options of a frame with these marks, and a comment on it."""
    options = b""
    if marks:
        flags = FLAGS_LENGTH
        flags |= FLAG_WRONG_CHECK_SEQUENCE if marks & MARK_CHECK_SEQUENCE else 0
        flags |= FLAG_OTHER_FAULT if marks & MARK_OTHER_FAULT else 0
        options += option(OPTION_PACKET_FLAGS, LENGTH.pack(flags))
    options += b"" if comment is None else text_option(OPTION_COMMENT, comment)
    return options + option(OPTION_END, b"") if options else b""


def packet(number: int, moment: int, frame: bytes, options: bytes = b"") -> bytes:
    """The block of a frame of an interface, at a moment in nanoseconds since 1970."""
    length = len(frame)
    padding = bytes(-length % 4)
    whole = PACKET_HEAD_LEN + length + len(padding) + len(options) + BLOCK_TAIL_LEN
    head = PACKET_HEAD.pack(PACKET_BLOCK, whole, number, moment >> 32, moment & 0xFFFFFFFF, length, length)
    return b"".join((head, frame, padding, options, LENGTH.pack(whole)))
