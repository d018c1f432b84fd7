"""Listings of filters: the count, then code jt jf k of each instruction."""

from __future__ import annotations

import os
import stat
import struct
from typing import Optional

from bpfrec.formats.limits import INSN_LEN

# An instruction as a program's record has it: its code, jt, jf and k.
INSN = struct.Struct("<HBBI")


def listing_of(insns: bytes) -> str:
    """The listing of instructions, as they are stored in a recording."""
    words = [f"{code} {jt} {jf} {k}" for code, jt, jf, k in INSN.iter_unpack(insns)]
    return "".join(f"{it}," for it in [str(len(insns) // INSN_LEN), *words])


def has_instructions(listing: str, insns: bytes) -> bool:
    """Whether a listing, which may have a line or a comma behind each instruction, has these, as they are stored."""
    words = [part.split() for part in listing.replace("\n", ",").split(",") if part.strip()]
    try:
        return [tuple(map(int, it)) for it in words[1:]] == list(INSN.iter_unpack(insns))
    except ValueError:
        return False


def no_listing(path: str) -> str:
    """What is said of a file that isn't written as a listing is; it may be a text for the assembler."""
    return f"{path} is no listing: bpfrec asm makes one"


def listing_in(path: str, most: int) -> Optional[bytes]:
    """The first bytes of a regular file; None where it is none, or can't be read."""
    try:
        descriptor = os.open(path, os.O_RDONLY | os.O_NONBLOCK | os.O_CLOEXEC)
        with open(descriptor, "rb") as file:
            return file.read(most) if stat.S_ISREG(os.fstat(descriptor).st_mode) else None
    except (OSError, ValueError):
        return None
