"""What a file may be that isn't what a tool reads, by its first bytes."""

from __future__ import annotations

import os

# The first bytes of captures: of pcap in microseconds and nanoseconds, by both byte orders, and of pcapng.
CLASSIC = {bytes.fromhex(it) for it in ("a1b2c3d4", "a1b23c4d", "d4c3b2a1", "4d3cb2a1")}
PCAPNG = bytes.fromhex("0a0d0d0a")
# So many of a file's first bytes are looked at.
HEAD_LEN = 64


def guess_of(head: bytes) -> str:
    """What a file may be that is no recording, as a remark; none where that isn't known."""
    if head[:4] in CLASSIC:
        return " (a pcap capture?)"
    if head[:4] == PCAPNG:
        return " (a pcapng capture?)"
    return " (a text?)" if head and head.isascii() and b"\0" not in head else ""


def guess_at(path: str) -> str:
    """The same of a file by its path; a pipe can't be read again."""
    if not os.path.isfile(path):
        return ""
    with open(path, "rb") as file:
        return guess_of(file.read(HEAD_LEN))
