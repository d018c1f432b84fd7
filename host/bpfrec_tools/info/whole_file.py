"""What a whole Chapter 11 file says beside its frames, by its setup record and its time packets, as info tells it."""

from __future__ import annotations

from typing import Any

from bpfrec.formats.packet import Packet
from bpfrec.formats.whole_file import INDEX, SETUP, TIME, WholeFile, is_own, time_text

# Its packets that a recording doesn't have, by their types.
KINDS = {SETUP: "setup", TIME: "time", INDEX: "index"}
OTHER = "other"


def kind_of(whole: WholeFile, packet: Packet) -> str:
    """Takes a packet that no recording has: the name of its kind."""
    kind = packet.header.kind
    is_bad = is_own(kind) and not whole.take(packet.header, packet.bytes)
    return OTHER if is_bad else KINDS.get(kind, OTHER)


def rows(whole: WholeFile) -> list[tuple[str, str]]:
    """What it says, as names and values."""
    setup, times = whole.setup, "none"
    if whole.clocks and whole.clock:
        times = f"{time_text(whole.clocks[0].moment)} to {time_text(whole.clock.moment)}"
    return [
        ("host", setup and setup.host or "unknown"),
        ("program", setup and setup.program or "unknown"),
        ("clock", ("an outside source" if setup.is_external else "the recorder's") if setup else "unknown"),
        ("time packets", times),
    ]


def as_object(whole: WholeFile) -> dict[str, Any]:
    """The same as an object of JSON."""
    return {
        "host": whole.setup.host if whole.setup else None,
        "program": whole.setup.program if whole.setup else None,
        "is_external": whole.setup.is_external if whole.setup else None,
        "first_time": time_text(whole.clocks[0].moment) if whole.clocks else None,
        "last_time": time_text(whole.clock.moment) if whole.clock else None,
    }
