"""Small recordings of two channels, and what the Python package reads in them."""

import json
from collections.abc import Sequence
from pathlib import Path
from typing import Any, Optional

from expected_facts import facts_of_run
from frames import FRAMES, body_of, end_packet, numbered, packet_of, program_packet, with_check_sequence

NOON = 1_764_590_400_250_000_000  # 2025-12-01T12:00:00.25Z
ONE_ORIGIN = [("1764590400.250000000", 0, None)]
FRAME = with_check_sequence(numbered(7))
# One after the other: packet, channel, counters.
PACKETS = [(1, [10, 20, 30]), (2, [15, 25]), (1, [40]), (2, [26, 50])]


def packet(channel: int, counters: list[int], sequence: int = 0) -> bytes:
    """A packet of frames with these counters, whose bytes have them as their numbers."""
    frames = [(it, 0, with_check_sequence(numbered(it))) for it in counters]
    return packet_of(channel, body_of(frames), sequence, FRAMES, counters[0], True)


def recording() -> bytes:
    """Two channels with a program each, the packets, and the end of channel 1."""
    programs = [program_packet(1, 0), program_packet(2, 0, sequence=1)]
    return b"".join([*programs, *(packet(*it) for it in PACKETS), end_packet(1, 4, sequence=2)])


def written(work: Path, data: bytes, origins: Optional[Sequence[tuple]] = None, **more: Any) -> Path:
    """A recording of these bytes, with facts beside it where there are origins."""
    path = work / "x.ch11"
    path.write_bytes(data)
    if origins is not None:
        Path(f"{path}.json").write_text(json.dumps({**facts_of_run(list(origins)), **more}))
    return path


def counters(frames: Any) -> list[tuple[int, int]]:
    return [(it.channel, it.counter) for it in frames]


IN_ORDER = [(channel, it) for channel, found in PACKETS for it in found]
