"""Recordings of several recorders, and of runs, with the facts of each."""

import json
from pathlib import Path
from typing import Any

from expected_facts import facts_of_run
from frames import FRAMES, body_of, end_packet, numbered, packet_of, program_packet, with_check_sequence


def recording_at(path: Path, counters: list[int], mark: int, facts: dict | None = None, channel: int = 1) -> Path:
    """A recording of a channel, whose frames have a mark, with its facts."""
    frames = [(it, 0, with_check_sequence(numbered(mark * 1_000 + at))) for at, it in enumerate(counters)]
    packets = [packet_of(channel, body_of([it]), at, FRAMES, it[0], True) for at, it in enumerate(frames)]
    end = end_packet(channel, len(frames), counter=counters[-1])
    path.write_bytes(b"".join([program_packet(channel, 0), *packets, end]))
    if facts:
        Path(f"{path}.json").write_text(json.dumps(facts))
    return path


def facts_by(host: str, interface: str, origins: list | None = None) -> dict:
    made = facts_of_run(origins or [("1764590400.000000000", 0, None)])
    return {**made, "host": host, "interfaces": [{"interface": interface, "channel": 1}]}


def in_run(name: str, before: str | None, following: str | None, **more: Any) -> dict:
    """The facts of a recording of eth0 of tap1, between these two."""
    made = facts_by("tap1", "eth0")
    named = before and {"recording": before, "sha256": None}
    return {**made, "recording": name, "before": named, "next": following, **more}


def run_at(work: Path, count: int, name: str = "flight", **more: Any) -> list[str]:
    """The names of the recordings of a run, each of which has a frame a second later."""
    names = [f"{name}_{number:05}.ch11" for number in range(1, count + 1)]
    for place, (before, it, following) in enumerate(zip([None, *names], names, [*names[1:], None])):
        recording_at(work / it, [10_000_000 * place], place, in_run(it, before, following, **more))
    return names
