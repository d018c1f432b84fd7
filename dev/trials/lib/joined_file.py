"""A second writer of the whole Chapter 11 file of several recordings, by docs/user/formats/whole_file.md alone.

It takes from the second writer of one recording's file what both have: pieces, the clock, and the bytes of packets. What
it adds are the counters by one clock, and the channels' IDs in the file; joined_run.py has recordings of a run.
"""

import struct
from collections.abc import Callable, Iterator
from functools import partial
from typing import Any, Optional

from joined_run import Channel, judge_part
from whole_file import CHANNELS, File, Origin, Piece, Recording, Refused, Setup, contents_of, file_of, whole_file
from whole_file_clock import COUNTERS, SECOND, TICK, Rule, rules_of

# SETUP or a table of it, as TOML gives it.
Table = dict[str, Any]


def joined_file(recordings: list[bytes], setup: Table) -> File:
    """The file of recordings by SETUP's data; of one no counter is moved."""
    tables = setup.get("recording", [setup])
    origins = [origins_of(it, setup) for it in tables]
    if len(recordings) == 1:
        return whole_file(recordings[0], setup_of(setup, origins[0], names_of(tables[0])))
    runs = runs_of(tables)
    contents = [contents_in(it, place, runs.count(runs[place]) > 1) for place, it in enumerate(recordings)]
    ids = ids_of([{channel for channel, _ in it} for it in contents], runs)
    channels = channels_of(contents, runs)
    begin = min(it.nanoseconds for noted in origins for it in noted) // TICK * TICK
    moved = []
    for packets, run, noted in zip(contents, runs, origins):
        rules = rules_of(noted)
        for channel, packet in packets:
            new = ids[run, channel]
            move = partial(moved_packet, channel=new, rules=rules, begin=begin)
            moved += [(new, it) for it in joined_packet(packet, channels.get((run, channel)), move)]
    names: dict[int, tuple[str, int]] = {}
    for run, table in zip(runs, tables):
        for channel, said in names_of(table).items():
            if (run, channel) in ids:
                names.setdefault(ids[run, channel], said)
    return file_of(Recording(moved), setup_of(setup, (Origin(0, begin),), names))


def runs_of(tables: list[Table]) -> list[int]:
    """The run of each recording, as the place of its first one."""
    found: list[int] = []
    for place, table in enumerate(tables):
        found.append(found[table["after"]] if "after" in table else place)
    return found


def contents_in(recording: bytes, of: int, is_of_run: bool) -> list[tuple[int, Piece]]:
    """What the packets of a recording have; one that is no recording of a run is refused, where it is of one."""
    found, faults = [], []
    try:
        found = list(contents_of(recording, of))
    except Refused as other:
        faults.append(other)
    try:
        if is_of_run:
            judge_part(recording, of)
    except Refused as part:
        faults.append(part)
    if faults:
        raise min(faults, key=lambda it: it.at)
    return found


def channels_of(contents: list[list[tuple[int, Piece]]], runs: list[int]) -> dict[tuple[int, int], Channel]:
    """The channels of each run of two recordings or more, before their first packet."""
    last = {(run, channel): place for place, run in enumerate(runs) for channel, _ in contents[place]}
    return {(run, channel): Channel(place) for (run, channel), place in last.items() if runs.count(run) > 1}


def joined_packet(packet: Piece, of_run: Optional[Channel], move: Callable[[Piece], Piece]) -> Iterator[Piece]:
    """What a packet is in the file, if it stays there. A counter that can't be moved comes ahead of a sum."""
    try:
        joined = of_run.joined(packet) if of_run else packet
    except Refused:
        move(packet)
        raise
    if joined:
        yield move(joined)


def ids_of(named: list[set[int]], runs: list[int]) -> dict[tuple[int, int], int]:
    """The IDs that the channels of each run have in the file."""
    found: dict[tuple[int, int], int] = {}
    if len({(run, channel) for run, channels in zip(runs, named) for channel in channels}) >= CHANNELS - 1:
        raise Refused(7, "Full", 0)
    free = iter(sorted(set(range(1, CHANNELS)).difference(*named)))
    for place, (run, channels) in enumerate(zip(runs, named)):
        others: set[int] = set().union(*(it for it, of in zip(named[:place], runs) if of != run))
        for channel in sorted(channels):
            if (run, channel) not in found:
                found[run, channel] = next(free) if channel in others else channel
    return found


def moved_packet(packet: Piece, channel: int, rules: list[Rule], begin: int) -> Piece:
    """What a packet has, with the file's counters and ID."""

    def moved(counter: int) -> int:
        held = [it for it in rules if it.begin <= counter][-1]
        found = (held.time(counter) - begin + TICK // 2) // TICK
        if found >= COUNTERS:
            raise Refused(3, "Gap", packet.at, packet.of)
        return found

    if packet.record:
        record = packet.record[:10] + struct.pack("<H", channel) + packet.record[12:]
        return packet._replace(counter=None if packet.counter is None else moved(packet.counter), record=record)
    return packet._replace(frames=tuple(it._replace(counter=moved(it.counter)) for it in packet.frames))


# ---- SETUP


def setup_of(setup: Table, origins: tuple[Origin, ...], names: dict[int, tuple[str, int]]) -> Setup:
    host, program = (setup.get(it, "bpfrec") for it in ("host", "program"))
    return Setup(origins, host, program, setup.get("external", False), tuple(setup.get("attributes", [])), names)


def names_of(table: Table) -> dict[int, tuple[str, int]]:
    return {it["id"]: (it.get("name", "channel"), it.get("net", 0)) for it in table.get("channel", [])}


def origins_of(table: Table, top: Table) -> tuple[Origin, ...]:
    """The origins of a recording, in UTC."""
    if "origin" in table:
        return (Origin(0, nanoseconds_of(table["origin"])),)
    return tuple(
        Origin(it["counter"], nanoseconds_of(it["origin"]) - SECOND * offset_of(it, top)) for it in table["origins"]
    )


def offset_of(origin: Table, top: Table) -> int:
    """The seconds by which an origin's scale is ahead of UTC."""
    says_it = top if origin.get("scale") == "unknown" else origin
    return says_it.get("tai_offset", 0)


def nanoseconds_of(text: str) -> int:
    whole, _, rest = text.removeprefix("-").partition(".")
    found = int(whole) * SECOND + int(rest.ljust(9, "0"))
    return -found if text.startswith("-") else found
