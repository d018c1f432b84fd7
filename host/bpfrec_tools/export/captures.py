"""Captures in pcapng of recordings, which bpfrec export makes."""

from __future__ import annotations

import argparse
import os
import sys
from typing import BinaryIO, Iterable, Optional, Union

from bpfrec.core.index import Index
from bpfrec.core.recordings import Recording
from bpfrec.core.times import Times
from bpfrec.formats import facts
from bpfrec.formats.names import facts_path
from bpfrec.formats.packet import Fault
from bpfrec_tools.chapter11.runs import missing_among
from bpfrec_tools.cli import printing
from bpfrec_tools.cli.arguments import name_of, no_channel
from bpfrec_tools.cli.progress import Progress
from bpfrec_tools.cli.streams import (
    STREAM,
    Refused,
    created,
    facts_at,
    force,
    identity,
    readable,
    refuse_inputs,
    refuse_overwriting,
    refuse_strange,
    refuse_twice,
)
from bpfrec_tools.export.merging import Capture, Interface, Sliced, interfaces_of
from bpfrec_tools.export.times import NOTHING_BETWEEN, dated, ranges_of, refuse_outside, refuse_swapped

# Why a name names no channel.
NO_NAMES = "no facts beside it, so --channel takes numbers, as 1"
# After so many frames it is looked whether a line of progress is due.
FRAMES_A_LOOK = 256
# How many bytes are written at once.
BUFFER_LEN = 1 << 20


def err(line: str) -> None:
    """Prints a line of a recording on standard error."""
    printing.err(f"{name_of('export')}: {line}")


def facts_beside(path: str) -> Optional[facts.Facts]:
    """The facts beside a recording; None where there are none. Others would make wrong times."""
    beside = facts_path(path)
    return None if path == STREAM or not os.path.exists(beside) else facts_at(beside)


def index_of(path: str) -> Index:
    """What a recording has; a damaged place is reported."""

    def report(fault: Fault, length: int) -> None:
        # What of a whole file's times can't be read says nothing.
        if fault.number:
            err(f"{path}: {fault}: {length} bytes are left out")

    return Index(readable(path), report)


def times_of(index: Index) -> Times:
    """The times of a recording, by the facts beside it; of a whole file without facts by its time packets."""
    path = index.path
    times = Times(facts_beside(path))
    if times.facts is None and index.whole:
        index.read()
        try:
            times = Times(index.whole.facts(), "its time packets")
        except facts.NoFacts as fault:
            err(f"{path}: its time packets say no times, so these are since counter 0: {fault}")
    if times.facts and not times.are_known():
        err(f"{path}: {facts.SCALE_UNKNOWN}")
    return times


def recordings_at(given: argparse.Namespace) -> list[Sliced]:
    """The recordings with the counters that are asked for, of which nothing but the headers is read."""
    indexes = [index_of(path) for path in given.recordings]
    opened = [Recording(it, times_of(it)) for it in indexes]
    since, until = dated(given.since, given.until, opened)
    refuse_swapped(given.since, given.until, since, opened)
    if since and until and since.is_absolute == until.is_absolute and until <= since:
        raise Refused(NOTHING_BETWEEN)
    found = [(it, ranges_of(it, since, until)) for it in opened]
    for index in indexes:
        index.read()
    if since or until:
        refuse_outside(found)
    return found


def judge_times(recordings: list[Sliced]) -> None:
    """Refuses recordings with facts beside such without, whose times can't be compared."""
    known = [it.path for it, _ in recordings if it.facts]
    unknown = [it.path for it, _ in recordings if not it.facts]
    if known and unknown:
        raise Refused(f"{known[0]} has facts beside it and {unknown[0]} has none")


def judge_asked(recordings: list[Sliced], asked: list[Union[int, str]]) -> None:
    """Refuses a channel or an interface that no recording has."""
    paths = " ".join(it.path for it, _ in recordings)
    for channel in asked:
        if any(it.channels_of(channel) for it, _ in recordings):
            continue
        if isinstance(channel, str) and not recordings[0][0].facts:
            raise Refused(f"{paths}: {NO_NAMES}")
        known = ((found, it.name_of(found) or "") for it, _ in recordings for found in it.index.channels)
        raise Refused(f"{paths}: {no_channel(channel, known)}")


def judge_output(path: str, inputs: Iterable[str], is_forced: bool) -> None:
    """Refuses an output that is one of the inputs, also standard output, one that is there, and a terminal."""
    if path == STREAM and sys.stdout.isatty():
        raise Refused("standard output is a terminal, which shows no capture")
    refuse_inputs(inputs, path, STREAM)
    refuse_overwriting(path, is_forced)


def write_blocks(out: BinaryIO, recordings: list[Sliced], interfaces: list[Interface], is_quiet: bool) -> int:
    """Writes the capture's blocks: how many frames they have."""
    count, capture = 0, Capture(recordings, interfaces)
    size = sum(each.slice.size() for it in interfaces for each in it.parts)
    with Progress("export", size, is_quiet) as progress:
        out.writelines(capture.head())
        for count, block in enumerate(capture.frames(), 1):
            out.write(block)
            if count % FRAMES_A_LOOK == 0:
                progress.at(sum(it.index.done for it, _ in recordings))
    return count


def write(path: str, recordings: list[Sliced], interfaces: list[Interface], is_quiet: bool) -> int:
    """Writes the capture: how many frames it has."""
    with created(path, BUFFER_LEN) as out:
        count = write_blocks(out, recordings, interfaces, is_quiet)
        force(out)
    return count


def judge_inputs(paths: list[str]) -> None:
    """Refuses a recording that is given twice, also by another name: each of its frames would be doubled."""
    others = [it for it in paths if it != STREAM]
    if paths.count(STREAM) > 1 or STREAM in paths and identity(STREAM, 0) in [identity(it, 0) or () for it in others]:
        raise Refused(f"{STREAM}: it is given twice, and can be read once")
    refuse_twice(others)


def make(given: argparse.Namespace, line: Optional[str] = None) -> int:
    """Makes a capture of recordings: the status. It prints its counts, or another line."""
    judge_inputs(given.recordings)
    inputs = [name for it in given.recordings for name in (it, facts_path(it))]
    judge_output(given.out, inputs, given.force)
    refuse_strange(given.recordings)
    recordings = recordings_at(given)
    judge_times(recordings)
    judge_asked(recordings, given.channel or [])
    for missing in missing_among(((it.path, it.facts) for it, _ in recordings), given.last):
        err(f"{missing.behind}: next missing: {missing.names}")
    interfaces = interfaces_of(recordings, given.channel)
    count = write(given.out, recordings, interfaces, given.quiet)
    line = line or f"frames {count} skipped {sum(it.skipped() for it in interfaces)}"
    if given.out == STREAM:
        printing.err(line)
    else:
        printing.out(f"{line}\n")
    return 1 if any(it.index.is_damaged for it, _ in recordings) else 0
