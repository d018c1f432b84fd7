"""Tries how the Python package `bpfrec` opens recordings: what it reads of them, files that are open, and what it gives."""

import copy
import gc
import gzip
import io
import itertools
import pickle
from dataclasses import FrozenInstanceError, fields, is_dataclass
from pathlib import Path
from typing import Any

import bpfrec
import pytest
from frames import FRAMES, body_of, packet_of, program_packet
from small_recordings import FRAME, IN_ORDER, ONE_ORIGIN, counters, packet, recording, written
from support import judge, judge_quietly, judge_same

MANY = 3_000


class Counted(io.BytesIO):
    """A file in memory that counts how often it is read."""

    reads = 0

    def read(self, size: Any = -1) -> bytes:
        self.reads += 1
        return super().read(size)


# ---- what is read


def test_the_first_frame_comes_before_most_headers_are_read() -> None:
    file = Counted(b"".join(packet(1, [at], at) for at in range(MANY)))
    opened = bpfrec.open(file)
    judge("a few reads", file.reads < 5, file.reads)
    judge("the first frame", next(iter(opened)).counter == 0)
    judge("by a few more", file.reads < 200, file.reads)
    judge("all of them", len(list(opened)) == MANY)
    judge("what needs all headers has them", len(opened.channels) == 1 and len(bpfrec.open(file).channels) == 1)


def test_frames_that_come_before_damage_are_given_before_it_is_known(work: Path) -> None:
    """Of a long recording, where the damage isn't seen yet when the first frames are read."""
    data = bytearray(b"".join(packet(1, [at], at) for at in range(MANY)))
    data[-1] ^= 1
    for by_time in (False, True):
        found: list[bpfrec.Frame] = []
        with pytest.raises(bpfrec.Damaged, match="DataChecksum"):
            for frame in bpfrec.open(written(work, bytes(data))).frames(by_time=by_time):
                found.append(frame)
        judge(f"all before it, by time {by_time}", len(found) == MANY - 1, len(found))


def test_a_program_is_that_of_the_frames_behind_it_however_far_was_read(work: Path) -> None:
    parts = [part for at in range(200) for part in (program_packet(1, at), packet(1, [at], at))]
    opened = bpfrec.open(written(work, b"".join(parts)))
    judge("while headers are read", [it.version for it in opened] == list(range(200)))
    judge("and once they were", [it.version for it in opened] == list(range(200)))


# ---- files that are open


@pytest.mark.parametrize("kind", ["file", "unbuffered", "memory", "packed"])
def test_a_file_that_is_open_is_read_and_left_open(work: Path, kind: str) -> None:
    path = written(work, recording(), ONE_ORIGIN)
    (work / "x.gz").write_bytes(gzip.compress(recording()))
    made: dict[str, Any] = {
        "file": lambda: open(path, "rb"),
        "unbuffered": lambda: open(path, "rb", buffering=0),
        "memory": lambda: io.BytesIO(recording()),
        "packed": lambda: gzip.open(work / "x.gz"),
    }
    with made[kind]() as file:
        opened = bpfrec.open(file, facts=Path(f"{path}.json"))
        judge("its frames", counters(opened) == IN_ORDER, counters(opened))
        judge("by time too", [it.counter for it in opened.frames(by_time=True)] == sorted(it for _, it in IN_ORDER))
        judge("with their times", all(it.time_ns is not None for it in opened))
        opened.close()
        with pytest.raises(ValueError, match="the recording is closed$"):
            list(opened)
        del opened
        gc.collect()
        judge("it is still open", not file.closed)


def test_a_file_of_the_system_stays_where_it_is(work: Path) -> None:
    with open(written(work, recording()), "rb") as file:
        file.seek(7)
        opened = bpfrec.open(file)
        judge("all is read", counters(opened) == IN_ORDER and file.tell() == 7)
    with pytest.raises(ValueError, match="x.ch11: the recording is closed$"):
        list(opened)


def test_an_open_file_has_a_name_or_says_what_it_is(work: Path) -> None:
    path = written(work, recording(), ONE_ORIGIN)
    with open(path, "rb") as file:
        opened = bpfrec.open(file)
        judge("its own, with the facts beside it", opened.paths == (str(path),) and opened.facts is not None)
    with pytest.raises(bpfrec.NotARecording, match="^<_io.BytesIO object at .*it doesn't begin as a recording: "):
        bpfrec.open(io.BytesIO(b"x"))
    memory = io.BytesIO(recording())
    with pytest.raises(ValueError, match="is given twice$"):
        bpfrec.open(memory, memory)
    several = bpfrec.open(io.BytesIO(recording()), memory)
    judge("several are read as one", len(list(several)) == 2 * len(IN_ORDER), counters(several))


def test_a_file_that_is_open_for_text_is_refused(work: Path) -> None:
    with open(written(work, recording()), encoding="utf-8") as file:
        given: Any = file
        with pytest.raises(TypeError, match="^a recording is opened for bytes, as by open"):
            bpfrec.open(given)


# ---- readings


def test_readings_at_once_count_what_they_skip_each_for_itself(work: Path) -> None:
    odd = [(1, 1 << 28, FRAME), (2, 0, FRAME), (3, 0, FRAME[:17]), (4, 0, FRAME)]
    parts = [packet_of(channel, body_of(odd), 0, FRAMES, 1, True) for channel in (1, 2)]
    opened = bpfrec.open(written(work, b"".join([*parts, packet(1, [9])])))
    one, two = opened.frames(1), opened.frames(2)
    both = list(itertools.zip_longest(one, two))
    judge("all frames", len(both) == 3 and both[2][1] is None, both)
    judge("each its own", (one.skipped, two.skipped) == (2, 2))
    judge("a third doesn't change them", list(opened.frames(2)) and (one.skipped, two.skipped) == (2, 2))


def test_a_reading_is_an_iterator_that_keeps_its_recording_open(work: Path) -> None:
    reading = bpfrec.open(written(work, recording())).frames()
    gc.collect()
    judge_same("it goes on", [next(reading), *reading], list(bpfrec.open(work / "x.ch11")))
    judge("and is over", list(reading) == [] and next(reading, None) is None)


# ---- what it gives


def test_what_it_gives_is_no_tuple_and_does_not_change(work: Path) -> None:
    """So that more attributes may come; and each can be copied, compared and, but for facts, hashed."""
    filters = [{"channel": 1, "listing": "1,6 0 0 1,", "text": "ret #1\n", "expression": "udp"}]
    marks = [{"counter": 20, "text": "gear up"}]
    opened = bpfrec.open(written(work, recording(), ONE_ORIGIN, filters=filters, marks=marks))
    facts = opened.facts
    assert facts is not None
    frame = next(iter(opened))
    every = [frame, opened.channels[0], opened.filters[0], opened.ends[0], facts, facts.origins[0], facts.marks[0]]
    for value in [*every, bpfrec.Fault("x.ch11", 1, "Sync", 2)]:
        judge_quietly(f"{value} is data", is_dataclass(value) and not isinstance(value, tuple))
        with pytest.raises(FrozenInstanceError):
            setattr(value, fields(value)[0].name, 0)
        others = [pickle.loads(pickle.dumps(value)), copy.copy(value), copy.deepcopy(value)]
        judge_quietly("copies are equal", all(it == value and type(it) is type(value) for it in others), others)
        if value is not facts:
            judge_quietly("by their hashes too", {hash(it) for it in others} == {hash(value)})
    named = {it.name: getattr(frame, it.name) for it in fields(frame)}
    judge("a frame is as if it was made by its name", bpfrec.Frame(**named) == frame and repr(frame) in repr([frame]))


def test_it_says_which_version_it_is() -> None:
    judge("as numbers", all(it.isdigit() for it in bpfrec.__version__.split(".")), bpfrec.__version__)
