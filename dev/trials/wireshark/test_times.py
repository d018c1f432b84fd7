"""Tries the times of recordings in tshark: those of the facts beside a recording, or since counter 0."""

import json
import random
import re
import shutil
from pathlib import Path
from typing import Any

import pytest
from expected_facts import (
    TAI_37,
    THREE_ORIGINS,
    UNKNOWN_SCALE,
    are_facts,
    damaged_facts,
    facts_of_run,
    moments_by,
    origins_in,
    value_of,
)
from frames import FRAMES
from packets import frames_in as frames_of_data
from reading import SEED, recording_of_three
from recorder import RECORDINGS
from rows import expected_rows, printed
from support import EXPORT, judge, judge_quietly, run
from whole_file import Origin, whole_file
from whole_file_parts import ORIGIN, SAMPLE_SETUP, parts_of, sample_recording

pytestmark = pytest.mark.wanted("bin/bpfrec", "tshark")
DRAWN = 40


@pytest.fixture(scope="module")
def three(place: Path) -> Path:
    return recording_of_three(place)


def times_in(work: Path, recording: Path, *words: object) -> list[int]:
    """The time of each frame in nanoseconds since 1970."""
    lines = printed(work, "-r", recording, *words, "-Y", "ch11.number", "-T", "fields", "-e", "frame.time_epoch")
    found = [re.fullmatch(r"(-?)(\d+)\.(\d{9})", it) for it in lines]
    return [(-1 if it[1] else 1) * (int(it[2]) * 10**9 + int(it[3])) for it in found if it]


def counters_in(recording: Path) -> list[int]:
    return [int(it["counter"]) for it in expected_rows(recording) if "number" in it]


@pytest.mark.parametrize("origins", [THREE_ORIGINS, TAI_37], ids=["three_origins", "tai_37"])
def test_times_are_those_of_the_facts(work: Path, three: Path, origins: list) -> None:
    """Times are those of the facts beside the recording, or of those that the preference names."""
    recording, counters = work / "x.ch11", counters_in(three)
    shutil.copy(three, recording)
    relative, wanted = [it * 100 for it in counters], moments_by(origins, counters)
    judge("without facts times are since counter 0", times_in(work, recording) == relative)
    (work / "x.ch11.json").write_text(json.dumps(facts_of_run(origins)))
    judge("with facts they are absolute", times_in(work, recording) == wanted and wanted != relative)
    judge("also read twice", times_in(work, recording, "-2") == wanted)
    (work / "x.ch11.json").rename(work / "elsewhere.json")
    named = ["-o", f"ch11.facts:{work}/elsewhere.json"]
    judge("and by the preference", times_in(work, recording, *named) == wanted)


@pytest.mark.parametrize("origins, scale", [(TAI_37, ""), (UNKNOWN_SCALE, ", scale unknown")], ids=["known", "unknown"])
def test_a_scale_that_nobody_knows_is_said_of_each_row(work: Path, three: Path, origins: list, scale: str) -> None:
    recording = work / "x.ch11"
    shutil.copy(three, recording)
    (work / "x.ch11.json").write_text(json.dumps(facts_of_run(origins)))
    lines = printed(work, "-r", recording, "-Y", "ch11.number", "-T", "fields", "-e", "ch11.time")
    told = f"absolute{scale}, by {recording}.json"
    judge("each row says whether its scale is known", lines and set(lines) == {told}, lines[:3])


def test_drawn_facts_are_taken_or_refused_as_formats_says(work: Path) -> None:
    """Damaged facts are facts or none, as docs/user/formats/live.md says; nothing but the times depends on it."""
    draw, recording = random.Random(SEED), work / "x.ch11"
    shutil.copy(RECORDINGS / "two_versions_checked.ch11", recording)
    counts = [0, 0]
    for turn in range(DRAWN):
        data = damaged_facts(draw, facts_of_run(draw.choice([THREE_ORIGINS, TAI_37]), [(1, 2, 3)]))
        (work / "x.ch11.json").write_bytes(data)
        told: Any = value_of(data)
        is_known = are_facts(told)
        origins = origins_in(told) if is_known else [("0.000000000", 0, None)]
        counts[is_known] += 1
        judge_quietly(f"draw {turn}: {data!r}", times_in(work, recording) == moments_by(origins, [32]))
    judge(f"{counts[1]} facts, and {counts[0]} that are none", min(counts) > 5)


@pytest.mark.parametrize(
    "more", [[], [Origin(25_000_000, ORIGIN + 7 * 10**9 + 3)]], ids=["one_origin", "a_clock_that_was_set"]
)
def test_times_of_a_whole_file_are_those_of_its_time_packets(work: Path, more: list) -> None:
    """Where it has no facts; the setup record has its time too. pcapng has the same."""
    setup = SAMPLE_SETUP._replace(origins=(Origin(0, ORIGIN), *more))
    path = work / "whole.ch10"
    path.write_bytes(bytes(whole_file(sample_recording(), setup).data))
    counters = [
        it[0] for part in parts_of(path.read_bytes()) if part.kind == FRAMES for it in frames_of_data(part.data)
    ]
    # Time packets say it to a tick.
    origins = [Origin(it.counter, it.nanoseconds // 100 * 100) for it in setup.origins]
    wanted = [next(it for it in reversed(origins) if it.counter <= at).nanoseconds + at * 100 for at in counters]
    judge("in the plugin", times_in(work, path) == wanted, (times_in(work, path)[:3], wanted[:3]))
    judge("also read twice", times_in(work, path, "-2") == wanted)
    rows = printed(work, "-r", path, "-T", "fields", "-e", "frame.time_epoch")
    judge("no row is of 1970", all(it.startswith("17") for it in rows), rows[:3])
    run(EXPORT, path, work / "whole.pcapng")
    found = run("tshark", "-r", work / "whole.pcapng", "-T", "fields", "-e", "frame.time_epoch").split()
    holds = sorted(found) == sorted(f"{it // 10**9}.{it % 10**9:09}" for it in wanted)
    judge("in pcapng", holds, (found[:3], wanted[:3]))
