"""Tries the Python package `bpfrec` beside `bpfrec extract`, bpfrec export, `bpfrec list` and the check of whole files, over
drawn recordings: each frame, its time, its flags, programs, ends and damaged places."""

import json
import os
import random
from pathlib import Path
from typing import NamedTuple, Optional

import bpfrec
import pytest
import rows
from drawn_recording import DrawnRecording, drawn_recording
from expected_facts import drawn_origins, facts_of_run, is_utc, moments_by
from frames import FRAMES, header_of, packet_of, program_packet, records
from pcapng_blocks import PACKET, blocks_in
from pythons import PROMISED, interpreter
from reading import SEED, recording_of_three
from recorder import extracted
from rows import flight_of
from seen_frames import channels_of
from support import BPFREC, CHECK_SUMS, EXPORT, ROOT, judge, judge_quietly, outcome, run
from whole_file import Origin, Setup, whole_file
from whole_file_parts import recorded

pytestmark = pytest.mark.wanted("bin/bpfrec")
DRAWN = 8
TICKS = 10_000_000


class Seen(NamedTuple):
    """A frame of a capture: its interface, its moment, its bytes and its error flags."""

    interface: int
    moment: int
    bytes: bytes
    flags: int


def captured(work: Path, *recordings: Path) -> list[Seen]:
    done = outcome(EXPORT, "--force", *recordings, work / "made.pcapng")
    judge_quietly("pcapng makes a capture", done.returncode in (0, 1) and "Traceback" not in done.stderr, done)
    blocks = [it for it in blocks_in((work / "made.pcapng").read_bytes()) if it.kind == PACKET]
    return [Seen(*it.frame(), it.flags()) for it in blocks]


def judge_frames(work: Path, recording: Path, origins: Optional[list[tuple]]) -> int:
    """The frames of each channel are those that extract gives, with their times by the facts; how many they are."""
    opened, count = bpfrec.open(recording), 0
    judge_quietly("channels", [it.id for it in opened.channels] == channels_of(recording), opened.channels)
    for channel in opened.channels:
        feed = records(extracted(recording, channel.id, work / "one.feed"))
        found = list(opened.frames(channel.id))
        holds = [(it.counter, it.bytes) for it in found] == [(it.counter, it.frame) for it in feed]
        judge_quietly(f"frames of {channel}", holds)
        flags = [it.fcs_wrong + 2 * it.has_frame_error for it in found]
        judge_quietly(f"flags of {channel}", flags == [it.marks for it in feed])
        wanted = [moment_by(origins, it.counter) for it in feed]
        judge_quietly(f"times of {channel}", [it.time_ns for it in found] == wanted)
        count += len(feed)
    judge_quietly("all of them", len(list(opened)) == count)
    return count


def moment_by(origins: Optional[list[tuple]], counter: int) -> Optional[int]:
    """The moment of a counter by origins; None where nobody knows it."""
    return moments_by(origins, [counter])[0] if origins is not None and is_utc(origins, counter) else None


def seen_by_time(opened: bpfrec.Recording) -> list[Seen]:
    """The frames of recordings by time, as pcapng has them: without facts they have their counters for times."""
    in_order = sorted(opened.channels, key=lambda it: (it.recorded_as, opened.paths.index(it.paths[0])))
    number = {channel.id: at for at, channel in enumerate(in_order)}
    found = []
    for frame in opened.frames(by_time=True):
        flags = 4 << 5 | frame.fcs_wrong << 24 | frame.has_frame_error << 31
        moment = frame.counter * 100 if frame.time_ns is None else frame.time_ns
        is_marked = frame.fcs_wrong or frame.has_frame_error
        found.append(Seen(number[frame.channel], moment, frame.bytes, flags if is_marked else 0))
    return found


def judge_capture(work: Path, *recordings: Path) -> int:
    """By time the frames are those of pcapng, in its order, with its times and flags; how many there are."""
    found, seen = seen_by_time(bpfrec.open(*recordings, skip_damage=True)), captured(work, *recordings)
    judge_quietly(f"{len(seen)} frames as in the capture", found == seen, (len(found), len(seen)))
    return len(seen)


def judge_list(recording: Path) -> None:
    """Programs and ends are those of `bpfrec list`."""
    opened = bpfrec.open(recording)
    lines = [it.split() for it in run(BPFREC, "list", recording).splitlines()[:-1]]
    programs = [(int(it[8]), int(it[9]), int(it[10]), int(it[6])) for it in lines if it[7] == "program"]
    found = [(it.channel, it.version, it.first, it.counter) for it in opened.filters]
    judge_quietly("programs", found == sorted(programs, key=lambda it: it[0]), found)
    counts = [it.listing.count(",") - 1 for it in opened.filters]
    wanted = [it[11] for it in sorted((it for it in lines if it[7] == "program"), key=lambda it: int(it[8]))]
    judge_quietly("instructions", counts == list(map(int, wanted)))
    ends = {(int(it[8]), int(it[9]), int(it[10])) for it in lines if it[7] == "end"}
    judge_quietly("ends", {(it.channel, it.offered, it.kept) for it in opened.ends} <= ends)


# ---- what is drawn


def test_frames_of_recordings_are_those_of_extract_pcapng_and_list(work: Path) -> None:
    for recording in (recording_of_three(work), flight_of(work)):
        count = judge_frames(work, recording, None)
        judge_capture(work, recording)
        judge_list(recording)
        judge(f"{count} frames of {recording.name}", count > 10)


@pytest.mark.parametrize("turn", range(DRAWN))
def test_frames_of_drawn_recordings_are_too(work: Path, turn: int) -> None:
    """Of any words, lengths and counters, of both profiles, between packets of other kinds."""
    recording = work / "drawn.ch11"
    recording.write_bytes(rows.drawn_recording(random.Random(SEED + turn), turn % 2 == 0))
    judge_frames(work, recording, None)
    judge_capture(work, recording)
    judge_list(recording)


@pytest.mark.parametrize("turn", range(DRAWN))
def test_times_by_drawn_facts_are_those_of_pcapng(work: Path, turn: int) -> None:
    """Of clocks that were set, in UTC and in TAI."""
    draw = random.Random(SEED + turn)
    made = recorded(draw, [2, 7], draw.randrange(2**40), 30)
    recording, origins = work / "drawn.ch11", drawn_origins(draw, 2**41)
    recording.write_bytes(made.data)
    origins[0] = (origins[0][0].lstrip("-"), 0, *origins[0][2:])
    Path(f"{recording}.json").write_text(json.dumps(facts_of_run(origins)))
    count = judge_frames(work, recording, origins)
    if outcome(EXPORT, "--force", recording, work / "made.pcapng").returncode == 0:
        judge_capture(work, recording)
    judge(f"{count} frames", count >= 0)


def damages_of(made: DrawnRecording) -> list[tuple[int, str, int]]:
    return [(at, kind, length) for at, kind, length, _ in made.damages]


@pytest.mark.parametrize("turn", range(DRAWN))
def test_damaged_places_are_skipped_and_listed(work: Path, turn: int) -> None:
    """With what was drawn of each, and all frames but those within."""
    made = drawn_recording(random.Random(SEED + turn))
    recording = work / "drawn.ch11"
    recording.write_bytes(made.data)
    opened = bpfrec.open(recording, skip_damage=True)
    for number, channel in made.channels.items():
        found = (
            [(it.counter, it.fcs_wrong * 2 + it.has_frame_error, len(it.bytes)) for it in opened.frames(number)]
            if channel.frames
            else []
        )
        judge_quietly(f"channel {number}", found == channel.frames, (found, channel.frames))
        versions = [(it.version, it.first, it.counter) for it in opened.filters if it.channel == number]
        judge_quietly("versions", versions == [(it.number, it.first, it.counter) for it in channel.versions])
    judge_capture(work, recording)
    faults = [(it.place, it.kind, it.length) for it in opened.faults]
    judge("the damaged places", faults == damages_of(made), (faults, damages_of(made)))
    first = outcome(BPFREC, "list", recording)
    if faults:
        with pytest.raises(bpfrec.Damaged) as caught:
            list(bpfrec.open(recording))
        judge("the first is that of list", f"{caught.value.kind} {caught.value.place}\n" in first.stderr, first)


@pytest.mark.parametrize("turn", range(DRAWN))
def test_times_of_whole_files_are_those_of_check_sums(work: Path, turn: int) -> None:
    draw = random.Random(SEED + turn)
    made, path = recorded(draw, [3, 9], draw.randrange(2**40), 20), work / "x.ch10"
    path.write_bytes(whole_file(bytes(made.data), Setup((Origin(0, 1_764_590_400_250_000_123),))).data)
    lines = [it.split() for it in run(CHECK_SUMS, "--frames", path).splitlines()]
    wanted = [(int(it[1]), it[0], int(it[2])) for it in lines if it[0].startswith("20")]
    found = []
    for frame in bpfrec.open(path):
        seconds, rest = divmod(frame.time_ns or 0, 10**9)
        text = (frame.datetime or pytest.fail("a frame has no time")).strftime("%Y-%m-%dT%H:%M:%S")
        found.append((frame.channel, f"{text}.{rest // 100:07}Z", len(frame.bytes)))
    judge(f"{len(found)} frames", found == wanted, (found[:3], wanted[:3]))


@pytest.mark.parametrize("turn", range(DRAWN))
def test_several_recordings_are_merged_as_by_pcapng(work: Path, turn: int) -> None:
    """Of two hosts with the same channels, whose clocks were set, and of one host two that follow one another; in any
    order, with facts and without."""
    draw = random.Random(SEED + turn)
    paths, start = [], draw.randrange(2**40)
    for at, host in enumerate(("fc1", "fc2", "fc1")):
        path = work / f"{at}.ch11"
        path.write_bytes(recorded(draw, [2, 7 + at % 2], start + 300_000_000 * at * (host == "fc1"), 30).data)
        origins = [("1764590400.250000000", 0, None), ("1764590399.750000123", start + 150_000_000, None)]
        interfaces = [{"interface": f"eth{it}", "channel": it} for it in (2, 7, 8)]
        said = {**facts_of_run(origins), "host": host, "interfaces": interfaces}
        if turn % 4 != 3:
            Path(f"{path}.json").write_text(json.dumps(said))
        paths.append(path)
    draw.shuffle(paths)


READ_ALL = """
import sys
import bpfrec
for path in sys.argv[1:]:
    recording = bpfrec.open(path, skip_damage=True)
    for by_time in (False, True):
        for frame in recording.frames(by_time=by_time):
            print(frame, frame.datetime, frame.fcs)
    print(recording.channels, recording.filters, recording.ends, recording.facts, recording.faults)
"""


def test_each_python_reads_the_same(work: Path) -> None:
    """Python 3.9 what 3.11 does, without a warning."""
    found = {it: interpreter(it) for it in PROMISED}
    lacking = [it for it, path in found.items() if path is None]
    if lacking:
        pytest.skip(f"{', '.join(lacking)} isn't here")
    for turn in range(DRAWN):
        draw = random.Random(SEED + turn)
        (work / str(turn)).write_bytes(drawn_recording(draw).data)
        (work / f"{turn}.json").write_text(json.dumps(facts_of_run(drawn_origins(draw, 2**41))))
    env = {**os.environ, "PYTHONPATH": str(ROOT / "host"), "PYTHONDONTWRITEBYTECODE": "1"}
    words = ["-W", "error", "-c", READ_ALL, *(work / str(it) for it in range(DRAWN))]
    told = [run(path, *words, env=env, seconds=120) for path in found.values()]
    judge(f"{len(told[0].splitlines())} lines", told[0] == told[1] and len(told[0]) > 10_000)


def test_many_filters_and_headers_that_claim_much_take_no_time(work: Path) -> None:
    """65,536 programs of as many channels, and headers behind one another that claim four gigabytes."""
    programs = [program_packet(it, 0, count=0, sequence=it) for it in range(1, 65_536)]
    (work / "x.ch11").write_bytes(b"".join(programs))
    opened = bpfrec.open(work / "x.ch11")
    judge("each has its channel", len(opened.channels) == len(opened.filters) == 65_535 and list(opened) == [])
    claim = header_of(1, (2**32 - 4, 8), 0, 0x40, 0, False)
    (work / "x.ch11").write_bytes(claim * 40_000 + packet_of(1, bytes(4), 0, FRAMES, 0, True))
    opened = bpfrec.open(work / "x.ch11", skip_damage=True)
    judge("nothing is found in them but their end", list(opened) == [] and len(opened.faults) >= 1)
