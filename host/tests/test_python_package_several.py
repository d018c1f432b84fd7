"""Tries the Python package `bpfrec` on whole Chapter 11 files and on several recordings, of one recorder and of more."""

import json
import os
import random
from dataclasses import replace
from pathlib import Path
from typing import Any, Optional

import bpfrec
import pytest
from drawn_recording import DrawnRecording
from expected_facts import facts_of_run, moments_by
from frames import FRAMES, body_of, numbered, packet_of, program_packet, with_check_sequence
from small_recordings import counters
from support import judge, judge_quietly, judge_same
from whole_file import INDEX, SETUP, TIME, Origin, Setup, whole_file
from whole_file_parts import ORIGIN, SAMPLE_SETUP, SECOND, parts_of, place_of, recorded, sample, sample_recording

NOON = "1764590400.250000000"


def written(path: Path, data: bytes) -> Path:
    path.write_bytes(data)
    return path


# ---- whole Chapter 11 files


def test_a_whole_file_has_its_names_and_times(work: Path) -> None:
    """To the tick of 100 ns, which time packets have; no facts are taken beside it."""
    path = written(work / "x.ch10", sample())
    Path(f"{path}.json").write_text(json.dumps(facts_of_run([("1.000000000", 0, None)])))
    opened = bpfrec.open(path)
    names = [(it.id, it.name, it.host) for it in opened.channels]
    judge("the channels", names == [(5, "eth5", "bench 3"), (9, "wing", "bench 3"), (12, "channel", "bench 3")], names)
    found = list(opened)
    wanted = [ORIGIN // 100 * 100 + it.counter * 100 for it in found]
    judge("the times", [it.time_ns for it in found] == wanted and len(found) == 16)
    judge("the program", opened.facts and opened.facts.program == "bpfrec 0.1.0", opened.facts)
    slow = bpfrec.open(written(work / "x.ch11", sample_recording()))
    plain = [replace(it, time_ns=None) for it in found]
    judge("and the frames of the recording", sorted(plain, key=repr) == sorted(slow, key=repr))
    judge("its filters and ends too", opened.ends != () and len(opened.filters) == len(slow.filters))


def test_a_whole_file_can_be_read_by_other_facts_or_without_times(work: Path) -> None:
    path = written(work / "x.ch10", sample())
    (work / "facts").write_text(json.dumps(facts_of_run([("1.000000000", 0, None)])))
    times = [it.time_ns for it in bpfrec.open(path, facts=work / "facts")]
    judge("by those that are given", times == [10**9 + it.counter * 100 for it in bpfrec.open(path)], times)
    judge("without", {it.time_ns for it in bpfrec.open(path, facts=False)} == {None})


@pytest.mark.parametrize("seed", range(8))
def test_times_of_drawn_whole_files_are_those_of_their_origins(work: Path, seed: int) -> None:
    """Of clocks that were set: from the first time packet of an origin on, up to 10 ms behind it."""
    draw = random.Random(seed)
    made = recorded(draw, [3, 8], draw.randrange(2**40), 20)
    first = min(it for channel in made.channels.values() for it in channel.counters() or [2**48])
    noted = [(first + at * 6 * SECOND, ORIGIN + draw.randrange(-(10**12), 10**12)) for at in range(1, 4)]
    origins = [(0, ORIGIN), *noted[: seed % 4]]
    data = bytes(whole_file(bytes(made.data), Setup(tuple(Origin(*it) for it in origins))).data)
    texts = [(f"{it // 10**9}.{it % 10**9:09}", counter, None) for counter, it in origins]
    for frame in bpfrec.open(written(work / "x.ch10", data)):
        if any(0 <= frame.counter - it < 100_000 for it, _ in noted):
            continue
        (wanted,) = moments_by(texts, [frame.counter])
        judge_quietly(f"{frame.counter}", frame.time_ns == wanted // 100 * 100, (frame.time_ns, wanted))


def test_a_time_packet_that_can_not_be_read_is_a_damaged_place(work: Path) -> None:
    parts = parts_of(sample())
    for kind, name in ((SETUP, "Setup"), (TIME, "Time")):
        data, at = bytearray(sample()), place_of(parts, kind, 0)
        data[at + 30] ^= 1
        path = written(work / "x.ch10", bytes(data))
        with pytest.raises(bpfrec.Damaged) as caught:
            list(bpfrec.open(path))
        judge_quietly(f"{caught.value}", (caught.value.kind, caught.value.place) == (name, at))
        opened = bpfrec.open(path, skip_damage=True)
        judge_quietly("all frames can be read", len(list(opened)) == 16 and [it.kind for it in opened.faults] == [name])


def test_an_index_is_no_frame(work: Path) -> None:
    judge("there is one", [it for it in parts_of(sample()) if it.kind == INDEX])
    opened = bpfrec.open(written(work / "x.ch10", sample()))
    judge("and 16 frames are read, with no fault", len(list(opened)) == 16 and opened.faults == ())


# ---- several recordings


def recorder(
    work: Path, name: str, channels: dict[int, list[int]], origin: Optional[str] = NOON, host: str = "fc1", **more: Any
) -> Path:
    """A recording of a host with a program and frames at these counters on each channel, whose interfaces are eth and
    the channel's ID."""
    parts = []
    for channel, found in channels.items():
        frames = [(it, 0, with_check_sequence(numbered(it))) for it in found]
        parts += [program_packet(channel, 0), packet_of(channel, body_of(frames), 0, FRAMES, found[0], True)]
    path = written(work / name, b"".join(parts))
    if origin is not None:
        said: dict[str, Any] = {**facts_of_run([(origin, 0, None)]), "host": host}
        said["interfaces"] = [{"interface": f"eth{it}", "channel": it} for it in channels]
        Path(f"{path}.json").write_text(json.dumps({**said, **more}))
    return path


def test_recordings_that_follow_one_another_have_the_same_channels(work: Path) -> None:
    first, second = recorder(work, "1", {1: [10], 2: [20]}), recorder(work, "2", {1: [30], 2: [40]})
    opened = bpfrec.open(first, second)
    paths = (str(first), str(second))
    wanted = tuple(bpfrec.Channel(it, f"eth{it}", "fc1", it, paths, f"eth{it}") for it in (1, 2))
    judge("two", opened.channels == wanted, opened.channels)
    judge("one after the other", counters(opened) == [(1, 10), (2, 20), (1, 30), (2, 40)])
    filters = [(it.channel, it.path) for it in opened.filters]
    judge("filters are by channel", filters == [(1, paths[0]), (1, paths[1]), (2, paths[0]), (2, paths[1])], filters)
    judge("each has its facts", [it and it.host for it in opened.all_facts] == ["fc1", "fc1"])


def test_channels_of_several_recorders_that_meet_are_numbered_anew(work: Path) -> None:
    """The one given first keeps its ID, each other one has the lowest that no recording has."""
    one = recorder(work, "1", {1: [10], 3: [11]})
    two = recorder(work, "2", {1: [12], 2: [13]}, host="fc2")
    three = recorder(work, "3", {3: [14], 1: [15], 7: [16]}, host="fc3")
    opened = bpfrec.open(one, two, three)
    found = [(it.id, it.recorded_as, it.host, it.name) for it in opened.channels]
    wanted = [(1, 1, "fc1", "eth1"), (2, 2, "fc2", "eth2"), (3, 3, "fc1", "eth3"), (4, 1, "fc2", "eth1")]
    wanted += [(5, 1, "fc3", "eth1"), (6, 3, "fc3", "eth3"), (7, 7, "fc3", "eth7")]
    judge("by the rule", found == wanted, found)
    ids = [(1, 10), (3, 11), (4, 12), (2, 13), (6, 14), (5, 15), (7, 16)]
    judge("and so are their frames", counters(opened) == ids, counters(opened))
    judge("one is chosen by its new ID", counters(opened.frames(5)) == [(5, 15)])
    judge("and all of a name by that", sorted(counters(opened.frames("eth1"))) == [(1, 10), (4, 12), (5, 15)])


def test_frames_of_several_recorders_stand_by_their_times(work: Path) -> None:
    """Whatever their counters are; or one recording after the other."""
    one = recorder(work, "1", {1: [0, 20_000_000]})
    two = recorder(work, "2", {1: [500, 15_000_000, 30_000_000]}, "1764590401.000000000", host="fc2")
    opened = bpfrec.open(one, two)
    found = list(opened)
    times = [it.time_ns for it in found]
    judge("times rise", times == sorted(times, key=lambda it: it or 0) and len(times) == 5, times)
    judge("channels alternate", [it.channel for it in found] == [1, 2, 1, 2, 2], found)
    judge_same("or one after the other", [it.channel for it in opened.frames(by_time=False)], [1, 1, 2, 2, 2])
    judge_same("a slice is of both", list(opened.frames(begin=times[1], end=times[4])), found[1:4])


def test_recordings_without_facts_have_channels_of_their_own(work: Path) -> None:
    one, two = recorder(work, "1", {1: [10, 30]}, None), recorder(work, "2", {1: [20]}, None)
    opened = bpfrec.open(one, two)
    found = [(it.id, it.name, it.host, it.recorded_as, it.paths) for it in opened.channels]
    judge_same("two", found, [(1, "channel 1", "", 1, (str(one),)), (2, "channel 2", "", 1, (str(two),))])
    judge("merged by their counters", counters(opened) == [(1, 10), (2, 20), (1, 30)])


def test_a_file_that_is_given_twice_is_refused(work: Path) -> None:
    """By another path and by links too; a copy of it is another file."""
    one, two = recorder(work, "1", {1: [10]}, None), recorder(work, "2", {1: [20]}, None)
    (work / "folder").mkdir()
    (work / "symbolic").symlink_to(one)
    os.link(one, work / "hard")
    with pytest.raises(ValueError, match="^/.*/1 is given twice$"):
        bpfrec.open(one, two, one)
    for name in ("folder/../1", "symbolic", "hard"):
        with pytest.raises(ValueError, match=f"^/.*/1 is given twice, as /.*/{name} too$"):
            bpfrec.open(two, one, work / name)
    other = written(work / "copy", one.read_bytes())
    judge("a copy is read", len(list(bpfrec.open(one, two, other))) == 3)


def test_times_step_where_a_clock_was_set(work: Path) -> None:
    """By time frames stand as they came."""
    one, two = recorder(work, "1", {1: [10, 30], 2: [20, 40]}), recorder(work, "2", {1: [25]}, host="fc2")
    origins = [(NOON, 0, None), ("1764590399.250000000", 15, None)]
    for path, host in ((one, "fc1"), (two, "fc2")):
        Path(f"{path}.json").write_text(json.dumps({**facts_of_run(origins), "host": host}))
    found = list(bpfrec.open(one, two))
    judge("in the order of their counters", [it.counter for it in found] == [10, 20, 25, 30, 40], found)
    times = [it.time_ns or 0 for it in found]
    holds = times[1] - times[0] == 10 * 100 - 10**9 and times[1:] == sorted(times[1:])
    judge("a second back behind the first", holds)


def test_recordings_with_facts_and_without_are_refused(work: Path) -> None:
    one, two = recorder(work, "1", {1: [10]}), recorder(work, "2", {1: [20]}, None)
    with pytest.raises(ValueError, match="2 has none, so their times can't be compared"):
        bpfrec.open(one, two)
    judge("without times they are merged", len(list(bpfrec.open(one, two, facts=False))) == 2)
    with pytest.raises(TypeError):
        bpfrec.open(one, two, facts=work / "1.json")


def test_damage_of_one_recording_is_that_of_its_file(work: Path) -> None:
    one, two = recorder(work, "1", {1: [10]}), recorder(work, "2", {2: [20]}, host="fc2")
    two.write_bytes(two.read_bytes()[:-1])
    with pytest.raises(bpfrec.Damaged) as caught:
        list(bpfrec.open(one, two))
    judge("it is named", caught.value.path == str(two) and caught.value.kind == "Truncated")
    with pytest.raises(bpfrec.Damaged):
        next(iter(bpfrec.open(one, two)))
    opened = bpfrec.open(one, two, skip_damage=True)
    judge("the other is read", counters(opened) == [(1, 10)] and [it.path for it in opened.faults] == [str(two)])
    found: list[bpfrec.Frame] = []
    with pytest.raises(bpfrec.Damaged):
        for frame in bpfrec.open(one, two).frames(by_time=False):
            found.append(frame)
    judge("in order it comes behind the first", counters(found) == [(1, 10)])


def test_a_recording_beside_a_whole_file_is_merged_by_time(work: Path) -> None:
    made = DrawnRecording()
    made.add_frames(5, [(1_000, 0, 60)])
    whole = written(work / "x.ch10", bytes(whole_file(bytes(made.data), SAMPLE_SETUP).data))
    other = recorder(work, "1", {5: [2_000]}, "1764590400.250000123", host="fc2")
    found = [(it.channel, it.time_ns) for it in bpfrec.open(other, whole)]
    judge("it is", found == [(1, ORIGIN // 100 * 100 + 100_000), (5, ORIGIN + 200_000)], found)
