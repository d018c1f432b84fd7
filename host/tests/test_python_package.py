"""Tries the Python package `bpfrec` on small recordings: frames, times, slices and filters.

test_python_package_damage.py has damaged recordings, and test_python_package_several.py whole Chapter 11 files and
several recordings.
"""

import json
import zlib
from datetime import date, datetime, timedelta, timezone
from pathlib import Path
from typing import Any, Optional

import bpfrec
import pytest
from expected_facts import BEFORE_1970, TAI_37, THREE_ORIGINS, UNKNOWN_SCALE, facts_of_run, is_utc, moments_by
from frames import FRAMES, body_of, frames_packet, numbered, packet_of, program_packet
from small_recordings import FRAME, IN_ORDER, NOON, ONE_ORIGIN, counters, packet, recording, written
from support import SECOND, judge, judge_quietly, judge_same


def placed(frame: bpfrec.Frame) -> tuple[int, int, bytes]:
    """Where a frame stands among others."""
    return frame.channel, frame.counter, frame.bytes


class OfNumpy:
    """An integer of another type than int, as numpy has its own."""

    def __init__(self, number: int) -> None:
        self.number = number

    def __index__(self) -> int:
        return self.number


# ---- frames


def test_frames_have_what_their_packets_say(work: Path) -> None:
    """Each bit of a frame's word in its attribute, the greatest numbers too."""
    table = [
        (0, (False, False, 0, 0)),
        (1 << 31, (True, False, 0, 0)),
        (1 << 30, (False, True, 0, 0)),
        (3 << 30 | 15 << 24 | 255 << 16 | 3 << 14, (True, True, 255, 15)),
        (1 << 24 | 1 << 16, (False, False, 1, 1)),
    ]
    frames = [(2**48 - 1 - at, word, FRAME + bytes(at)) for at, (word, _) in enumerate(table)]
    path = written(work, program_packet(9, 3) + packet_of(9, body_of(frames), 0, FRAMES, 5, True))
    wanted = [
        bpfrec.Frame(9, 2**48 - 1 - at, None, FRAME + bytes(at), *flags, version=3)
        for at, (_, flags) in enumerate(table)
    ]
    found = list(bpfrec.open(path))
    judge("each does", found == wanted, found)
    judge("with their types", all(type(it.fcs_wrong) is bool and type(it.bytes) is bytes for it in found))


def test_a_frame_ends_with_its_check_sequence(work: Path) -> None:
    (frame,) = bpfrec.open(written(work, frames_packet([(5, 0, FRAME)], 0, 5, True)))
    judge("bytes have it", frame.bytes == FRAME)
    judge("as a number", frame.fcs == zlib.crc32(frame.without_fcs) == int.from_bytes(FRAME[-4:], "little"))
    judge("and the rest is without it", frame.without_fcs == numbered(7))
    judge("no program stands before it", frame.version is None)


@pytest.mark.parametrize("is_summed", [False, True])
def test_what_no_frame_with_its_check_sequence_is_is_skipped_and_counted(work: Path, is_summed: bool) -> None:
    """Another content, or fewer than 18 bytes; in both profiles."""
    frames = [(1, 1 << 28, FRAME), (2, 0, FRAME[:17]), (3, 0, FRAME[:18]), (4, 3 << 28, FRAME), (5, 0, b"")]
    opened = bpfrec.open(written(work, frames_packet(frames, 0, 1, is_summed)))
    reading = opened.frames()
    judge("none so far", reading.skipped == 0)
    judge("one is left", counters(reading) == [(1, 3)])
    judge("four are counted", reading.skipped == 4)
    second = opened.frames(1)
    judge("by each reading its own", counters(second) == [(1, 3)] and (second.skipped, reading.skipped) == (4, 4))


def test_a_frame_has_the_version_that_was_in_force(work: Path) -> None:
    parts = [program_packet(1, 0), packet(1, [1]), program_packet(1, 1), program_packet(1, 5), packet(1, [2, 3])]
    judge_same("the last before it", [it.version for it in bpfrec.open(written(work, b"".join(parts)))], [0, 5, 5])


def test_frames_stand_packet_by_packet_or_by_time(work: Path) -> None:
    opened = bpfrec.open(written(work, recording()))
    judge("as in the recording", counters(opened) == IN_ORDER == counters(opened.frames(by_time=False)))
    by_time = [it for it in opened.frames(by_time=True)]
    judge("by time", counters(by_time) == sorted(IN_ORDER, key=lambda it: it[1]), counters(by_time))
    judge("the same frames", sorted(by_time, key=placed) == sorted(opened, key=placed))


def test_of_equal_times_the_lower_channel_goes_first(work: Path) -> None:
    opened = bpfrec.open(written(work, packet(2, [5, 7]) + packet(1, [5, 7])))
    judge("it does", counters(opened.frames(by_time=True)) == [(1, 5), (2, 5), (1, 7), (2, 7)])


# ---- times


@pytest.mark.parametrize("origins", [ONE_ORIGIN, THREE_ORIGINS, BEFORE_1970, TAI_37])
def test_times_are_those_of_the_facts(work: Path, origins: list[tuple]) -> None:
    """Of a clock that was set, of TAI and of times before 1970 too, to the nanosecond."""
    ticks = [0, 8, 9, 16, 17, 31, 32, 33, 2**40]
    opened = bpfrec.open(written(work, packet(1, ticks), origins))
    found = [it.time_ns for it in opened]
    judge("of each frame", found == moments_by(origins, ticks), found)
    moments = [it.datetime for it in opened]
    wanted = [datetime(1970, 1, 1, tzinfo=timezone.utc) + timedelta(microseconds=it // 1_000) for it in found if it]
    judge("as a datetime too", moments == wanted, moments)


def test_a_time_that_nobody_knows_is_none(work: Path) -> None:
    """Without facts, with an unknown scale, and before the first origin."""
    mixed = [*UNKNOWN_SCALE, ("1764590437.250000123", 17, None, "TAI", 37)]
    late = [("1764590400.250000000", 9, None)]
    for origins, wanted in [(None, [0, 0, 0]), (UNKNOWN_SCALE, [0, 0, 0]), (mixed, [0, 0, 1]), (late, [0, 1, 1])]:
        found = list(bpfrec.open(written(work, packet(1, [8, 9, 17]), origins)))
        judge_quietly(f"{origins}", [it.time_ns is not None for it in found] == wanted, found)
        judge_quietly("nor is there a datetime", [it.datetime is not None for it in found] == wanted)
        judge_quietly("by the rule", not origins or wanted == [is_utc(origins, it) for it in (8, 9, 17)])


def test_facts_are_those_beside_the_recording_or_those_that_are_named(work: Path) -> None:
    path = written(work, packet(1, [0]), ONE_ORIGIN)
    other = work / "other.json"
    other.write_text(json.dumps(facts_of_run([("7.000000000", 0, None)])))
    table: list[tuple[Any, Optional[int]]] = [(None, NOON), (True, NOON), (False, None), (other, 7 * SECOND)]
    for given, wanted in table:
        judge_quietly(f"facts={given}", [it.time_ns for it in bpfrec.open(path, facts=given)] == [wanted])
    other.write_text("{}")
    with pytest.raises(bpfrec.BadFacts, match="other.json: no facts of a recording: facts isn't 1"):
        bpfrec.open(path, facts=other)
    with pytest.raises(FileNotFoundError):
        bpfrec.open(path, facts=work / "none.json")
    Path(f"{path}.json").unlink()
    judge("without facts there are no times", [it.time_ns for it in bpfrec.open(path)] == [None])
    with pytest.raises(FileNotFoundError):
        bpfrec.open(path, facts=True)


def test_facts_have_names_origins_losses_and_marks(work: Path) -> None:
    losses = facts_of_run(TAI_37, [(1, 2, 3), (10, 0, 0)])["losses"]
    path = written(work, packet(1, [0]), TAI_37, losses=losses, marks=[{"counter": 20, "text": "gear up"}])
    found = bpfrec.open(path).facts
    origins = (bpfrec.Origin(0, NOON, "UTC", 0), bpfrec.Origin(17, NOON + 123, "TAI", 37))
    marks = (bpfrec.Mark(20, NOON + 123 + 2_000, "gear up"),)
    lost = {"dropped": 11, "missed": 2, "skipped": 3}
    judge_same("all of them", found, bpfrec.Facts("fc1", "bpfrec 0.1.0", {1: "eth0"}, origins, lost, marks))
    judge("without facts it is None", bpfrec.open(path, facts=False).facts is None)


# ---- channels and slices


@pytest.mark.parametrize(
    "asked, wanted", [(1, {1}), ("eth0", {1}), ([2], {2}), ({"channel 2", 1}, {1, 2}), ([], set())]
)
def test_channels_are_chosen_by_their_ids_and_names(work: Path, asked: Any, wanted: set[int]) -> None:
    opened = bpfrec.open(written(work, recording(), ONE_ORIGIN))
    for by_time in (False, True):
        found = counters(opened.frames(channels=asked, by_time=by_time))
        judge_quietly(f"{found}", sorted(found) == sorted(it for it in IN_ORDER if it[0] in wanted))


def test_a_channel_that_no_recording_has_is_refused(work: Path) -> None:
    opened = bpfrec.open(written(work, recording()))
    every: list[tuple[Any, str]] = [
        (3, "3"),
        ("eth0", "named eth0"),
        ([1, 3], "3"),
        (bpfrec.Channel(3, "", "", 3, ()), "3"),
    ]
    every += [("1", "named 1; an ID is given as an int")]
    for asked, named in every:
        with pytest.raises(bpfrec.UnknownChannel, match=f"x.ch11: no channel {named}$"):
            opened.frames(channels=asked)


def test_a_channel_is_chosen_by_itself_and_by_any_integer(work: Path) -> None:
    """As an element of `channels`, alone or in a list, and as a number of another type, as numpy has its own."""
    opened = bpfrec.open(written(work, recording()))
    first, second = opened.channels
    table: list[tuple[Any, list[tuple[int, int]]]] = [
        (second, [it for it in IN_ORDER if it[0] == 2]),
        ([first], [it for it in IN_ORDER if it[0] == 1]),
        (opened.channels, IN_ORDER),
        (OfNumpy(2), [it for it in IN_ORDER if it[0] == 2]),
        ([OfNumpy(1), second], IN_ORDER),
    ]
    for asked, wanted in table:
        judge_quietly(f"{asked}", counters(opened.frames(channels=asked)) == wanted)


@pytest.mark.parametrize("asked", [1.0, b"eth0", bytearray(b"eth0"), [1.0], [b"eth0"], [[1]], object()])
def test_what_names_no_channel_is_refused(work: Path, asked: Any) -> None:
    """Bytes are no list of numbers, and 1.0 isn't 1."""
    with pytest.raises(TypeError, match="^channels takes a channel's ID as an int, its name as a str, a Channel, or "):
        bpfrec.open(written(work, recording())).frames(channels=asked)


@pytest.mark.parametrize("origins", [ONE_ORIGIN, TAI_37, THREE_ORIGINS])
def test_a_slice_has_the_frames_from_one_time_on_and_before_another(work: Path, origins: list[tuple]) -> None:
    """At each pair of the frames' own times, of a clock that was set too."""
    opened = bpfrec.open(written(work, recording(), origins))
    every = [it for it in opened]
    times = sorted({it.time_ns for it in every if it.time_ns is not None})
    for begin in [None, *times, times[-1] + 1]:
        for end in [None, *times]:
            wanted = [it for it in every if (begin or 0) <= (it.time_ns or 0) < (end or 1 << 63)]
            judge_quietly(f"{begin} to {end}", list(opened.frames(begin=begin, end=end)) == wanted)
    judge(f"{len(times)} times", len(times) == 8)


def test_a_slice_takes_a_datetime_with_its_time_zone(work: Path) -> None:
    opened = bpfrec.open(written(work, recording(), ONE_ORIGIN))
    at = datetime(2025, 12, 1, 13, 0, 0, 250_002, timezone(timedelta(hours=1)))
    judge("from it on", counters(opened.frames(1, begin=at)) == [(1, 20), (1, 30), (1, 40)])
    with pytest.raises(ValueError, match="has no time zone"):
        opened.frames(begin=at.replace(tzinfo=None))


def test_a_slice_takes_any_integer(work: Path) -> None:
    opened = bpfrec.open(written(work, recording(), ONE_ORIGIN))
    begin: Any = OfNumpy(NOON + 2_000)
    judge("as an int", counters(opened.frames(1, begin=begin)) == [(1, 20), (1, 30), (1, 40)])


@pytest.mark.parametrize("name", ["begin", "end"])
@pytest.mark.parametrize("time", [12.5, "2025-12-01", date(2025, 12, 1), [NOON]])
def test_what_is_no_time_is_refused(work: Path, name: str, time: Any) -> None:
    """With the name of the argument, and what it takes."""
    takes = "takes a datetime with its time zone, or nanoseconds since 1970 UTC as an int, not "
    with pytest.raises(TypeError, match=f"^{name} {takes}"):
        bpfrec.open(written(work, recording(), ONE_ORIGIN)).frames(**{name: time})


@pytest.mark.parametrize(
    "origins, why", [(None, "there are no facts"), (UNKNOWN_SCALE, "scale of its times is unknown")]
)
def test_a_slice_of_a_recording_without_times_is_refused(work: Path, origins: Any, why: str) -> None:
    with pytest.raises(bpfrec.NoTimes, match=f"^/.*/x.ch11: the {why}|there are no facts"):
        bpfrec.open(written(work, recording(), origins)).frames(begin=0)


def test_a_slice_reads_no_packet_that_is_outside_of_it(work: Path) -> None:
    """So the damage of the last packet isn't seen."""
    data = bytearray(packet(1, [10]) + packet(1, [1_000], 1) + packet(1, [2_000], 2))
    data[-30] ^= 1
    opened = bpfrec.open(written(work, bytes(data), ONE_ORIGIN))
    judge("the first", counters(opened.frames(end=NOON + 50_000)) == [(1, 10)] and not opened.faults)
    with pytest.raises(bpfrec.Damaged, match="DataChecksum"):
        list(opened.frames(begin=NOON + 150_000))


# ---- what else a recording says


def test_channels_filters_and_ends_are_those_of_the_recording(work: Path) -> None:
    """With the expression of a listing that has the same instructions, written on lines or not."""
    filters = [
        {"channel": 1, "listing": "1\n6 0 0 1\n", "text": "ret #1\n", "expression": "udp"},
        {"channel": 2, "listing": "1,6 0 0 2,", "text": "ret #2\n", "expression": "arp"},
    ]
    opened = bpfrec.open(written(work, recording(), ONE_ORIGIN, filters=filters))
    path = str(work / "x.ch11")
    channels = (bpfrec.Channel(1, "eth0", "fc1", 1, (path,), "eth0"), bpfrec.Channel(2, "channel 2", "fc1", 2, (path,)))
    judge("channels", opened.channels == channels, opened.channels)
    judge("the end", opened.ends == (bpfrec.End(1, 4, 4, path),), opened.ends)
    wanted = tuple(
        bpfrec.Filter(channel, 0, 0, 0, NOON, "1,6 0 0 1,", expression, path)
        for channel, expression in ((1, "udp"), (2, None))
    )
    judge("filters", opened.filters == wanted, opened.filters)
    judge("with a datetime", opened.filters[0].datetime == datetime(2025, 12, 1, 12, 0, 0, 250_000, timezone.utc))


def test_a_channel_has_the_name_of_the_settings_and_is_found_by_it(work: Path) -> None:
    interfaces = [{"interface": "eth0", "channel": 1, "name": "bus A"}]
    opened = bpfrec.open(written(work, recording(), ONE_ORIGIN, interfaces=interfaces))
    found = [(it.name, it.interface) for it in opened.channels]
    judge("its name, and its interface", found == [("bus A", "eth0"), ("channel 2", None)], found)
    by = [counters(opened.frames("bus A")), counters(opened.frames("eth0")), counters(opened.frames(1))]
    judge("by each of the three", by[0] and by[0] == by[1] == by[2], by)


def test_a_change_of_a_filter_has_its_first_frame_and_its_counter(work: Path) -> None:
    data = program_packet(1, 0, (6, 0, 0, 9), count=2)[24:]
    changed = packet_of(
        0, data[:12] + (7).to_bytes(4, "little") + (33).to_bytes(8, "little") + data[24:-4], 1, 0, 16, True
    )
    opened = bpfrec.open(written(work, program_packet(1, 0) + packet(1, [10]) + changed + packet(1, [16]), ONE_ORIGIN))
    found = opened.filters[1]
    wanted = bpfrec.Filter(1, 7, 33, 16, NOON + 1_600, "2,6 0 0 9,6 0 0 9,", None, str(work / "x.ch11"))
    judge("both", found == wanted and len(opened.filters) == 2, opened.filters)
    judge("and the frame behind it has its version", [it.version for it in opened] == [0, 7])
