"""Tries the Python package `bpfrec` on damaged recordings and other files: what it refuses, what it keeps in memory, and
what it promises."""

import copy
import gc
import inspect
import os
import pickle
import tracemalloc
import warnings
from dataclasses import fields, is_dataclass, replace
from pathlib import Path
from typing import Callable

import bpfrec
import pytest
from frames import COMPUTER, FRAMES, body_of, packet_of, program_packet
from small_recordings import FRAME, IN_ORDER, PACKETS, counters, packet, recording, written
from support import MEBIBYTE, judge, judge_quietly


def damaged(change: Callable[[bytearray], object]) -> bytes:
    data = bytearray(recording())
    change(data)
    return bytes(data)


def test_the_frames_ahead_of_a_damaged_place_come_first(work: Path) -> None:
    """Then the reading ends there, or goes on behind it and lists it."""
    at = recording().index(packet(*PACKETS[1]))
    path = written(work, damaged(lambda it: it.__setitem__(at + 60, 1)))
    opened = bpfrec.open(path)
    found: list[bpfrec.Frame] = []
    with pytest.raises(bpfrec.Damaged) as caught:
        for frame in opened:
            found.append(frame)
    fault = bpfrec.Fault(str(path), at, "DataChecksum", len(packet(*PACKETS[1])))
    judge("three came", counters(found) == IN_ORDER[:3], found)
    judge("it says where", (caught.value.place, caught.value.kind) == (at, "DataChecksum"), caught.value)
    judge("and on a line", str(caught.value) == f"{path}: DataChecksum at byte {at}")
    judge("and lists it", opened.faults == (fault,), opened.faults)
    skipping = bpfrec.open(path, skip_damage=True)
    judge("frames behind it are read", counters(skipping) == IN_ORDER[:3] + IN_ORDER[5:])
    judge("it is listed once", counters(skipping) == IN_ORDER[:3] + IN_ORDER[5:] and skipping.faults == (fault,))


def test_by_time_a_damaged_header_is_reported_ahead_of_all_frames(work: Path) -> None:
    at = recording().index(packet(*PACKETS[2]))
    path = written(work, damaged(lambda it: it.__setitem__(at, 1)))
    with pytest.raises(bpfrec.Damaged, match="Sync"):
        next(bpfrec.open(path).frames(by_time=True))
    judge("in order it comes in its place", next(bpfrec.open(path).frames()).counter == 10)
    opened = bpfrec.open(path, skip_damage=True)
    judge("and all others can be read", len(counters(opened.frames(by_time=True))) == 7 and len(opened.faults) == 1)


def test_by_time_damage_of_data_is_reported_when_they_are_read(work: Path) -> None:
    """Of the last packet too, behind which none is read."""
    at = recording().index(packet(*PACKETS[3]))
    opened = bpfrec.open(written(work, damaged(lambda it: it.__setitem__(at + 60, 1))))
    with pytest.raises(bpfrec.Damaged, match=f"DataChecksum at byte {at}$"):
        list(opened.frames(channels=2, by_time=True))


def test_damage_behind_the_last_frame_is_no_silent_end(work: Path) -> None:
    path = written(work, recording()[:-1])
    opened = bpfrec.open(path)
    found: list[bpfrec.Frame] = []
    with pytest.raises(bpfrec.Damaged, match="Truncated"):
        found.extend(opened.frames(channels=[]))
    judge("the end isn't there", opened.ends == ())


def frames_until_damage(path: Path, skip_damage: bool) -> list[bpfrec.Frame]:
    """The frames of a file, up to damage that is reported."""
    found: list[bpfrec.Frame] = []
    try:
        with bpfrec.open(path, skip_damage=skip_damage) as opened:
            _ = opened.channels, opened.filters, opened.ends, opened.faults
            for frame in opened:
                found.append(frame)
    except (bpfrec.Damaged, bpfrec.NotARecording):
        pass
    return found


def test_a_recording_that_is_cut_anywhere_has_the_frames_before(work: Path) -> None:
    data, whole = recording(), list(bpfrec.open(written(work, recording())))
    for length in range(len(data)):
        path = written(work, data[:length])
        for skip_damage in (False, True):
            found = frames_until_damage(path, skip_damage)
            judge_quietly(f"cut to {length}", found == whole[: len(found)])


def test_no_byte_leads_to_another_exception(work: Path) -> None:
    """Whatever one byte is; and frames are never others, since both checksums are judged."""
    data, whole = recording(), list(bpfrec.open(written(work, recording())))
    plain = [replace(it, version=None) for it in whole]
    for at in range(0, len(data), 3):
        for value in (0x00, 0xFF):
            path = written(work, data[:at] + bytes([value]) + data[at + 1 :])
            for skip_damage in (False, True):
                found = [replace(it, version=None) for it in frames_until_damage(path, skip_damage)]
                judge_quietly(f"byte {at} set to {value}", all(it in plain for it in found), found)


def test_what_is_no_recording_is_refused(work: Path) -> None:
    for data in (b"x", b"no recording at all, but a text", bytes(100), recording()[:23], recording()[1:]):
        path = written(work, data)
        with pytest.raises(bpfrec.NotARecording, match="x.ch11: it doesn't begin as a recording: "):
            bpfrec.open(path)
    with pytest.raises(bpfrec.NotARecording, match="no packet of a recording is in it"):
        bpfrec.open(written(work, b"no recording at all, but a text"), skip_damage=True)
    os.mkfifo(work / "pipe")
    for other in (work, work / "pipe"):
        with pytest.raises(bpfrec.NotARecording, match="it is no regular file"):
            bpfrec.open(other)
    with pytest.raises(FileNotFoundError):
        bpfrec.open(work / "none")


def test_what_the_package_raises_of_recordings_is_its_error_and_no_value_error(work: Path) -> None:
    """So damage is apart from a wrong argument; a channel that there isn't is a LookupError too."""
    given = [getattr(bpfrec, it) for it in bpfrec.__all__]
    raised = [it for it in given if isinstance(it, type) and issubclass(it, Exception)]
    judge("all of them", len(raised) == 6 and all(issubclass(it, bpfrec.Error) for it in raised), raised)
    judge("and none is a ValueError", not any(issubclass(it, ValueError) for it in raised))
    judge("but one a LookupError", [it for it in raised if issubclass(it, LookupError)] == [bpfrec.UnknownChannel])
    path = written(work, recording()[:-1])
    with pytest.raises(bpfrec.Damaged) as caught:
        list(bpfrec.open(path))
    copied = pickle.loads(pickle.dumps(caught.value))
    judge("each can be copied", (copied.args, str(copied)) == (caught.value.args, str(caught.value)), copied)


def test_behind_a_damaged_program_frames_have_the_version_before(work: Path) -> None:
    parts = [program_packet(1, 0), packet(1, [1]), program_packet(1, 1), packet(1, [2]), program_packet(1, 2)]
    data = bytearray(b"".join([*parts, packet(1, [3])]))
    data[sum(map(len, parts[:2])) + 60] ^= 1
    opened = bpfrec.open(written(work, bytes(data)), skip_damage=True)
    judge("of the second frame it is 0", [it.version for it in opened] == [0, 0, 2])
    judge("and the place is listed", len(opened.faults) == 1 and [it.version for it in opened.filters] == [0, 2])


def test_damage_at_the_very_beginning_can_be_skipped(work: Path) -> None:
    opened = bpfrec.open(written(work, bytes(8) + recording()), skip_damage=True)
    judge("all frames are there", counters(opened) == IN_ORDER and len(opened.faults) == 1, opened.faults)


def test_an_empty_recording_has_nothing(work: Path) -> None:
    opened = bpfrec.open(written(work, b""))
    holds = list(opened) == [] and (opened.channels, opened.filters, opened.ends, opened.faults) == ((),) * 4
    judge("no frames", holds)


def test_packets_of_other_kinds_are_left_alone(work: Path) -> None:
    """Another recorder's, with a secondary header, and of another format of frames."""
    body = bytearray(body_of([(1, 0, FRAME)]))
    body[3] = 0x10
    others = [packet_of(3, bytes(8), 0, 0x40, 0, True), packet_of(0, bytes(40), 0, COMPUTER, 0, True)]
    path = written(work, b"".join([*others, packet_of(1, bytes(body), 0, FRAMES, 1, True), packet(1, [5])]))
    judge("one frame is left", counters(bpfrec.open(path)) == [(1, 5)])


def test_a_recording_that_changes_meanwhile_is_read_as_it_was_or_is_damaged(work: Path) -> None:
    """What is added later isn't read; what is cut off is damaged when the reading comes to it."""
    path = written(work, recording())
    opened = bpfrec.open(path)
    with open(path, "ab") as file:
        file.write(packet(1, [99]))
    judge("as it was", counters(opened) == IN_ORDER)
    os.truncate(path, recording().index(packet(*PACKETS[2])) + 40)
    found: list[bpfrec.Frame] = []
    with pytest.raises(bpfrec.Damaged, match="Truncated"):
        for frame in opened:
            found.append(frame)
    judge("the frames before are read", counters(found) == IN_ORDER[:5], found)


# ---- files, memory, and what is promised


def test_files_are_closed(work: Path) -> None:
    """By `close`, by `with`, and where nothing refers to a recording any more, without a warning."""
    path = written(work, recording())
    # Recordings of other tests, which an exception may still refer to.
    gc.collect()
    before = len(os.listdir("/proc/self/fd"))
    with warnings.catch_warnings(record=True) as said:
        warnings.simplefilter("always")
        with bpfrec.open(path) as opened:
            list(opened)
        for _ in bpfrec.open(path):
            break
        bpfrec.open(path).close()
        for data in (b"x", recording()[:40]):
            frames_until_damage(written(work, data), True)
        gc.collect()
    judge("all are", len(os.listdir("/proc/self/fd")) == before)
    judge("and Python warns of none", not said, [str(it.message) for it in said])


def test_a_recording_that_is_closed_is_refused_by_its_name(work: Path) -> None:
    """Where its frames are asked for, and where the reading goes on."""
    path = written(work, recording())
    opened = bpfrec.open(path)
    begun = iter(opened)
    judge("three come of the packet that is read", next(begun).counter == 10)
    opened.close()
    every: list[Callable[[], object]] = [lambda: opened.frames(channels=[]), opened.frames, lambda: list(begun)]
    for reading in every:
        with pytest.raises(ValueError, match="/x.ch11: the recording is closed$"):
            reading()
    judge("what is known of it stays", len(opened.channels) == 2 and len(opened.filters) == 2)


@pytest.mark.parametrize("copied", [copy.copy, copy.deepcopy, pickle.dumps])
def test_no_copy_closes_the_files_of_a_recording(work: Path, copied: Callable[[object], object]) -> None:
    opened = bpfrec.open(written(work, recording()))
    with pytest.raises(TypeError, match="^<bpfrec.Recording .*x.ch11> can't be copied: open it again$"):
        copied(opened)
    gc.collect()
    judge("it can still be read", counters(opened) == IN_ORDER)


def test_one_packet_is_in_memory(work: Path) -> None:
    """Of 32 MiB in packets of half a mebibyte."""
    body = body_of((it, 0, bytes(16_383)) for it in range(31))
    path = written(work, b"".join(packet_of(1, body, it, FRAMES, 0, True) for it in range(64)))
    tracemalloc.start()
    try:
        count = sum(1 for _ in bpfrec.open(path))
        most = tracemalloc.get_traced_memory()[1]
    finally:
        tracemalloc.stop()
    judge("a few packets at most", count == 64 * 31 and most < 8 * MEBIBYTE, most)


def test_a_file_named_minus_is_a_file(work: Path, monkeypatch: pytest.MonkeyPatch) -> None:
    (work / "-").write_bytes(packet(1, [5]))
    monkeypatch.chdir(work)
    opened = bpfrec.open("-")
    judge("it is", counters(opened) == [(1, 5)] and opened.paths == ("-",))


def public_of(thing: object) -> list[str]:
    return [it for it in vars(thing) if not it.startswith("_")]


def test_all_that_is_promised_says_what_it_means() -> None:
    judge("the names are there", sorted(bpfrec.__all__) == list(bpfrec.__all__))
    for name in bpfrec.__all__:
        thing = getattr(bpfrec, name)
        judge_quietly(f"{name} has a text", inspect.getdoc(thing))
        for attribute in public_of(thing) if inspect.isclass(thing) else []:
            text = inspect.getdoc(inspect.getattr_static(thing, attribute)) or ""
            is_field = is_dataclass(thing) and attribute in {it.name for it in fields(thing)}
            judge_quietly(f"{name}.{attribute}", is_field or len(text) > 20, text)
    judge("and its types are promised", (Path(bpfrec.__file__).parent / "py.typed").exists())
