"""Tries what the status knows of a run: a minute by a script, recordings that follow one another, what it keeps.

Its moments are the script's, so nothing waits here.
"""

import os
import sys
import tracemalloc
from pathlib import Path

import pytest
from bpfrec_tools.live.status.channel import Channel
from frames import end_packet
from scripted import (
    BEGIN,
    FRAME_LENGTH,
    HISTORY_SECONDS,
    Counts,
    Flight,
    Setup,
    Status,
    Wire,
    channel_of,
    frames,
    program,
    view_of,
    wires_of,
)
from support import judge, judge_quietly, judge_same, present

# ---- interfaces without frames


def test_an_interface_that_was_away_before_the_recording_began_is_so_in_it(work: Path) -> None:
    flight = Flight(work, {1: Wire("eth0"), 7: Wire("eth1")})
    flight.status.linked("eth1", "no carrier", flight.now())
    flight.begin()
    judge("the other one isn't", [channel_of(flight, it).link.is_away for it in (1, 7)] == [False, True])
    flight.status.linked("eth1", None, flight.now())
    flight.status.linked("eth1", "down", flight.now())
    found = channel_of(flight, 7).link
    judge("each is counted", (found.why, found.interruptions) == ("down", 2), found)


# ---- a minute


def test_what_was_kept_has_come(work: Path) -> None:
    """The capture's counts of a second may be older than what the recording has."""
    channel = Channel(Setup(1, "eth0"), 0.0)
    channel.count(Counts(10, 640, 1, 0, 0, 5), 1.0)
    channel.keep(12, 768, 1.5)
    judge_same("as many at least", channel.view(1.6).counts, Counts(12, 768, 1, 0, 0, 5))
    channel.count(Counts(30, 1_920, 1, 0, 0, 5), 2.0)
    judge("and then more", channel.view(2.1).counts == channel.counts)


def test_a_minute_of_two_channels_has_the_numbers_that_were_played(work: Path) -> None:
    """Two channels: one keeps all until second 30, one keeps a fifth and loses frames in three seconds."""
    wires = {
        1: Wire("eth0", frames=400, kept=100, end=30),
        7: Wire("eth1", frames=500, kept=20, dropped=9, drops_at=(10, 11, 59), waited=40),
    }
    flight = Flight(work, wires).flown(75)
    one, seven = channel_of(flight, 1), channel_of(flight, 7)
    judge("a minute is kept, a second each", [len(it.history) for it in (one, seven)] == [60, 60])
    offered = [it.offered_frames for it in one.history]
    judge("frames that came a second, up to their end", offered == pytest.approx([400.0] * 15 + [0.0] * 45), offered)
    sizes = [it.offered_bytes for it in one.history]
    judge("and their bytes", sizes == pytest.approx([400.0 * FRAME_LENGTH] * 15 + [0.0] * 45), sizes)
    judge("all were kept", (one.kept_frames, one.kept_bytes) == (12_000, 12_000 * FRAME_LENGTH), one[:11])
    judge_same("as packets came", [it.kept_frames for it in one.history], [400.0] * 15 + [0.0] * 45)
    judge("the last frame is 45.3 s old", one.frame_age == pytest.approx(45.3), one.frame_age)
    holds = (seven.kept_frames, sum(it.kept_frames for it in seven.history)) == (7_400, 6_000)
    judge("a fifth was kept", holds, seven[:11])
    judge("the counts are the capture's", seven.counts == Counts(37_500, 37_500 * FRAME_LENGTH, 27, 0, 0, 3_000))
    lost = [at for at, it in enumerate(seven.history) if it.dropped]
    judge("losses stand in their second", lost == [43] and seven.history[43].dropped == 9, lost)
    judge("the pipe waited each second", {it.waited for it in seven.history} == {40})
    judge("the last loss is 16.3 s old", seven.lost_age == pytest.approx(16.3), seven.lost_age)
    judge("the last frame is of this second", seven.frame_age == pytest.approx(0.3))


def test_a_recording_has_its_name_its_length_and_its_time(work: Path) -> None:
    flight = Flight(work, {1: Wire("eth0", frames=400)})
    judge("nothing is recorded yet", view_of(flight).state == "waiting" and view_of(flight).disk is None)
    flight.begin()
    flight.pass_seconds(10)
    found = view_of(flight)
    size, begin = flight.path.stat().st_size, len(program(1, 0))
    judge("it is recording", found.state == "recording" and found.uptime == 10)
    holds = present(found.recording)[:4] == (1, "flight.ch11", 10, size)
    judge("its length is the file's, all of it was read", holds, found.recording)
    judge("and nothing is wrong", (present(found.recording).unread, present(found.recording).fault) == (0, None))
    holds = present(found.recording).bytes_per_second == pytest.approx(size / 10)
    judge("its rate is that of its seconds", holds, begin)
    judge("the disk's room is told", present(found.disk).free > 0)
    left = present(present(found.disk).free) / present(present(found.recording).bytes_per_second)
    judge("and until when", present(found.disk).seconds_left == pytest.approx(left), found.disk)
    judge("the sync's age is told", found.sync[0] == 1 and found.sync.age == pytest.approx(0.1))


def test_the_rate_is_that_of_the_last_minute(work: Path) -> None:
    found = view_of(Flight(work, {1: Wire("eth0", frames=400, end=20)}).flown(90))
    judge("a recording that stands has no rate, and its disk has time", present(found.recording).bytes_per_second == 0)
    judge("for ever", present(found.disk).seconds_left is None)


def test_a_disk_on_which_room_is_made_is_not_full_soon(work: Path) -> None:
    found = view_of(Flight(work, {1: Wire("eth0", frames=400)}, has_ring=True).flown(10))
    holds = present(found.disk).seconds_left is None and present(found.disk).free > 0
    judge("a disk on which room is made isn't full soon", holds)


def test_lines_that_come_at_odd_times_make_no_jump_of_the_rate(work: Path) -> None:
    """The capture has a phase of its own: two lines in a second and none in the next make no jump of the rate."""
    watched = Status(now=BEGIN)
    watched.recording_begun(1, str(work / "none"), [Setup(1, "eth0")], BEGIN)
    for second in range(1, 21):
        for moment in (second - 0.99, second - 0.02) if second % 2 else ():
            watched.capture_counted("eth0", Counts(round(100 * moment), 0, 0, 0, 0, 0), BEGIN + moment)
        watched.tick(BEGIN + second)
    rates = [it.offered_frames for it in watched.model.view(BEGIN + 20).channels[0].history]
    judge("the rate stays", rates[2:] == pytest.approx([100.0] * 18, rel=0.05), rates)
    for second in range(21, 41):
        for moment, more in ((second - 0.3, 0), (second - 0.29, 9)):
            watched.capture_counted("eth0", Counts(round(100 * moment) + more, 0, 0, 0, 0, 0), BEGIN + moment)
        watched.tick(BEGIN + second)
    rates = [it.offered_frames for it in watched.model.view(BEGIN + 40).channels[0].history]
    judge("also where two come at once", rates[-19:] == pytest.approx([100.0] * 19, rel=0.1), rates)


def test_counts_that_go_back_lose_nothing(work: Path) -> None:
    watched = Status(now=BEGIN)
    watched.recording_begun(1, str(work / "none"), [Setup(1, "eth0")], BEGIN)
    for second, counts in enumerate([Counts(100, 9, 8, 7, 6, 5), Counts(10, 1, 2, 3, 4, 0)], 1):
        watched.capture_counted("eth0", counts, BEGIN + second)
        watched.tick(BEGIN + second)
    last = watched.model.view(BEGIN + 2).channels[0].history[-1]
    judge("nothing is less than none", last[:2] == (0, 0) and last[4:8] == (0, 0, 0, 0), last)


def test_a_timer_that_wavers_meets_each_second_once(work: Path) -> None:
    flight = Flight(work, {1: Wire("eth0")}).flown()
    lengths = []
    for second in (0.999, 2.001, 2.7, 3.98, 5.02):
        flight.status.tick(BEGIN + second)
        lengths.append(len(channel_of(flight, 1).history))
    judge("each second is met once", lengths == [1, 2, 3, 4, 5], lengths)


def test_a_late_tick_tells_a_loss_once(work: Path) -> None:
    flight = Flight(work, {1: Wire("eth0", frames=400)}).flown(2)
    flight.append(frames(1, 200) * 10)
    flight.second += 4
    flight.status.capture_counted("eth0", Counts(2_800, 0, 8, 0, 0, 0), flight.now())
    flight.status.tick(flight.now())
    history = channel_of(flight, 1).history
    judge("each second has its share", [it.kept_frames for it in history] == [400.0] * 2 + [500.0] * 4, history)
    judge("and a loss is told once", [it.dropped for it in history] == [0] * 5 + [8])
    flight.status.tick(flight.now())
    judge("a second tick of a second adds none", len(channel_of(flight, 1).history) == 6)


def test_without_lines_of_the_capture_nothing_is_made_up(work: Path) -> None:
    flight = Flight(work, {1: Wire("eth0", frames=400)}).flown(5)
    for _ in range(5):
        flight.second += 1
        flight.status.tick(flight.now())
    found = channel_of(flight, 1)
    holds = [it.offered_frames is None for it in found.history][-6:] == [False] * 3 + [True] * 3
    judge("rates are not known after a while", holds)
    judge("and how old the counts are is told", found.counts_age == pytest.approx(5.3))


def test_packets_without_frames_are_no_kept_frames(work: Path) -> None:
    flight = Flight(work, {1: Wire("eth0", kept=0)}).flown()
    for _ in range(20):
        flight.append(frames(1, 0))
        flight.pass_second()
    judge_same("aren't kept frames", channel_of(flight, 1).unkept, (20, 10_000, 10_000 * FRAME_LENGTH))


def test_a_channel_without_an_interface_has_no_offered_frames(work: Path) -> None:
    found = channel_of(Flight(work, {1: Wire(None, frames=400)}).flown(5), 1)
    judge("what it was offered isn't known", found.counts is None and found.unkept is None and found.frame_age is None)
    judge("what it kept is", found.kept_frames == 2_000)


# ---- recordings that follow one another


def test_frames_of_both_files_count_while_the_first_one_ends(work: Path) -> None:
    flight = Flight(work, {1: Wire("eth0", frames=400)})
    flight.begin("flight_00001.ch11")
    flight.pass_seconds(3)
    before = flight.path
    flight.begin("flight_00002.ch11")
    with open(before, "ab") as file:
        file.write(frames(1, 200))
    flight.pass_seconds(2)
    after, flight.path, flight.number = flight.path, before, 1
    flight.end_recording()
    flight.path, flight.number = after, 2
    found = view_of(flight)
    judge("kept frames are those of both", channel_of(flight, 1).kept_frames == 3 * 400 + 200 + 2 * 400)
    holds = (present(found.recording).number, present(found.recording).seconds, found.state) == (2, 2, "recording")
    judge("the second goes on", holds)
    size = before.stat().st_size
    judge("the first has ended", found.recordings == ((1, before.name, size, 0, "yes other 0"),), found.recordings)
    judge("the end of the old recording isn't the channel's", not channel_of(flight, 1).has_ended)
    flight.append(frames(1, 100))
    flight.end_recording(["channel 1 ..", "no 5 NoEnd 1"], 1)
    flight.status.ended(flight.now())
    found = view_of(flight)
    judge("audits are counted", found.audits == (1, 1, 0) and found.recordings[-1].is_refused(), found.recordings)
    judge("all has ended", (found.state, found.recording) == ("ended", None))
    judge("what came last is counted too", channel_of(flight, 1).kept_frames == 3 * 400 + 200 + 2 * 400 + 100)


def test_an_ended_recording_has_the_length_that_its_recorder_tells(work: Path) -> None:
    reports: list[tuple[list[str], int]] = [(["wrote 3 12345"], 12_345), ([], len(program(1, 0)))]
    for at, (report, wanted) in enumerate(reports):
        flight = Flight(work, {1: Wire("eth0")})
        flight.begin(f"{at}.ch11")
        flight.status.recording_ended(1, 0, flight.now(), ["channel 1 ..", *report], [])
        judge(f"{wanted} bytes", view_of(flight).recordings[0].bytes == wanted)


def test_a_new_recording_is_not_on_its_disk_yet(work: Path) -> None:
    flight = Flight(work, {1: Wire("eth0")}).flown(1)
    flight.begin("next.ch11")
    judge("it wasn't forced to its disk yet", view_of(flight).sync.age is None)


def test_a_recording_that_was_not_audited_is_told_and_counted(work: Path) -> None:
    flight = Flight(work, {1: Wire("eth0")}).flown(1)
    flight.end_recording([])
    judge("a recording that wasn't audited is told so", view_of(flight).recordings[0].audit is None)
    judge("and counted", view_of(flight).audits == (0, 0, 1) and not view_of(flight).recordings[0].is_refused())


def test_a_channel_that_has_ended_is_told(work: Path) -> None:
    flight = Flight(work, {1: Wire("eth0"), 2: Wire("eth1")}).flown()
    flight.append(end_packet(2, 5))
    flight.pass_second()
    judge("a channel that has ended is told", [it.has_ended for it in view_of(flight).channels] == [False, True])
    flight.begin("next.ch11")
    judge("in the next recording it goes on", [it.has_ended for it in view_of(flight).channels] == [False, False])


# ---- what it keeps


def test_an_hour_takes_no_more_memory_than_ten_minutes(work: Path) -> None:
    flight = Flight(work, wires_of(64)).flown()

    def minutes(count: int) -> None:
        for at in range(count):
            flight.end_recording()
            flight.path.unlink()
            flight.begin()
            for _ in range(60):
                flight.second += 1
                for channel, wire in flight.wires.items():
                    numbers = Counts(flight.second * 100, flight.second * 1_000, at, 0, 0, 0)
                    flight.status.capture_counted(present(wire.interface), numbers, flight.now())
                flight.status.tick(flight.now())

    minutes(40)
    files = len(os.listdir("/proc/self/fd"))
    tracemalloc.start()
    before = tracemalloc.get_traced_memory()[0]
    minutes(20)
    grown = tracemalloc.get_traced_memory()[0] - before
    tracemalloc.stop()
    found = view_of(flight)
    judge("recordings before are the last 32", len(found.recordings) == 32 and found.audits.yes == 60)
    # What was made before tracing began and is replaced now counts as grown.
    once = 64 * HISTORY_SECONDS * (sys.getsizeof((0,) * 10) + 8 * sys.getsizeof(1.5)) + (1 << 20)
    judge_quietly(f"memory grew by {grown}", grown < once)
    judge("nor do the files that are open", len(os.listdir("/proc/self/fd")) <= files)
