"""Tries a campaign of four recorders, each with a tap of its own and all with one origin: what is made of their
recordings has each frame of each tap once, and the frames of one event at one time."""

import time
from pathlib import Path
from typing import NamedTuple

import bpfrec
import pytest
from frames import number_of, numbered, records
from namespace import make_pair, socket_into
from recorder import extracted
from recordings import begin, facts_of, folder_of, is_approved, settings_of_one
from seen_frames import seen_in
from support import BPFREC, EXPORT, MILLISECOND, SECOND, Running, judge, judge_quietly, nanoseconds, outcome, run, sums

pytestmark = pytest.mark.wanted("bin/bpfrec", "bin/capture", "ip", "tshark")
CHAPTER11 = (EXPORT, "--as=chapter11")
TAPS, EVENTS = 4, 200
TICK = 100


class Event(NamedTuple):
    """A frame that all taps see: the moments before and after it was sent into them."""

    begun: int
    ended: int

    def has(self, moment: int) -> bool:
        return self.begun - 2 * MILLISECOND <= moment <= self.ended + 2 * MILLISECOND


class Campaign(NamedTuple):
    """The recordings of all recorders, and what they saw."""

    recordings: list[Path]
    events: list[Event]


def send_events() -> list[Event]:
    """Sends each frame into all taps."""
    found, sockets = [], [socket_into(f"tx{tap}") for tap in range(TAPS)]
    for number in range(EVENTS):
        begun = time.time_ns()
        for into in sockets:
            into.send(numbered(number))
        found.append(Event(begun, time.time_ns()))
        time.sleep(0.001)
    for into in sockets:
        into.close()
    return found


def begin_tap(work: Path, tap: int, origin: int) -> Running:
    """A recorder of one tap, as channel 1."""
    folder = folder_of(work, f"tap{tap}")
    ways = [f"rx{tap}=1"]
    return begin(
        folder, folder / "flight.ch11", "--quiet", "--origin", origin, ways=ways, settings=settings_of_one(folder)
    )


@pytest.fixture(name="campaign")
def recorded_campaign(work: Path, namespace: None) -> Campaign:
    for number in range(2, TAPS):
        make_pair(number)
    origin = time.time_ns() // SECOND - 5
    running = [begin_tap(work, tap, origin) for tap in range(TAPS)]
    events = send_events()
    paths = [work / f"tap{tap}/flight.ch11" for tap in range(TAPS)]
    time.sleep(0.3)
    for recorder in running:
        recorder.interrupt()
    for recorder, path in zip(running, paths):
        status = recorder.ended()[0]
        judge_quietly(f"{path}: {recorder.told()}", status == 0 and is_approved(path))
    return Campaign(paths, events)


def judge_events(what: str, moments: list[list[int]], events: list[Event]) -> None:
    """Judges the moments of each event at each tap: all are within its sending, as all have the clock of this host."""
    for number, event in enumerate(events):
        judge_quietly(f"{what}: event {number}", all(event.has(tap[number]) for tap in moments), [event, moments])
    judge(f"{what}: each event is at one time at {len(moments)} taps", len(moments) == TAPS)


def test_a_campaign_of_four_recorders(work: Path, campaign: Campaign) -> None:
    """One after the other, since the recordings are made once."""
    judge_capture(work, campaign)
    judge_whole_file(work, campaign)
    judge_package(campaign)


def judge_capture(work: Path, campaign: Campaign) -> None:
    """Judges the capture: an interface for each tap, in the order of times."""
    run(EXPORT, *campaign.recordings, work / "all.pcapng")
    told = run("capinfos", "-k", "-I", work / "all.pcapng")
    names = [it.split(" = ")[1] for it in told.splitlines() if it.strip().startswith("Name = ")]
    judge("each tap is an interface", names == [f"rx{tap}" for tap in range(TAPS)], names)
    seen = seen_in(work / "all.pcapng")
    taps = [[it for it in seen if it.interface == tap] for tap in range(TAPS)]
    for tap in taps:
        judge_quietly("each frame once", [number_of(it.bytes) for it in tap] == list(range(EVENTS)), tap[:3])
    judge("one order by time", [it.moment for it in seen] == sorted(it.moment for it in seen))
    judge_events("capture", [[it.moment for it in tap] for tap in taps], campaign.events)


def judge_whole_file(work: Path, campaign: Campaign) -> None:
    """Judges the Chapter 11 file: a channel for each tap, those that meet numbered anew."""
    out = work / "all.ch10"
    done = outcome(*CHAPTER11, *campaign.recordings, out)
    wanted = [f"channel 1 of {path} is {tap}" for tap, path in enumerate(campaign.recordings[1:], 2)]
    judge("the rule is printed", (done.returncode, done.stdout.splitlines()[:-1]) == (0, wanted), done)
    for done in (sums(out), outcome(BPFREC, "audit", out)):
        judge("it is a whole file", done.returncode == 0, done)
    origin = nanoseconds(*facts_of(campaign.recordings[0])["origins"][0]["origin"].split("."))
    taps = [records(extracted(out, channel, work / "one.feed")) for channel in range(1, TAPS + 1)]
    for tap in taps:
        judge_quietly("each frame once", [number_of(it.frame) for it in tap] == list(range(EVENTS)), tap[:3])
    judge_events("file", [[origin + it.counter * TICK for it in tap] for tap in taps], campaign.events)


def judge_package(campaign: Campaign) -> None:
    """Judges the Python package: the channels of the file, in one order by time."""
    frames = list(bpfrec.open(*campaign.recordings))
    taps = [[it for it in frames if it.channel == channel] for channel in range(1, TAPS + 1)]
    for tap in taps:
        judge_quietly("each frame once", [number_of(it.bytes) for it in tap] == list(range(EVENTS)), tap[:3])
    moments = [[it.time_ns or 0 for it in tap] for tap in taps]
    judge("one order by time", [it.time_ns for it in frames] == sorted(it.time_ns or 0 for it in frames))
    judge_events("package", moments, campaign.events)
