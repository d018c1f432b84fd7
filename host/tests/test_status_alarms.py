"""Tries the alarms of the status: each at its threshold, by views that are written by hand."""

from collections.abc import Iterable
from typing import Any

import pytest
from bpfrec.formats.clock_state import ClockState
from bpfrec_tools.live.status.view import State
from scripted import (
    Audits,
    ChannelView,
    ClockView,
    Counts,
    DiskView,
    EndedView,
    GroundView,
    LinkView,
    RecordingView,
    Second,
    SyncView,
    Unkept,
    View,
    alarms,
)
from support import judge, judge_same

LIMIT = 65_536
CALM = Second(10.0, 600.0, 10.0, 600.0, 0, 0, 0, 0, 0, 0.3)
CHANNEL = ChannelView(
    channel=3,
    interface="eth2",
    version=0,
    counts=Counts(1_000, 60_000, 0, 0, 0, 0),
    counts_age=0.3,
    frame_age=0.3,
    lost_age=None,
    kept_frames=900,
    kept_bytes=60_000,
    seconds=100.0,
    has_ended=False,
    unkept=Unkept(5.0, 50, 3_000),
    history=(CALM,) * 60,
)
RECORDING = RecordingView(1, "flight.ch11", 100.0, 1 << 20, 1_000.0, 0, None)
VIEW = View(
    now=1_100.0,
    state=State.RECORDING,
    uptime=100.0,
    recording=RECORDING,
    disk=DiskView(10**9, 10**6),
    sync=SyncView(1.0, 0.5),
    channels=(CHANNEL,),
    recordings=(),
    audits=Audits(0, 0, 0),
)


def of_channel(**changes: Any) -> View:
    return VIEW._replace(channels=(CHANNEL._replace(**changes),))


def waited(*milliseconds: int) -> tuple[Second, ...]:
    """A minute that ends with seconds in which the pipe waited so long."""
    return (CALM,) * (60 - len(milliseconds)) + tuple(CALM._replace(waited=it) for it in milliseconds)


def names(view: View) -> list[str]:
    return [f"{it.name.value} {it.level.value}" for it in alarms.alarms_of(view, LIMIT)]


LOST = Counts(1_000, 60_000, 7, 2, 1, 0)
NO = (EndedView(1, "a.ch11", 1, 1, "no 5 NoEnd 2"), EndedView(2, "b.ch11", 1, 0, "yes other 0"))
but, of = VIEW._replace, of_channel
NEVER_COUNTED: dict[str, Any] = {"counts": None, "counts_age": None, "unkept": None, "frame_age": None}
KEPT_NONE = {"kept_frames": 0, "kept_bytes": 0}
WAITING = but(state=State.WAITING, recording=None, recordings=NO[1:])
UNFORCED = SyncView(1.0, 0.5, 1, "a.ch11 can't be forced to its disk: Input/output error")


def sent(address: str, age: float) -> GroundView:
    return GroundView(address, 9, 2, 0, True, age)


def unsynced(seconds: float) -> View:
    return but(sync=SyncView(30.0, None), recording=RECORDING._replace(seconds=seconds))


# What is just no alarm, what is just one, and its name with its level.
CASES = {
    "ground": (but(ground=(sent("a:1", 60.1),)), but(ground=(sent("a:1", 60.0),)), "ground alarm"),
    "publisher": (
        but(state=State.ENDED, ground=(GroundView("a:1", 9, 0, 0, False),)),
        but(ground=(GroundView("b:1", 9, 0, 0, True), GroundView("a:1", 9, 0, 0, False))),
        "ground alarm",
    ),
    "away": (of(), of(link=LinkView(True, "down", 0.0, 1)), "away alarm"),
    "back": (of(), of(link=LinkView(False, "down", 59.9, 1)), "away alarm"),
    "was away": (of(), of(link=LinkView(False, "gone", 60.0, 2)), "was_away warning"),
    "away, and so silent": (of(), of(link=LinkView(True, "down", 20.0, 1), frame_age=20.0), "away alarm"),
    "no counts": (of(counts_age=5.0), of(counts_age=5.1), "no_counts alarm"),
    "no counts at all": (of(seconds=5.0, **NEVER_COUNTED), of(seconds=5.1, **NEVER_COUNTED), "no_counts alarm"),
    "silent": (of(frame_age=10.0), of(frame_age=10.1), "silent alarm"),
    "silent from the beginning": (of(frame_age=None, seconds=10.0), of(frame_age=None, seconds=10.1), "silent alarm"),
    "frames are lost": (VIEW, of(counts=LOST, lost_age=59.9), "lost alarm"),
    "frames were lost": (VIEW, of(counts=LOST, lost_age=60.0), "was_lost warning"),
    "a pipe waits": (of(history=waited(99, *[0] * 9)), of(history=waited(100, *[0] * 9)), "waits warning"),
    "a pipe waits for less than a second": (VIEW, of(history=waited(999, *[0] * 9)), "waits warning"),
    "a pipe waits for a second": (VIEW, of(history=waited(*[100] * 10)), "waits alarm"),
    "a pipe waited longer ago": (of(history=waited(500, *[0] * 10)), of(history=waited(*[10] * 10)), "waits warning"),
    "a filter keeps nothing: time": (
        of(unkept=Unkept(59.9, 10**6, 10**8), **KEPT_NONE),
        of(unkept=Unkept(60.0, 10**6, 10**8), **KEPT_NONE),
        "keeps_nothing alarm",
    ),
    "a filter keeps nothing: frames": (
        of(unkept=Unkept(900.0, 99, 10**8), **KEPT_NONE),
        of(unkept=Unkept(900.0, 100, 10**8), **KEPT_NONE),
        "keeps_nothing alarm",
    ),
    "a filter keeps nothing: bytes": (
        of(unkept=Unkept(900.0, 1_000, LIMIT - 1), **KEPT_NONE),
        of(unkept=Unkept(900.0, 1_000, LIMIT), **KEPT_NONE),
        "keeps_nothing alarm",
    ),
    "a filter that kept a tenth, in three packets' time": (
        of(kept_bytes=6_000, unkept=Unkept(900.0, 1_000, 30 * LIMIT - 1)),
        of(kept_bytes=6_000, unkept=Unkept(900.0, 1_000, 30 * LIMIT)),
        "keeps_nothing alarm",
    ),
    "a recording can't be forced to its disk": (VIEW, but(sync=UNFORCED), "sync_fault alarm"),
    "facts couldn't be signed": (VIEW, but(unsigned="a.ch11.json isn't signed: the key is missing"), "unsigned alarm"),
    "the clock is off by more than is allowed": (
        but(clock=ClockView(ClockState(True, 0.001), 0.001)),
        but(clock=ClockView(ClockState(True, 0.001001), 0.001)),
        "clock alarm",
    ),
    "the clock is not synchronised": (
        but(clock=ClockView(ClockState(False, 16.0))),
        but(clock=ClockView(ClockState(False, 0.0), 16.0)),
        "clock alarm",
    ),
    "nobody knows the clock": (
        but(clock=ClockView(ClockState(), 1.0), state=State.ENDED),
        but(clock=ClockView(ClockState(), 1.0)),
        "clock alarm",
    ),
    "the disk is full soon": (but(disk=DiskView(10**9, 600.0)), but(disk=DiskView(10**9, 599.9)), "disk alarm"),
    "the disk is full": (but(disk=DiskView(1 << 20, None)), but(disk=DiskView((1 << 20) - 1, None)), "disk alarm"),
    "the sync is old": (but(sync=SyncView(1.0, 11.0)), but(sync=SyncView(1.0, 11.1)), "sync alarm"),
    "the sync never came": (unsynced(40.0), unsynced(40.1), "sync alarm"),
    "an audit said no": (
        but(recordings=NO[1:], audits=Audits(1, 0, 0)),
        but(recordings=NO, audits=Audits(1, 1, 0)),
        "audit alarm",
    ),
    "the file is damaged": (VIEW, but(recording=RECORDING._replace(fault="read 2 Sync 88")), "damaged alarm"),
    "the file is looked at late": (
        but(recording=RECORDING._replace(unread=64 << 20)),
        but(recording=RECORDING._replace(unread=(64 << 20) + 1)),
        "unread warning",
    ),
    "nothing is recorded": (but(state=State.WAITING, recording=None), WAITING, "waiting alarm"),
    "the recorder has stopped": (VIEW, but(state=State.WAITING), "waiting alarm"),
    "a recorder was killed": (VIEW, but(killed="the recorder of a.ch11 was ended"), "killed alarm"),
    "nothing is recorded, and the run goes on": (WAITING._replace(is_ending=True), WAITING, "waiting alarm"),
}


@pytest.mark.parametrize("case", CASES)
def test_each_alarm_comes_at_its_threshold_and_not_before(case: str) -> None:
    before, after, alarm = CASES[case]
    judge_same(f"{case}: just not yet", names(before), [])
    judge_same(f"{case}: an alarm", names(after), [alarm])


def test_a_run_that_is_well_has_no_alarm() -> None:
    judge("a run that is well has no alarm", names(VIEW) == [] and alarms.level_of(()) == "ok")


def ended(views: Iterable[View]) -> Iterable[View]:
    return [it._replace(state=State.ENDED, recording=None) for it in views]


def test_an_ended_run_keeps_its_losses_and_no_other_alarm() -> None:
    """What has ended is silent, and needs no disk; what was lost stays."""
    past = [
        case
        for case in CASES
        if CASES[case][2].split()[0] not in ("lost", "was_lost", "audit", "killed", "sync_fault", "unsigned")
    ]
    told = {case: names(view) for case, view in zip(past, ended(CASES[it][1] for it in past)) if names(view)}
    judge("a run that has ended has none of its channels", not told, told)
    lost = VIEW._replace(state=State.ENDED, recording=None, channels=of_channel(counts=LOST, lost_age=5.0).channels)
    judge("but what was lost", names(lost) == ["lost alarm"])


def test_a_channel_that_is_over_is_not_silent() -> None:
    changes: list[dict[str, Any]] = [{"has_ended": True}, {"interface": None}]
    for change in changes:
        judge(f"{change}: it isn't silent", names(of_channel(frame_age=99.0, counts_age=99.0, **change)) == [])


def test_sync_0_is_no_alarm() -> None:
    judge("--sync 0 is no alarm", names(VIEW._replace(sync=SyncView(0.0, None))) == [])


def test_alarms_stand_ahead_of_warnings() -> None:
    first = CHANNEL._replace(channel=1, counts=LOST, lost_age=600.0)
    found = alarms.alarms_of(VIEW._replace(channels=(first, CHANNEL._replace(frame_age=60.0))), LIMIT)
    judge("alarms stand ahead of warnings", [it.name for it in found] == ["silent", "was_lost"], found)
    levels = [alarms.level_of(found, it) for it in (None, 1, 3, 9)]
    judge("each channel has its level", levels == ["alarm", "warning", "alarm", "ok"], levels)


def test_alarms_say_what_where_and_how_much() -> None:
    texts = {name: alarms.alarms_of(CASES[name][1], LIMIT)[0].text for name in CASES}
    wanted = {
        "frames are lost": "channel 3 (eth2): frames are lost: 7 dropped by the kernel, 2 missed, 1 skipped so far",
        "silent": "channel 3 (eth2): no frame came for 10 s",
        "a pipe waits": "channel 3 (eth2): its pipe was full for 100 ms of the last 10 s",
        "a pipe waits for a second": "channel 3 (eth2): its pipe was full for 1,000 ms of the last 10 s: the recorder "
        "is slower than the wire",
        "a filter keeps nothing: time": "channel 3 (eth2): the filter keeps nothing, or too little to fill a packet of "
        "65,536 bytes: none of the 1,000,000 frames that were offered in 1 min 0 s is in the recording",
        "the disk is full soon": "the disk is full in 9 min 59 s: 1.0 GB are free",
        "an audit said no": "the audit of 1 recording said no, last of a.ch11: no 5 NoEnd 2",
        "the sync is old": "nothing was forced to the disk for 11 s: lost power would cost as much",
    }
    judge("texts say what, where and how much", {it: texts[it] for it in wanted} == wanted, texts)
    judge("each is one line", not any("\n" in it for it in texts.values()))
