"""What is wrong with a run at one moment, by fixed thresholds.

An alarm is what loses frames now, or will before long; a warning is what should be known of. Each has a text that says
what and where, and a short one for the channel's own line.
"""

from __future__ import annotations

from collections.abc import Iterator
from enum import Enum
from typing import NamedTuple, Optional

from bpfrec_tools.cli.quantities import duration_text, plural, size_text
from bpfrec_tools.live.status.view import ChannelView, State, View, lost

# Frames that were lost in so many seconds are an alarm; those of before are a warning.
LOST_SECONDS = 60
# An interface that brought no frames within so many seconds is an alarm; one that did before is a warning.
AWAY_SECONDS = 60
# How a sentence has what the capture notes of an interface.
LINKS = {"no carrier": "without a carrier", "unread": "read by no recorder"}
# A pipe that was full for so many milliseconds of so many seconds waits, which is an alarm from so many on.
WAITED_MILLISECONDS, MOST_WAITED_MILLISECONDS, WAITED_SECONDS = 100, 1_000, 10
# Without a frame for so many seconds a channel is silent.
SILENT_SECONDS = 10
# Without counts for so many seconds nothing is known of an interface.
COUNTS_SECONDS = 5
# A filter keeps nothing where so many seconds and offered frames went by without a kept one in the recording, and so
# many times the bytes in which a packet is full, by what the filter has kept so far; once where it has kept nothing.
KEEPS_NOTHING_SECONDS, KEEPS_NOTHING_FRAMES, KEEPS_NOTHING_TIMES = 60, 100, 3
# A disk that is full in so many seconds, at the rate of the last minute.
DISK_SECONDS = 600
# A disk with fewer bytes than this is as good as full, whatever the rate.
DISK_BYTES = 1 << 20
# What was recorded was forced to its disk so many seconds ago, over the time between.
SYNC_SECONDS = 10
# So many bytes of the recording weren't looked at yet: what is kept is told too late.
UNREAD_BYTES = 64 << 20


class Level(str, Enum):
    """How bad something is."""

    ALARM = "alarm"
    WARNING = "warning"
    OK = "ok"


class Name(str, Enum):
    """What may be wrong, as metrics and the status name it."""

    AUDIT = "audit"
    AWAY = "away"
    CLOCK = "clock"
    DAMAGED = "damaged"
    DISK = "disk"
    GROUND = "ground"
    KEEPS_NOTHING = "keeps_nothing"
    KILLED = "killed"
    LOST = "lost"
    NO_COUNTS = "no_counts"
    SILENT = "silent"
    SYNC = "sync"
    SYNC_FAULT = "sync_fault"
    UNHASHED = "unhashed"
    UNREAD = "unread"
    UNSIGNED = "unsigned"
    WAITING = "waiting"
    WAITS = "waits"
    WAS_AWAY = "was_away"
    WAS_LOST = "was_lost"


ALARM, WARNING = Level.ALARM, Level.WARNING


class Alarm(NamedTuple):
    """What is wrong: its name, how bad it is, the channel where it is one's, in a word or two, and in a sentence."""

    name: Name
    level: Level
    channel: Optional[int]
    word: str
    text: str


def alarms_of(view: View, limit: int) -> tuple[Alarm, ...]:
    """What is wrong, alarms first. A packet of the recording has `limit` bytes at most."""
    found = [*of_whole(view), *(alarm for it in view.channels for alarm in of_channel(it, view.state, limit))]
    return tuple(sorted(found, key=lambda alarm: alarm.level != ALARM))


def level_of(alarms: tuple[Alarm, ...], channel: Optional[int] = None) -> Level:
    """How bad it is, of all or of a channel."""
    levels = {it.level for it in alarms if channel is None or it.channel == channel}
    return next((it for it in Level if it in levels), Level.OK)


# ---- of the whole


def of_whole(view: View) -> Iterator[Alarm]:
    """What is wrong with the recording, its disk, and those before."""
    yield from of_disk(view)
    yield from of_sync(view)
    yield from of_clock(view)
    yield from of_ground(view)
    if view.unsigned:
        yield Alarm(Name.UNSIGNED, ALARM, None, "not signed", view.unsigned)
    if view.unhashed:
        yield Alarm(Name.UNHASHED, ALARM, None, "not hashed", view.unhashed)
    if view.killed:
        yield Alarm(Name.KILLED, ALARM, None, "recorder killed", view.killed)
    if view.recording and view.recording.fault:
        text = f"{view.recording.name}: {view.recording.fault}: the recording's file isn't what the recorder writes"
        yield Alarm(Name.DAMAGED, ALARM, None, "damaged", text)
    if view.recording and view.recording.unread > UNREAD_BYTES:
        text = f"{view.recording.name}: {size_text(view.recording.unread)} weren't looked at yet: kept frames are counted late"
        yield Alarm(Name.UNREAD, WARNING, None, "counts late", text)
    if view.audits.no:
        refused = [f"{it.name}: {it.audit}" for it in view.recordings if it.is_refused()][-1:]
        text = (
            f"the audit of {plural(view.audits.no, 'recording')} said no{''.join(f', last of {it}' for it in refused)}"
        )
        yield Alarm(Name.AUDIT, ALARM, None, "audit: no", text)
    if view.state == State.WAITING and (view.recordings or view.recording) and not view.is_ending:
        yield Alarm(Name.WAITING, ALARM, None, "not recording", "nothing is recorded: the next recording hasn't begun")


def of_disk(view: View) -> Iterator[Alarm]:
    """Whether the disk is full soon."""
    if not view.disk or view.state == State.ENDED:
        return
    left, free = view.disk.seconds_left, size_text(view.disk.free)
    if view.disk.free < DISK_BYTES:
        yield Alarm(Name.DISK, ALARM, None, "disk full", f"the disk is full: {free} are free")
    elif left is not None and left < DISK_SECONDS:
        text = f"the disk is full in {duration_text(left)}: {free} are free"
        yield Alarm(Name.DISK, ALARM, None, f"disk {duration_text(left)}", text)


def of_sync(view: View) -> Iterator[Alarm]:
    """Whether what is recorded is forced to the disk, and in time."""
    if view.sync.faults:
        text = f"{view.sync.fault}: what the disk has of it may have gaps"
        yield Alarm(Name.SYNC_FAULT, ALARM, None, "disk fails", text)
    if not view.recording or not view.sync.interval or view.state != State.RECORDING:
        return
    age = view.recording.seconds if view.sync.age is None else view.sync.age
    if age > view.sync.interval + SYNC_SECONDS:
        text = f"nothing was forced to the disk for {duration_text(age)}: lost power would cost as much"
        yield Alarm(Name.SYNC, ALARM, None, f"sync {duration_text(age)} ago", text)


def of_clock(view: View) -> Iterator[Alarm]:
    """Whether the clock is worse than somebody asks for."""
    fault = view.clock.fault()
    if fault and view.state != State.ENDED:
        yield Alarm(Name.CLOCK, ALARM, None, "clock", fault)


def of_ground(view: View) -> Iterator[Alarm]:
    """Whether what is recorded is sent to each ground station."""
    for station in view.ground if view.state != State.ENDED else ():
        if not station.is_sent_to:
            text = f"{station.address}: nothing is sent: its publisher has died, and begins again"
            yield Alarm(Name.GROUND, ALARM, None, "not sent", text)
        elif station.lost_age is not None and station.lost_age <= LOST_SECONDS:
            text = f"{station.address}: {station.lost:,} of {station.datagrams:,} datagrams were lost"
            yield Alarm(Name.GROUND, ALARM, None, "sent in part", f"{text}, last {duration_text(station.lost_age)} ago")


# ---- of a channel


def of_channel(channel: ChannelView, state: State, limit: int) -> Iterator[Alarm]:
    """What is wrong with a channel: what was lost stays, the rest is of a channel that goes on."""
    yield from of_losses(channel)
    if state == State.ENDED or channel.has_ended:
        return
    yield from of_link(channel)
    if channel.interface is None:
        return
    yield from of_pipe(channel)
    unknown = channel.seconds if channel.counts_age is None else channel.counts_age
    if unknown > COUNTS_SECONDS:
        yield of(
            channel, Name.NO_COUNTS, ALARM, "no counts", f"capture has counted nothing for {duration_text(unknown)}"
        )
        return
    silent = channel.seconds if channel.frame_age is None else channel.frame_age
    if silent > SILENT_SECONDS and not channel.link.is_away:
        yield of(channel, Name.SILENT, ALARM, "silent", f"no frame came for {duration_text(silent)}")
    yield from of_filter(channel, limit)


def of_losses(channel: ChannelView) -> Iterator[Alarm]:
    """Whether frames were lost: now, or before."""
    counts, age = channel.counts, channel.lost_age
    if not counts or not lost(counts):
        return
    ways = ((counts.dropped, "dropped by the kernel"), (counts.missed, "missed"), (counts.skipped, "skipped"))
    told = ", ".join(f"{count:,} {way}" for count, way in ways if count)
    if age is not None and age < LOST_SECONDS:
        yield of(channel, Name.LOST, ALARM, "loses frames", f"frames are lost: {told} so far")
    else:
        ago = f", the last {duration_text(age)} ago" if age is not None else ""
        yield of(channel, Name.WAS_LOST, WARNING, "lost frames", f"frames were lost: {told}{ago}")


def of_link(channel: ChannelView) -> Iterator[Alarm]:
    """Whether the interface brings no frames, or didn't."""
    link = channel.link
    if link.age is None:
        return
    why, times = LINKS.get(link.why, link.why), f"{plural(link.interruptions, 'time')} in this run"
    if link.is_away:
        yield of(channel, Name.AWAY, ALARM, link.why, f"its interface is {why}: {times}")
        return
    text = f"its interface was {why} until {duration_text(link.age)} ago: {times}"
    if link.age < AWAY_SECONDS:
        yield of(channel, Name.AWAY, ALARM, f"was {link.why}", text)
    else:
        yield of(channel, Name.WAS_AWAY, WARNING, f"was {link.why}", text)


def of_pipe(channel: ChannelView) -> Iterator[Alarm]:
    """Whether the recorder is slower than the wire."""
    waited = sum(it.waited for it in channel.history[-WAITED_SECONDS:])
    text = f"its pipe was full for {waited:,} ms of the last {WAITED_SECONDS} s"
    if waited >= MOST_WAITED_MILLISECONDS:
        yield of(channel, Name.WAITS, ALARM, "pipe waits", f"{text}: the recorder is slower than the wire")
    elif waited >= WAITED_MILLISECONDS:
        yield of(channel, Name.WAITS, WARNING, "pipe waits", text)


def of_filter(channel: ChannelView, limit: int) -> Iterator[Alarm]:
    """Whether the filter keeps nothing of what comes."""
    unkept = channel.unkept
    if (
        not unkept
        or unkept.seconds < KEEPS_NOTHING_SECONDS
        or unkept.frames < KEEPS_NOTHING_FRAMES
        or unkept.bytes < due(channel, limit)
    ):
        return
    text = (
        f"the filter keeps nothing, or too little to fill a packet of {limit:,} bytes: none of the {unkept.frames:,} "
        f"frames that were offered in {duration_text(unkept.seconds)} is in the recording"
    )
    yield of(channel, Name.KEEPS_NOTHING, ALARM, "keeps nothing", text)


def due(channel: ChannelView, limit: int) -> float:
    """In how many offered bytes a kept frame must be in the recording."""
    if not channel.kept_bytes or not channel.counts:
        return limit
    return KEEPS_NOTHING_TIMES * limit * max(channel.counts.bytes / channel.kept_bytes, 1)


def of(channel: ChannelView, name: Name, level: Level, word: str, text: str) -> Alarm:
    """An alarm of a channel."""
    source = f" ({channel.source()})" if channel.source() else ""
    return Alarm(name, level, channel.channel, word, f"channel {channel.channel}{source}: {text}")


# What is the same alarm while it goes on, whatever its text says by now.
Kind = tuple[Level, Name, Optional[int]]


class AlarmChange(NamedTuple):
    """An alarm or a warning that has begun, or has ended; then it is as it was last."""

    has_begun: bool
    alarm: Alarm

    def line(self) -> str:
        """The line of it."""
        return f"bpfrec live: {self.alarm.level.value}{'' if self.has_begun else ' ended'}: {self.alarm.text}"


class AlarmChanges:
    """The alarms and warnings that hold."""

    def __init__(self) -> None:
        self.holding: dict[Kind, Alarm] = {}

    def take(self, alarms: tuple[Alarm, ...]) -> Iterator[AlarmChange]:
        """Takes those that hold now: what has changed, ends ahead of beginnings."""
        before, self.holding = self.holding, {(it.level, it.name, it.channel): it for it in alarms}
        yield from (AlarmChange(False, it) for kind, it in before.items() if kind not in self.holding)
        yield from (AlarmChange(True, it) for kind, it in self.holding.items() if kind not in before)
