"""How a run goes, as the object of /status.json."""

from __future__ import annotations

import json
from math import floor
from typing import Any, Optional

from bpfrec.formats.facts import utc_of
from bpfrec_tools.live.status.alarms import Alarm, level_of
from bpfrec_tools.live.status.view import ChannelView, GroundView, MarkView, Second, View

# The form of the object.
FORM = 1


# Over so many seconds frames that came and those that were kept are compared.
RATE_SECONDS = 10


def text_of(view: View, alarms: tuple[Alarm, ...]) -> str:
    """The object as a text in ASCII, but for its first brace and its age, which is that of the answer."""
    return json.dumps(object_of(view, alarms), separators=(",", ":"), allow_nan=False)[1:]


def with_age(text: str, age: float) -> str:
    """The whole text, for an answer that is given so many seconds after what it tells."""
    return f'{{"age":{rounded(max(age, 0))},{text}'


def object_of(view: View, alarms: tuple[Alarm, ...]) -> dict[str, Any]:
    """The object without its age."""
    recording, disk = view.recording, view.disk
    return {
        "status": FORM,
        "state": view.state,
        "level": level_of(alarms),
        "uptime": rounded(view.uptime),
        "alarms": [it._asdict() for it in alarms],
        "recording": recording
        and {
            **recording._asdict(),
            "name": printable(recording.name),
            "seconds": rounded(recording.seconds),
            "bytes_per_second": rounded(recording.bytes_per_second),
        },
        "disk": disk and {"free": disk.free, "seconds_left": rounded(disk.seconds_left)},
        "sync": {"interval": view.sync.interval, "age": rounded(view.sync.age)},
        "clock": {**view.clock.state._asdict(), "required": view.clock.most},
        "channels": [channel_object(it, alarms) for it in view.channels],
        "recordings": [{**it._asdict(), "name": printable(it.name)} for it in view.recordings],
        "audits": view.audits._asdict(),
        "ground": [ground_object(it) for it in view.ground],
        "marks": [mark_object(it) for it in view.marks],
        "host": printable(view.host),
        "utc": utc_text(view.utc),
    }


def channel_object(channel: ChannelView, alarms: tuple[Alarm, ...]) -> dict[str, Any]:
    """What the object has of a channel."""
    mine = [alarm for alarm in alarms if alarm.channel == channel.channel]
    return {
        "channel": channel.channel,
        "interface": None if channel.interface is None else printable(channel.interface),
        "name": printable(channel.name),
        "level": level_of(alarms, channel.channel),
        "words": [alarm.word for alarm in mine],
        "version": channel.version,
        "filter": printable(channel.filter.name),
        "changes": channel.filter.changes,
        "offered": channel.counts
        and amounts(channel.counts.frames, channel.counts.bytes, offered_rates(channel.history)),
        "kept": amounts(channel.kept_frames, channel.kept_bytes, kept_rates(channel.history)),
        "dropped": channel.counts and channel.counts.dropped,
        "missed": channel.counts and channel.counts.missed,
        "skipped": channel.counts and channel.counts.skipped,
        "waited": channel.counts and channel.counts.waited,
        "frame_age": rounded(channel.frame_age),
        "away": channel.link.why if channel.link.is_away else None,
        "interruptions": channel.link.interruptions,
        "has_ended": channel.has_ended,
        "history": {name: column(channel.history, at) for at, name in enumerate(Second._fields)},
    }


def ground_object(station: GroundView) -> dict[str, Any]:
    """What the object has of a ground station."""
    return {key: value for key, value in station._asdict().items() if key != "lost_age"}


def mark_object(mark: MarkView) -> dict[str, Any]:
    """What the object has of a mark."""
    return {**mark._asdict(), "name": printable(mark.name), "age": rounded(mark.age)}


def utc_text(moment: Optional[float]) -> Optional[str]:
    """A moment as UTC, to the millisecond."""
    return None if moment is None else f"{utc_of(floor(moment * 1_000) * 1_000_000)[:-7]}Z"


def amounts(frames: int, size: int, rates: Optional[tuple[Optional[float], ...]]) -> dict[str, Any]:
    """Frames and bytes in all and a second."""
    frame_rate, byte_rate = rates or (None, None)
    return {
        "frames": frames,
        "bytes": size,
        "frames_per_second": rounded(frame_rate),
        "bytes_per_second": rounded(byte_rate),
    }


def offered_rates(history: tuple[Second, ...]) -> Optional[tuple[float, float]]:
    """Frames and bytes that came a second, as the mean of the last ten seconds; None where the last isn't known."""
    last = history[-RATE_SECONDS:]
    known = [(it.offered_frames, it.offered_bytes) for it in last if it.offered_frames is not None]
    if not last or last[-1].offered_frames is None:
        return None
    return sum(frames for frames, _ in known) / len(known), sum(size or 0 for _, size in known) / len(known)


def kept_rates(history: tuple[Second, ...]) -> Optional[tuple[float, float]]:
    """The same of what was kept, which comes packet by packet."""
    last = history[-RATE_SECONDS:]
    if not last:
        return None
    return sum(it.kept_frames for it in last) / len(last), sum(it.kept_bytes for it in last) / len(last)


def column(history: tuple[Second, ...], at: int) -> list[Any]:
    """One number of each second."""
    return [rounded(it[at]) for it in history]


def rounded(value: Optional[float]) -> Optional[float]:
    """A number as it is told: to a tenth, and whole from a hundred on."""
    if value is None or isinstance(value, int):
        return value
    return round(value) if value >= 100 else round(value, 1)


def printable(name: str) -> str:
    """A name without what no text can have."""
    return name.encode("utf-8", "replace").decode()
