"""How a run goes, as Prometheus reads it: the text format 0.0.4 of /metrics."""

from __future__ import annotations

from collections import Counter
from collections.abc import Callable, Iterable, Iterator
from typing import NamedTuple, Optional

from bpfrec.formats.clock_state import ClockState
from bpfrec_tools.live.run.ports import Counts
from bpfrec_tools.live.status.alarms import Alarm, Name
from bpfrec_tools.live.status.view import ChannelView, State, View

CONTENT_TYPE = "text/plain; version=0.0.4; charset=utf-8"
COUNTER, GAUGE = "counter", "gauge"
# A sample: its labels and its value; None where that isn't known.
Sample = tuple[tuple[tuple[str, str], ...], Optional[float]]


class Metric(NamedTuple):
    """A metric of each channel."""

    name: str
    kind: str
    help: str
    value: Callable[[ChannelView], Optional[float]]


def counted(name: str, about: str, value: Callable[[Counts], float]) -> Metric:
    """A metric of what the capture counts."""
    return Metric(name, COUNTER, about, lambda channel: channel.counts and value(channel.counts))


CHANNEL_METRICS = (
    counted("offered_frames_total", "Frames that came.", lambda counts: counts.frames),
    counted("offered_bytes_total", "Bytes of frames that came.", lambda counts: counts.bytes),
    Metric("kept_frames_total", COUNTER, "Frames in recordings.", lambda channel: channel.kept_frames),
    Metric("kept_bytes_total", COUNTER, "Bytes of frames in recordings.", lambda channel: channel.kept_bytes),
    counted("dropped_frames_total", "Frames that the kernel dropped.", lambda counts: counts.dropped),
    counted("missed_frames_total", "Frames that the interface missed.", lambda counts: counts.missed),
    counted("skipped_frames_total", "Frames cut short or too long.", lambda counts: counts.skipped),
    counted("waited_seconds_total", "For how long the pipe was full.", lambda counts: counts.waited / 1_000),
    Metric("away", GAUGE, "1 while its interface brings no frames, else 0.", lambda channel: int(channel.link.is_away)),
    Metric("interruptions_total", COUNTER, "How often it brought none.", lambda channel: channel.link.interruptions),
    Metric("filter_version", GAUGE, "The version of the filter, in this recording.", lambda channel: channel.version),
    Metric(
        "filter_changes_total", COUNTER, "Changes of the filter in this run.", lambda channel: channel.filter.changes
    ),
    Metric("last_frame_age_seconds", GAUGE, "How long ago the last frame came.", lambda channel: channel.frame_age),
)


def text_of(view: View, alarms: tuple[Alarm, ...]) -> str:
    """All metrics but the age, which is that of the answer."""
    return "".join([*of_run(view), *of_ground(view), *of_alarms(alarms), *of_channels(view)])


def with_age(text: str, age: float) -> str:
    """The whole text, for an answer that is given so many seconds after what it tells."""
    head = family("status_age_seconds", GAUGE, "How old these values are.", [((), round(max(age, 0), 3))])
    return head + text


def of_run(view: View) -> Iterator[str]:
    """The metrics of the run, its recording and its disk."""
    recording, disk, audits = view.recording, view.disk, view.audits._asdict()
    going = 1 if view.state == State.RECORDING else 0
    yield family("uptime_seconds", GAUGE, "How long the run has gone on.", [((), view.uptime)])
    yield family("recording", GAUGE, "1 while a recording goes on, else 0.", [((), going)])
    yield family("recording_number", GAUGE, "Its number.", [((), recording and recording.number)])
    yield family("recording_seconds", GAUGE, "How long it has gone on.", [((), recording and recording.seconds)])
    yield family("recording_bytes", GAUGE, "Its length.", [((), recording and recording.bytes)])
    yield family("disk_free_bytes", GAUGE, "Bytes that are free on its disk.", [((), disk and disk.free)])
    text = "In how many seconds the disk is full at the rate of the last minute."
    yield family("disk_seconds_left", GAUGE, text, [((), disk and disk.seconds_left)])
    yield family("sync_age_seconds", GAUGE, "How long ago it was forced to its disk.", [((), view.sync.age)])
    yield family("sync_faults_total", COUNTER, "Recordings that can't be forced to it.", [((), view.sync.faults)])
    yield from of_clock(view.clock.state)
    samples: list[Sample] = [((("answer", name),), count) for name, count in audits.items()]
    yield family("audits_total", COUNTER, "Recordings that have ended, by what the audit said.", samples)


def of_ground(view: View) -> Iterator[str]:
    """The metrics of the ground stations."""
    sent = [it.datagrams for it in view.ground]
    told = (
        ("datagrams_total", COUNTER, "Datagrams that were sent to a ground station.", sent),
        ("lost_datagrams_total", COUNTER, "Those of them that were lost here.", [it.lost for it in view.ground]),
        ("late_packets_total", COUNTER, "Packets that were sent late.", [it.late for it in view.ground]),
        ("is_sent_to", GAUGE, "1 while its publisher runs, else 0.", [int(it.is_sent_to) for it in view.ground]),
    )
    for name, kind, text, values in told:
        samples: list[Sample] = [((("address", it.address),), value) for it, value in zip(view.ground, values)]
        yield family(f"ground_{name}", kind, text, samples)


def of_clock(state: ClockState) -> Iterator[str]:
    """How right the host's clock is."""
    synchronised = None if state.is_synchronised is None else int(state.is_synchronised)
    yield family("clock_synchronised", GAUGE, "1 while the host's clock is synchronised, else 0.", [((), synchronised)])
    yield family("clock_max_error_seconds", GAUGE, "By how much it is off at most.", [((), state.maximum_error)])


def of_alarms(alarms: tuple[Alarm, ...]) -> Iterator[str]:
    """How many alarms and warnings there are of each name."""
    counts = Counter(alarm.name for alarm in alarms)
    samples: list[Sample] = [((("name", name.value),), counts[name]) for name in Name]
    yield family("alarms", GAUGE, "Alarms and warnings that hold now.", samples)


def of_channels(view: View) -> Iterator[str]:
    """The metrics of the channels."""
    for metric in CHANNEL_METRICS:
        samples: list[Sample] = [(labels_of(it), metric.value(it)) for it in view.channels]
        yield family(f"channel_{metric.name}", metric.kind, metric.help, samples)
    named: list[Sample] = [((*labels_of(it), ("filter", it.filter.name)), 1) for it in view.channels]
    yield family("channel_filter_info", GAUGE, "1, with the filter in its label.", named)


def labels_of(channel: ChannelView) -> tuple[tuple[str, str], ...]:
    """The labels of a channel's samples."""
    named = (("name", channel.name),) if channel.name else ()
    return ("channel", str(channel.channel)), ("interface", channel.interface or ""), *named


def family(name: str, kind: str, text: str, samples: Iterable[Sample]) -> str:
    """A metric with its samples; one without any isn't there."""
    lines = [f"bpfrec_{name}{labels(pairs)} {number(value)}\n" for pairs, value in samples if value is not None]
    head = f"# HELP bpfrec_{name} {text}\n# TYPE bpfrec_{name} {kind}\n"
    return head + "".join(lines) if lines else ""


def labels(pairs: tuple[tuple[str, str], ...]) -> str:
    """Labels in their braces, with what would end a value escaped."""
    return "{%s}" % ",".join(f'{name}="{escaped(value)}"' for name, value in pairs) if pairs else ""


def escaped(value: str) -> str:
    """A label's value between its quotes."""
    plain = value.encode("utf-8", "replace").decode()
    return plain.replace("\\", "\\\\").replace('"', '\\"').replace("\n", "\\n")


def number(value: float) -> str:
    """A number as it is told."""
    return str(value) if isinstance(value, int) else repr(round(value, 6))
