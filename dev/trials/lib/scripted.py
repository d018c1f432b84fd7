"""Flights by a script, for trials of the status: what `live` would tell of a run, second by second, while its recording
grows. Moments begin at 1,000 s, and are nobody's but the script's.
"""

import json
import struct
from collections.abc import Iterable
from dataclasses import dataclass
from pathlib import Path
from typing import Any

from bpfrec_tools.live import status
from bpfrec_tools.live.parts.events import Counted, event_in
from bpfrec_tools.live.run.ports import Marked
from bpfrec_tools.live.status import (
    Counts,
    Setup,
    Status,
    Terminal,
    alarms,
    as_json,
    endpoint_in,
    metrics,
    server,
    table,
)
from bpfrec_tools.live.status.alarms import Alarm
from bpfrec_tools.live.status.growth import Growth, Kept
from bpfrec_tools.live.status.server import PAGE
from bpfrec_tools.live.status.table import columns_of
from bpfrec_tools.live.status.view import (
    HISTORY_SECONDS,
    Audits,
    ChannelView,
    ClockView,
    DiskView,
    EndedView,
    GroundView,
    LinkView,
    RecordingView,
    Second,
    SyncView,
    Unkept,
    View,
)
from frames import FRAMES, end_packet, packet_of, program_packet

# The package's names, for trials, which import them from here.
__all__ = [
    "Alarm",
    "Audits",
    "ChannelView",
    "ClockView",
    "Counts",
    "DiskView",
    "EndedView",
    "GroundView",
    "LinkView",
    "Growth",
    "Marked",
    "HISTORY_SECONDS",
    "Kept",
    "PAGE",
    "RecordingView",
    "Second",
    "Setup",
    "Status",
    "SyncView",
    "Terminal",
    "Unkept",
    "View",
    "alarms",
    "as_json",
    "columns_of",
    "endpoint_in",
    "metrics",
    "server",
    "status",
    "table",
]
BEGIN = 1_000.0
FRAME_LENGTH = 60
PACKET_FRAMES = 200


@dataclass
class Wire:
    """A channel's traffic a second: frames that come, how many of a hundred its filter keeps, how many the kernel drops
    and for how many milliseconds the pipe waits; and from and to which second it comes."""

    interface: str | None
    frames: int = 500
    kept: int = 100
    dropped: int = 0
    waited: int = 0
    begin: int = 0
    end: int = 1 << 30
    drops_at: tuple[int, ...] = ()
    filter: str = "all"
    name: str = ""


def program(channel: int, version: int, returned: int = 1) -> bytes:
    """The packet of a version of a filter, which returns a number."""
    return program_packet(channel, version, (6, 0, 0, returned))


def frames(channel: int, count: int, length: int = 250, is_summed: bool = True) -> bytes:
    """A packet of frames."""
    one = struct.pack("<QI", 0, length) + bytes(length + length % 2)
    return packet_of(channel, struct.pack("<I", count) + one * count, 0, FRAMES, 0, is_summed)


class Flight:
    """A run with a recording in a folder, of these channels by their IDs."""

    def __init__(self, folder: Path, wires: dict[int, Wire], **more: Any) -> None:
        self.folder, self.wires, self.second, self.number = folder, wires, 0, 0
        self.status = status.Status(now=BEGIN, **more)
        self.status.start()
        self.counts = {it.interface: [0] * 6 for it in wires.values() if it.interface}
        self.open = dict.fromkeys(wires, 0.0)
        self.path = folder / "none"

    def now(self) -> float:
        return BEGIN + self.second

    def setups(self) -> list[status.Setup]:
        return [status.Setup(channel, it.interface, it.filter, it.name) for channel, it in self.wires.items()]

    def begin(self, name: str = "flight.ch11") -> None:
        """A recording begins, with the program of each channel."""
        self.number += 1
        self.path = self.folder / name
        self.path.write_bytes(b"".join(program(channel, 0) for channel in self.wires))
        self.status.recording_begun(self.number, str(self.path), self.setups(), self.now())

    def flown(self, seconds: int = 0) -> "Flight":
        """The same with a recording that has gone on for so long."""
        self.begin()
        for _ in range(seconds):
            self.pass_second()
        return self

    def append(self, data: bytes) -> None:
        with open(self.path, "ab") as file:
            file.write(data)

    def pass_second(self, syncs: bool = True) -> None:
        """A second of traffic, of the capture's counts, of packets that are full, and of the status."""
        self.second += 1
        self.come()
        self.count()
        if syncs:
            self.status.synced(self.now() - 0.1)
        self.status.tick(self.now())

    def pause(self, seconds: int) -> None:
        """The capture stands still for so long. Then it counts at once, and all that has waited comes a second later."""
        for _ in range(seconds):
            self.second += 1
            self.status.tick(self.now())
        self.count()
        for _ in range(seconds):
            self.come()
        self.pass_second()

    def come(self) -> None:
        """What comes in a second."""
        for channel, wire in self.wires.items():
            if wire.begin < self.second <= wire.end:
                self.send(channel, wire)

    def count(self) -> None:
        """The capture's counts of a second."""
        for wire in self.wires.values():
            if wire.interface:
                numbers = dict(zip(Counts._fields, self.counts[wire.interface]))
                line = {"counts": wire.interface, "counter": 10**7 * self.second, **numbers, "feed": 0}
                counted = event_in(json.dumps(line))
                assert isinstance(counted, Counted)
                self.status.capture_counted(counted.interface, counted.counts, self.now() - 0.3)

    def send(self, channel: int, wire: Wire) -> None:
        dropped = wire.dropped if not wire.drops_at or self.second in wire.drops_at else 0
        added = (wire.frames, wire.frames * FRAME_LENGTH, dropped, 0, 0, wire.waited)
        if wire.interface:
            self.counts[wire.interface] = [a + b for a, b in zip(self.counts[wire.interface], added)]
        self.open[channel] += wire.frames * wire.kept / 100
        while self.open[channel] >= PACKET_FRAMES:
            self.open[channel] -= PACKET_FRAMES
            self.append(frames(channel, PACKET_FRAMES, FRAME_LENGTH))

    def pass_seconds(self, count: int, **more: Any) -> None:
        for _ in range(count):
            self.pass_second(**more)

    def end_recording(self, audit: Iterable[str] = ("yes other 0",), exit_status: int = 0) -> None:
        """The recording ends, with the ends of its channels and its audit."""
        self.append(b"".join(end_packet(it, 0) for it in self.wires))
        size = self.path.stat().st_size
        report = ["channel 1 versions 1 offered 0 kept 0 SourceEnd", f"wrote 1 {size}"]
        self.status.recording_ended(self.number, exit_status, self.now(), report, list(audit))


def view_of(flight: Flight) -> View:
    """What the status knows of a flight by now."""
    return flight.status.model.view(flight.now())


def told_of(flight: Flight) -> tuple[View, tuple[alarms.Alarm, ...]]:
    """That, with its alarms."""
    return view_of(flight), alarms.alarms_of(view_of(flight), 65_536)


def channel_of(flight: Flight, channel: int) -> ChannelView:
    """What it knows of a channel."""
    return next(it for it in view_of(flight).channels if it.channel == channel)


def wires_of(count: int) -> dict[int, Wire]:
    """Channels of a usual flight, of many rates."""
    return {
        it: Wire(f"eth{it - 1}", frames=40 * (1 + it * 7 % 23), kept=(100, 100, 35, 60)[it % 4])
        for it in range(1, count + 1)
    }
