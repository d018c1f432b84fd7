"""What the package gives of a recording, as data that don't change."""

from __future__ import annotations

import builtins
from dataclasses import dataclass
from datetime import datetime as DateTime
from datetime import timedelta, timezone
from typing import Any, Callable, Optional, cast

FCS_LEN = 4
EPOCH = DateTime(1970, 1, 1, tzinfo=timezone.utc)
NANOSECONDS_A_MICROSECOND = 1_000


def datetime_of(time_ns: Optional[int]) -> Optional[DateTime]:
    """A time in nanoseconds since 1970 UTC as a `datetime`, rounded down to the microsecond."""
    return None if time_ns is None else EPOCH + timedelta(microseconds=time_ns // NANOSECONDS_A_MICROSECOND)


@dataclass(frozen=True)
class Frame:
    """An Ethernet frame as it was recorded.

    `channel` is its channel ID, and `counter` its relative time counter (RTC), in ticks of 100 ns.
    `time_ns` is in nanoseconds since 1970-01-01 UTC, exactly; None where nobody knows it, as without facts.
    `bytes` begin with the destination address and end with the frame check sequence (FCS), as the recording has them.
    `fcs_wrong` and `has_frame_error` are its error flags: it came with a wrong FCS, or with a frame error.
    `network` and `speed` are the network identifier and the Ethernet speed that the settings gave it.
    `version` is that of the filter that accepted it; None where no program stands before it."""

    __slots__ = (
        *("channel", "counter", "time_ns", "bytes", "fcs_wrong", "has_frame_error", "network", "speed", "version"),
    )

    channel: int
    counter: int
    time_ns: Optional[int]
    bytes: bytes
    fcs_wrong: bool
    has_frame_error: bool
    network: int
    speed: int
    version: Optional[int]

    def __reduce__(self) -> tuple[type[Frame], tuple[Any, ...]]:
        return Frame, tuple(getattr(self, name) for name in self.__slots__)

    @property
    def datetime(self) -> Optional[DateTime]:
        """Its time as a `datetime` in UTC, rounded down to the microsecond."""
        return datetime_of(self.time_ns)

    @property
    def fcs(self) -> int:
        """Its frame check sequence, as `zlib.crc32(frame.without_fcs)` computes one."""
        return int.from_bytes(self.bytes[-FCS_LEN:], "little")

    @property
    def without_fcs(self) -> builtins.bytes:
        """Its bytes without the frame check sequence, as scapy takes them."""
        return self.bytes[:-FCS_LEN]


class Unfrozen:
    """A frame before it is one: Python sets the fields of a frozen class by a call each, which takes three times as
    long."""

    __slots__ = Frame.__slots__

    def __init__(
        self,
        channel: int,
        counter: int,
        time_ns: Optional[int],
        data: builtins.bytes,
        fcs_wrong: bool,
        has_frame_error: bool,
        network: int,
        speed: int,
        version: Optional[int],
    ) -> None:
        self.channel, self.counter, self.time_ns, self.bytes = channel, counter, time_ns, data
        self.fcs_wrong, self.has_frame_error = fcs_wrong, has_frame_error
        self.network, self.speed, self.version = network, speed, version
        self.__class__ = Frame  # type: ignore[assignment]


frame_of = cast("Callable[..., Frame]", Unfrozen)


@dataclass(frozen=True)
class Channel:
    """A channel of a recording, or of several that follow one another.

    `id` is what frames have as `channel`. `name` is the one that the settings gave it, else its interface, both by the
    facts, or else `channel` and its ID. `host` recorded it; it is empty without facts. `recorded_as` is its channel ID
    in the recordings of `paths`. Both IDs are the same, but where channels of several recorders meet: see
    `bpfrec.open`. `interface` is None where the facts have none."""

    id: int
    name: str
    host: str
    recorded_as: int
    paths: tuple[str, ...]
    interface: Optional[str] = None


@dataclass(frozen=True)
class Filter:
    """A program of a channel's filter, in force until the channel's next one.

    `version` counts from 0 in each recording, and `path` is the recording's.
    `first` is the number of the first frame that met it, among those that were offered, and `counter` and `time_ns` are
    that frame's.
    `listing` has its instructions, as `bpfrec dis` takes them. `expression` is that of which tcpdump made it, if the
    facts have it."""

    channel: int
    version: int
    first: int
    counter: int
    time_ns: Optional[int]
    listing: str
    expression: Optional[str]
    path: str

    @property
    def datetime(self) -> Optional[DateTime]:
        """Its time as a `datetime` in UTC, rounded down to the microsecond."""
        return datetime_of(self.time_ns)


@dataclass(frozen=True)
class End:
    """The end of a channel in the recording of `path`: how many frames its filter was offered, and how many it kept.
    A channel without one was cut off."""

    channel: int
    offered: int
    kept: int
    path: str


@dataclass(frozen=True)
class Origin:
    """From `counter` on the time of a frame is `moment` and 100 ns for each tick of its counter.

    `moment` is in nanoseconds since 1970, of UTC. If nobody knows the time scale of the clock, `scale` is None, and the
    moment is the clock's own. A clock that ran TAI was `tai_offset` seconds ahead of UTC, which are taken off."""

    counter: int
    moment: int
    scale: Optional[str]
    tai_offset: int


@dataclass(frozen=True)
class Mark:
    """An event that somebody noted while the recording went on; `time_ns` is None where nobody knows it."""

    counter: int
    time_ns: Optional[int]
    text: str


@dataclass(frozen=True)
class Facts:
    """The facts that `bpfrec live` writes beside a recording; of a whole Chapter 11 file what its setup record and its
    time packets say.

    `interfaces` has the name of each channel ID, and `losses` the frames that were `dropped`, `missed` and `skipped`
    ahead of the recorder."""

    host: str
    program: str
    interfaces: dict[int, str]
    origins: tuple[Origin, ...]
    losses: dict[str, int]
    marks: tuple[Mark, ...]
