"""How a run goes at one moment, as data that don't change: what the page, the metrics, the table and the alarms show.

Moments are seconds of a clock that nobody sets (`time.monotonic`); ages and lengths of time are seconds. None is what
isn't known.
"""

from __future__ import annotations

from enum import Enum
from typing import NamedTuple, Optional

from bpfrec.formats.answers import Verdict
from bpfrec.formats.clock_state import ClockState
from bpfrec_tools.live.run.ports import Counts

# How many seconds of its past a channel keeps.
HISTORY_SECONDS = 60


class State(str, Enum):
    """How a run goes."""

    WAITING = "waiting"
    RECORDING = "recording"
    ENDED = "ended"


class Second(NamedTuple):
    """A second of a channel. Frames and bytes are those a second; what was dropped, missed and skipped are frames of
    this second, and `waited` its milliseconds; the filter's version and the last frame's age are those at its end."""

    offered_frames: Optional[float]
    offered_bytes: Optional[float]
    kept_frames: float
    kept_bytes: float
    dropped: int
    missed: int
    skipped: int
    waited: int
    version: int
    age: Optional[float]


class Unkept(NamedTuple):
    """What a channel was offered since a kept frame of it was last seen in the recording, and for how long."""

    seconds: float
    frames: int
    bytes: int


class FilterView(NamedTuple):
    """A channel's filter by now, as people know it, and how many lines have changed it in this run."""

    name: str
    changes: int


class LinkView(NamedTuple):
    """Whether an interface brings no frames, why it does or did so last, for how long that has been so or over, and how
    often it was so in this run."""

    is_away: bool = False
    why: str = ""
    age: Optional[float] = None
    interruptions: int = 0


class ChannelView(NamedTuple):
    """A channel. `interface` is None where its feed is a file or a pipe, of which nobody counts what is offered, and
    `name` is empty where the settings give it none.
    `version` is the last version of its filter in this recording. `kept` frames and bytes are those of the run that are
    in recordings; `seconds` is for how long the channel has been recorded, and `has_ended` whether the recording has the
    record of its end."""

    channel: int
    interface: Optional[str]
    version: int
    counts: Optional[Counts]
    counts_age: Optional[float]
    frame_age: Optional[float]
    lost_age: Optional[float]
    kept_frames: int
    kept_bytes: int
    seconds: float
    has_ended: bool
    unkept: Optional[Unkept]
    history: tuple[Second, ...]
    filter: FilterView = FilterView("all", 0)
    link: LinkView = LinkView()
    name: str = ""

    def source(self) -> str:
        """What it is called, and the interface that brings its frames."""
        return ", ".join(it for it in (self.name, self.interface) if it)


class RecordingView(NamedTuple):
    """The recording that goes on. `bytes_per_second` is the mean of the last minute; `unread` are bytes of the file
    that weren't looked at yet, and `fault` says what was wrong with it last."""

    number: int
    name: str
    seconds: float
    bytes: int
    bytes_per_second: Optional[float]
    unread: int
    fault: Optional[str]


class DiskView(NamedTuple):
    """The disk of the recording: the bytes that are free, and in how many seconds it is full at this rate."""

    free: int
    seconds_left: Optional[float]


class SyncView(NamedTuple):
    """How often the recording is forced to its disk, and how long ago it was; `interval` is 0 for never. `faults` are
    the recordings of the run that couldn't be, and `fault` says it of the last."""

    interval: float
    age: Optional[float]
    faults: int = 0
    fault: str = ""


class EndedView(NamedTuple):
    """A recording that has ended: its size, the status of its recorder or its audit, and the audit's last line."""

    number: int
    name: str
    bytes: int
    status: int
    audit: Optional[str]

    def is_refused(self) -> bool:
        """Whether the audit said no."""
        return self.audit is not None and not Verdict.of(self.audit).is_yes()


class Audits(NamedTuple):
    """How many recordings of the run an audit approved, how many it didn't, and how many weren't audited."""

    yes: int
    no: int
    none: int


class MarkView(NamedTuple):
    """A mark, in the recording of this name: its counter, its time in UTC, its text, and how long ago it was noted."""

    name: str
    counter: int
    time: str
    text: str
    age: float


class ClockView(NamedTuple):
    """How right the host's clock is, and by how many seconds it may be off, where somebody asks for that."""

    state: ClockState
    most: Optional[float] = None

    def fault(self) -> Optional[str]:
        """Why it is worse than it has to be."""
        return self.state.fault(self.most)


class GroundView(NamedTuple):
    """A ground station: its address, the datagrams that were sent to it in this run, those of them that were lost here,
    late packets, whether its publisher runs, and how long ago a datagram was lost."""

    address: str
    datagrams: int
    lost: int
    late: int
    is_sent_to: bool
    lost_age: Optional[float] = None


class View(NamedTuple):
    """A run at the moment `now`. It is `waiting` where no recording goes on; `uptime` is
    how long it has gone on, and `recordings` are the last that ended. `marks` are the last of the run; `host` is the
    name of the host, and `utc` the moment by its clock, in seconds since 1970. `is_ending` says that no other recording
    will begin; `unsigned`, `unhashed` and `killed` what is said of the last recording that has no signature or no hash, or
    whose recorder was killed."""

    now: float
    state: State
    uptime: float
    recording: Optional[RecordingView]
    disk: Optional[DiskView]
    sync: SyncView
    channels: tuple[ChannelView, ...]
    recordings: tuple[EndedView, ...]
    audits: Audits
    marks: tuple[MarkView, ...] = ()
    host: str = ""
    utc: Optional[float] = None
    clock: ClockView = ClockView(ClockState())
    is_ending: bool = False
    unsigned: str = ""
    unhashed: str = ""
    killed: str = ""
    ground: tuple[GroundView, ...] = ()


def since(moment: Optional[float], now: float) -> Optional[float]:
    """How long ago a moment was; none is in the future."""
    return None if moment is None else max(now - moment, 0)


def lost(counts: Counts) -> int:
    """How many frames of an interface were lost, in whatever route."""
    return counts.dropped + counts.missed + counts.skipped
