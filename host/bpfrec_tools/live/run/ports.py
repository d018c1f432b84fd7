"""What the run's decisions stand on: what is done for them, the files of recordings, and who is told how the run goes."""

from __future__ import annotations

from collections.abc import Iterable, Sequence
from enum import Enum
from typing import Callable, NamedTuple, Optional, Protocol

from bpfrec.formats.clock_state import ClockState
from bpfrec_tools.live.model import Recording


class Deed(Enum):
    """What `Run` does as the machine says. None of it waits."""

    START_CAPTURE = "starts the capture of all interfaces"
    POINT_TO = "has the capture find the pipes of this recording"
    END_CAPTURE = "tells the capture to end"
    SWITCH_CAPTURE = "has the capture go over to the pipes that it finds now"
    HOLD_CAPTURE = "tells the capture that another reader follows"
    KILL_CAPTURE = "kills the capture"
    KILL_RECORDER = "kills a recorder"
    KILL_AUDIT = "kills an audit"
    OPEN_PIPES = "opens the pipes for which a recorder waits, as their writer"
    END_LINES = "ends the lines that change filters"
    FORGET_OUT = "closes OUT, which would keep its room on the disk"
    DISCARD_OUT = "removes OUT"
    PRINT_REPORT = "prints what the recorder printed"
    CONCLUDE = "writes the last facts, and lets go all that a recording has"


class Starter(Protocol):
    """What starts programs for the machine, and answers at once."""

    def start_recorder(self, recording: Recording) -> bool:
        """Starts the recorder, which waits for its pipes: False, which is told, where that can't be done."""

    def audit(self, recording: Recording) -> bool:
        """Starts an audit; False where OUT is no file that could be audited."""


class Store(Protocol):
    """The files of recordings."""

    def create(self, recording: Recording) -> bool:
        """Creates OUT, which nobody has: whether it is there now."""

    def is_special(self, recording: Recording) -> bool:
        """Whether OUT is a pipe or a device, which may have to wait for a reader."""

    def following(self, before: Recording) -> Optional[Recording]:
        """Makes the next recording, with OUT and pipes; None, which is told, where that can't be done."""

    def is_empty(self, recording: Recording) -> bool:
        """Whether OUT was created for this recording, and nothing is in it."""

    def size(self, recording: Recording) -> int:
        """How many bytes OUT has."""

    def has_room(self, recording: Recording) -> bool:
        """Whether the disk has room for a next recording."""

    def awaits_answer(self, recording: Recording) -> bool:
        """Whether a line hasn't been answered by its recorder, so that its filter isn't known."""


class Ports(NamedTuple):
    """All that the machine has to do with: who does what it says, whom it asks, and a line for who watches."""

    perform: Callable[[Deed, Recording], None]
    starter: Starter
    store: Store
    err: Callable[[str], None]


class Setup(NamedTuple):
    """A channel of a recording, with the interface that it has, None where its feed is a file or a pipe, its filter as
    people know it, and the name that the settings give it."""

    channel: int
    interface: Optional[str]
    filter: str = "all"
    name: str = ""


class Counts(NamedTuple):
    """What the capture has counted of an interface since the run began. `skipped` frames were cut short, or of no
    length that a feed takes; `waited` is for how many milliseconds the interface's pipe was full."""

    frames: int
    bytes: int
    dropped: int
    missed: int
    skipped: int
    waited: int


class Sent(NamedTuple):
    """What a publisher has sent to an address since it was begun: datagrams, those of them that were lost here, and
    packets that lay over a second behind one ahead of them."""

    datagrams: int
    lost: int
    late: int


class Marked(NamedTuple):
    """A mark of a recording: the counter of a frame that comes then, the time in UTC, and the text."""

    path: str
    counter: int
    time: str
    text: str


class Observer(Protocol):
    """Takes what happens, each time with the moment, in seconds of `time.monotonic()`. It must not wait: the loop calls
    it."""

    def recording_begun(self, number: int, path: str, channels: Iterable[Setup], now: float) -> None:
        """A recorder has opened OUT, which is empty."""

    def capture_counted(self, interface: str, counts: Counts, now: float) -> None:
        """The capture has counted so much of an interface; each second."""

    def linked(self, interface: str, away: Optional[str], now: float) -> None:
        """An interface brings no frames from now on, for this reason, or by None it does again."""

    def published(self, address: str, sent: Optional[Sent], now: float) -> None:
        """So much was sent to an address by now; None where its publisher has died."""

    def filter_changed(self, channel: int, version: int, name: str) -> None:
        """A line changed a filter of the recording that goes on, to one of this name."""

    def marked(self, mark: Marked, now: float) -> None:
        """A recording has one more mark."""

    def report(self, now: float) -> Sequence[str]:
        """How the run goes, as lines."""

    def synced(self, now: float) -> None:
        """The recording that goes on was forced to its disk."""

    def sync_failed(self, path: str, why: str) -> None:
        """A recording couldn't be forced to its disk; it is told once of each."""

    def signing_failed(self, path: str, why: str) -> None:
        """The facts of a recording that has ended couldn't be signed."""

    def hashing_failed(self, path: str, why: str) -> None:
        """A recording that has ended has no hash."""

    def clock_seen(self, state: ClockState, most: Optional[float]) -> None:
        """How right the clock is, each second, and by how many seconds it may be off, where somebody asks for that."""

    def recording_ended(
        self, number: int, status: int, now: float, report: Sequence[str] = (), audit: Sequence[str] = ()
    ) -> None:
        """A recorder has ended, with this status and these lines, and so has the audit of what it recorded."""

    def recorder_stopped(self, number: int, path: str, killed_by: Optional[int]) -> None:
        """A recorder takes no more frames, since its output failed, or this signal ended it."""

    def tick(self, now: float) -> None:
        """A second has gone by."""

    def ending(self) -> None:
        """No other recording will begin."""

    def ended(self, now: float) -> None:
        """All has ended."""
