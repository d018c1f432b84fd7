"""One recording as live has it: OUT, the recorder with its lines and answers, and what is kept safe of it."""

from __future__ import annotations

import os
from pathlib import Path
from typing import TYPE_CHECKING, Optional

from bpfrec_tools.live.control.changes import Pipe
from bpfrec_tools.live.kept.facts import About
from bpfrec_tools.live.kept.keeper import Keeper
from bpfrec_tools.live.model import Recording
from bpfrec_tools.live.parts import children, system
from bpfrec_tools.live.parts.folder import open_printed

if TYPE_CHECKING:
    from bpfrec_tools.live.parts.guard import Guard

READ_LEN = 1 << 16


class Recorder:
    """A recording with its descriptors. `place` is how its recorder finds OUT, which may be created later."""

    def __init__(self, recording: Recording, folder: Path, about: About) -> None:
        self.recording, self.folder, self.about = recording, folder, about
        self.descriptor: Optional[int] = None
        self.place = about.out
        self.is_created = self.is_moved = self.is_told = False
        self.child: Optional[children.Child] = None
        # As long as OUT isn't open nobody would let the recorder go where live and its guard have died.
        self.lifeline: Optional[int] = None
        self.auditor: Optional[children.Child] = None
        self.lines = Pipe()
        # Both ways, so that the recorder always has a reader, also where live has died.
        self.answers = os.open(folder / "answers", os.O_RDWR | os.O_NONBLOCK | os.O_CLOEXEC)
        self.rest = b""
        self.keeper: Optional[Keeper] = None
        self.watch: Optional[int] = None
        # What is printed once all is known of it.
        self.report = ""

    # ---- OUT

    def hold_place(self) -> None:
        """Has the recorder find OUT by a descriptor of live's, which leads nowhere until OUT is created."""
        self.descriptor = os.open(os.devnull, os.O_RDWR | os.O_CLOEXEC)
        self.place = f"/proc/{os.getpid()}/fd/{self.descriptor}"

    def take_output(self, created: int) -> None:
        """Takes the descriptor of OUT."""
        self.is_created = True
        if self.descriptor is None:
            self.descriptor = created
            self.place = f"/proc/self/fd/{created}"
        else:
            os.dup2(created, self.descriptor, inheritable=False)
            os.close(created)

    def is_inherited(self) -> bool:
        """Whether the recorder has OUT open from its beginning, and opens it once more."""
        return self.place.startswith("/proc/self/")

    def size(self) -> int:
        """How many bytes OUT has."""
        return os.fstat(self.descriptor).st_size if self.descriptor is not None else 0

    def is_opened(self) -> bool:
        """Whether the recorder has opened OUT."""
        if self.child is None or (self.descriptor is not None and not self.is_created):
            return False
        if self.is_created and self.size() > 0:
            # It has written there, and may have ended since.
            return True
        folder = f"/proc/{self.child.pid}/fd"
        inherited = str(self.descriptor) if self.is_inherited() else ""
        try:
            wanted = os.fstat(self.descriptor) if self.descriptor is not None else os.stat(self.about.out)
            names = [it for it in os.listdir(folder) if it != inherited and int(it) > 2]
        except OSError:
            return False
        return any(is_same(f"{folder}/{it}", wanted) for it in names)

    def is_there(self) -> bool:
        """Whether OUT is where it was created."""
        return self.descriptor is None or is_same(self.about.out, os.fstat(self.descriptor))

    def forget(self) -> None:
        """Closes OUT."""
        if self.keeper:
            self.keeper.release()
        if self.descriptor is not None:
            os.close(self.descriptor)
            self.descriptor = None

    # ---- the recorder

    def start(self, bpfrec: str, everybody: int, lifeline: int) -> children.Child:
        """Starts the recorder."""
        self.lifeline = lifeline
        kept = [everybody]
        if self.is_inherited() and self.descriptor is not None:
            kept.append(self.descriptor)
        arguments = [bpfrec, "record", str(self.folder / "settings.toml"), self.place]
        with open_printed(self.folder, "report") as report:
            streams = (self.lines.reader, report, self.answers)
            manner = children.Manner(kept, ends_with=lifeline)
            self.child = children.start(arguments, streams, manner)
        os.close(self.lines.reader)
        return self.child

    def start_audit(self, bpfrec: str, guard: Guard) -> children.Child:
        """Starts an audit of OUT, which ends with live: it may take long, and nobody would wait for it."""
        # By standard input, so that the file may have any name, and another one by now.
        with open(f"/proc/self/fd/{self.descriptor}", "rb") as read, open_printed(self.folder, "audit") as answer:
            with open_printed(self.folder, "audit_errors") as errors:
                self.auditor = guard.start([bpfrec, "audit", "-"], (read, answer, errors), [guard.all])
        return self.auditor

    def let_live(self) -> None:
        """Lets the recorder go on where live and its guard die: it ends with its pipes."""
        if self.lifeline is not None:
            system.stay_at_hangup(self.lifeline)
            os.close(self.lifeline)
            self.lifeline = None

    def answered(self) -> list[str]:
        """The lines that the recorder has told since."""
        try:
            while part := os.read(self.answers, READ_LEN):
                self.rest += part
        except BlockingIOError:
            pass
        *lines, self.rest = self.rest.split(b"\n")
        return [os.fsdecode(it).replace(self.place, self.about.out) for it in lines]

    def text(self, name: str) -> str:
        """What a program printed into a file of this recording's folder."""
        try:
            return os.fsdecode((self.folder / name).read_bytes())
        except OSError:
            return ""

    def close(self) -> None:
        """Closes all that is still open."""
        self.let_live()
        self.lines.close()
        os.close(self.answers)
        self.forget()


def is_same(path: str, wanted: os.stat_result) -> bool:
    """Whether a path leads to a file."""
    try:
        return os.path.samestat(os.stat(path), wanted)
    except OSError:
        return False
