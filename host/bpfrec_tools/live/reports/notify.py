"""What live tells the service manager that started it, as sd_notify(3) has it: ready, alive, and that it ends."""

from __future__ import annotations

import os
import socket
from typing import Optional

from bpfrec_tools.live.parts.part import Part
from bpfrec_tools.live.parts.recorder import Recorder

MICROSECONDS = 1_000_000
# An audit may take as long as its recording is large: so long is asked for at a time, and so often, in seconds.
MORE_TIME, MORE_TIME_PAUSE = 60, 10.0


class Notifier(Part):
    """The service manager, where there is one: what it watches over is told as long as the loop turns."""

    def __init__(self) -> None:
        # No program that live starts is to speak for it.
        path, pause = os.environ.pop("NOTIFY_SOCKET", ""), os.environ.pop("WATCHDOG_USEC", "")
        process = os.environ.pop("WATCHDOG_PID", "")
        self.socket = opened(path) if path else None
        is_ours = self.socket is not None and process in ("", str(os.getpid()))
        has_pause = is_ours and pause.isascii() and pause.isdigit() and int(pause) > 0
        # Twice in the time after which live would be taken for stuck.
        self.pause: Optional[float] = int(pause) / MICROSECONDS / 2 if has_pause else None
        self.next_sign = self.next_plea = 0.0
        self.is_ready = self.is_stopping = self.is_auditing = False

    def send(self, *lines: str) -> None:
        """Tells lines; a manager that takes none is left alone."""
        if self.socket:
            try:
                self.socket.send("\n".join(lines).encode(errors="replace"), socket.MSG_DONTWAIT)
            except OSError:
                pass

    def begun(self, recorder: Recorder) -> None:
        """All channels are open, and this is recorded."""
        status = f"STATUS=recording {recorder.about.out}".replace("\n", " ")
        self.send(*([] if self.is_ready else ["READY=1"]), status)
        self.is_ready = True

    def stopping(self, now: float, is_auditing: bool) -> None:
        """All is to end; `is_auditing` says whether all but the last audits has ended."""
        self.is_auditing = is_auditing
        if not self.is_stopping:
            self.is_stopping, self.next_plea = True, now
            self.send("STOPPING=1", "STATUS=ending")

    # ---- time

    def deadline(self) -> Optional[float]:
        """When something is told next; None where nothing is."""
        moments = [self.next_sign] * (self.pause is not None)
        moments += [self.next_plea] * (self.is_auditing and self.socket is not None)
        return min(moments, default=None)

    def tick(self, now: float) -> None:
        """Tells that live is alive, and for its last audits that it needs more time."""
        if self.pause is not None and now >= self.next_sign:
            self.next_sign = now + self.pause
            self.send("WATCHDOG=1")
        if self.is_auditing and now >= self.next_plea:
            self.next_plea = now + MORE_TIME_PAUSE
            self.send(f"EXTEND_TIMEOUT_USEC={MORE_TIME * MICROSECONDS}")


def opened(path: str) -> Optional[socket.socket]:
    """A socket to a service manager, at a path or at a name of its own; None where there is none."""
    try:
        made = socket.socket(socket.AF_UNIX, socket.SOCK_DGRAM | socket.SOCK_CLOEXEC)
        made.connect(f"\0{path[1:]}" if path.startswith("@") else path)
        return made
    except OSError:
        return None
