"""The audits of a run's recordings, each started once its recorder has ended."""

from __future__ import annotations

from typing import Callable

from bpfrec.formats.answers import file_fault
from bpfrec_tools.live.model import KILLED, Recording
from bpfrec_tools.live.parts.guard import Guard
from bpfrec_tools.live.parts.loop import Loop
from bpfrec_tools.live.parts.recorder import Recorder
from bpfrec_tools.live.run.engine import FILE_FAULT
from bpfrec_tools.live.said import said


class Audits:
    """Starts audits. `audited` takes a recording with the status of its audit, and `err` a line for who watches."""

    def __init__(
        self,
        loop: Loop,
        bpfrec: str,
        guard: Guard,
        audited: Callable[[Recording, int], None],
        err: Callable[[str], None],
    ) -> None:
        self.loop, self.bpfrec, self.guard, self.audited, self.err = loop, bpfrec, guard, audited, err

    def start(self, recorder: Recorder) -> bool:
        """Starts an audit; False where OUT is no file that could be audited."""
        if not recorder.is_created or recorder.descriptor is None:
            return False
        try:
            child = recorder.start_audit(self.bpfrec, self.guard)
        except OSError as error:
            self.err(said(f"{recorder.about.out} can't be audited: {error.strerror}"))
            self.loop.call_soon(lambda: self.end(recorder, FILE_FAULT))
            return True
        self.loop.follow(child, lambda status: self.end(recorder, status))
        return True

    def end(self, recorder: Recorder, status: int) -> None:
        """An audit has ended."""
        for line in recorder.text("audit_errors").splitlines():
            self.err(file_fault(recorder.about.out) if line == file_fault("-") else line)
        if status > KILLED:
            number = status - KILLED
            self.err(said(f"{self.bpfrec} audit was ended by signal {number}: {recorder.about.out} isn't audited"))
        recorder.report += recorder.text("audit")
        self.audited(recorder.recording, status)
