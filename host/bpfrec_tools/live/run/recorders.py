"""The recorders of a run, each from its start to what is told at its end. They are the machine's starter."""

from __future__ import annotations

import time
from typing import TYPE_CHECKING

from bpfrec.formats.answers import Answer, file_fault, is_output_fault
from bpfrec_tools.live.control.changes import Change
from bpfrec_tools.live.control.lines import LAST_VERSION
from bpfrec_tools.live.kept.durability import UNFORCED
from bpfrec_tools.live.kept.names import is_special
from bpfrec_tools.live.model import KILLED, Recording
from bpfrec_tools.live.parts.guard import open_and_close
from bpfrec_tools.live.parts.recorder import Recorder
from bpfrec_tools.live.said import said

if TYPE_CHECKING:
    from bpfrec_tools.live.run.run import Run


class Recorders:
    """What a run does with its recorders, and tells its machine and its parts of them."""

    def __init__(self, run: Run) -> None:
        self.run = run

    def start_recorder(self, recording: Recording) -> bool:
        """Starts the recorder, which waits for its pipes: False, which is told, where that can't be done."""
        run, recorder = self.run, self.run.recordings.of(recording)
        try:
            if recorder.descriptor is None and not is_special(recorder.about.out):
                recorder.hold_place()
            child = recorder.start(run.programs.bpfrec, run.guard.all, run.guard.lifeline_of_both())
        except OSError as error:
            run.err(said(f"{run.programs.bpfrec} record can't be started: {error.strerror}"))
            run.recordings.drop(recording)
            return False
        run.ended.hashes.begin(recording.number)
        run.loop.follow(child, lambda status: self.ended(recorder, status))
        run.loop.on_read(recorder.answers, lambda: self.take_answers(recorder))
        if not run.control.is_open():
            run.control.end(recorder)
        return True

    def open_pipes(self, recorder: Recorder) -> None:
        """Lets a recorder go on that waits for the writer of a pipe."""
        for pipe in self.run.folder.pipes(recorder.about.number):
            open_and_close(pipe)

    def begun(self, recorder: Recorder) -> None:
        """A recorder has opened OUT."""
        recorder.let_live()
        self.run.machine.opened(recorder.recording)
        for part in self.run.parts:
            part.begun(recorder)

    def forced(self, recorder: Recorder, moment: float) -> None:
        """A recording was forced to its disk."""
        for part in self.run.parts if recorder.recording is self.run.machine.current else []:
            part.forced(recorder, moment)

    def force_failed(self, recorder: Recorder, why: str) -> None:
        """A recording couldn't be forced to its disk."""
        if not recorder.recording.is_unforced and not recorder.recording.has_failed:
            self.run.observers.sync_failed(recorder, why)
            self.run.durability.write(recorder)
        self.run.machine.force_failed(recorder.recording, why, time.monotonic())

    # ---- answers

    def take_answers(self, recorder: Recorder) -> None:
        """Tells the recorder's answers, and sees whether its output failed."""
        for line in recorder.answered():
            self.run.err(self.run.control.told(recorder, line, lambda change, it: self.changed(recorder, change, it)))
            if is_output_fault(line):
                self.run.machine.output_failed(recorder.recording, time.monotonic())
            elif line == file_fault(recorder.about.out) and recorder.keeper:
                # It has opened OUT before, so that is what it says where its fsync fails.
                recorder.keeper.sync_fault = recorder.keeper.sync_fault or UNFORCED
                self.force_failed(recorder, UNFORCED)

    def changed(self, recorder: Recorder, change: Change, answer: Answer) -> None:
        """The recorder has answered a line."""
        if answer.version is not None and change.words:
            self.run.durability.write(recorder)
        if answer.version is not None and recorder.recording is self.run.machine.current:
            self.run.observers.changed(answer.channel, answer.version, change.name)
            if self.run.given.is_rotating() and answer.version >= LAST_VERSION:
                self.run.machine.used_up(recorder.recording)

    # ---- the end

    def ended(self, recorder: Recorder, status: int) -> None:
        """A recorder has ended."""
        self.take_answers(recorder)
        self.run.loop.on_read(recorder.answers, None)
        for part in self.run.parts:
            part.ended(recorder)
        has_failed = recorder.recording.has_failed
        if has_failed or status > KILLED:
            self.run.observers.stopped(recorder, None if has_failed else status - KILLED)
        self.run.machine.recorder_ended(recorder.recording, status, time.monotonic())

    def audit(self, recording: Recording) -> bool:
        """Starts an audit; False where OUT is no file that could be audited."""
        return self.run.audits.start(self.run.recordings.of(recording))

    def print_report(self, recorder: Recorder) -> None:
        """Prints what the recorder printed, where another recording may follow once this one is audited."""
        if self.run.given.is_rotating():
            recorder.report = f"recording {recorder.about.out}\n{recorder.text('report')}"
        else:
            self.run.console.out(recorder.text("report"))

    def conclude(self, recorder: Recorder) -> None:
        """Tells what is known of a recording at its end, and lets go all that it has."""
        recording, status = recorder.recording, recorder.recording.outcome or 0
        if recorder.report:
            self.run.console.out(recorder.report)
        for part in self.run.parts:
            part.concluded(recorder, status)
        if recording is not self.run.machine.current:
            self.run.recordings.forget(recording)
