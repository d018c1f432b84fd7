"""The recordings of a run, with their files. It is the machine's store."""

from __future__ import annotations

import os
import time
from typing import Callable, Optional

from bpfrec.formats.names import Names
from bpfrec_tools.live.kept.facts import About, Writer
from bpfrec_tools.live.kept.names import is_special
from bpfrec_tools.live.model import Recording
from bpfrec_tools.live.parts import outputs
from bpfrec_tools.live.parts.recorder import Recorder
from bpfrec_tools.live.said import said

# After a full disk the next recording begins once there is so much room.
ROOM = 1 << 20


class Recordings:
    """All recordings that live has something of; `err` takes a line for who watches."""

    def __init__(self, writer: Writer, watched: outputs.Outputs, err: Callable[[str], None]) -> None:
        self.writer, self.watched, self.err = writer, watched, err
        self.given, self.folder, self.files = writer.given, writer.folder, writer.files
        self.names = Names(self.given.out)
        self.all: dict[int, Recorder] = {}
        self.count, self.told_of = 0, ""

    def of(self, recording: Recording) -> Recorder:
        """What live has of a recording."""
        return self.all[recording.number]

    def first(self) -> Recording:
        """Makes the first recording, without its OUT."""
        return self.prepare(self.names.next()[1] if self.given.is_rotating() else self.given.out)

    def prepare(self, out: str) -> Recording:
        """Makes the folder of the next recording."""
        number = self.count + 1
        made = self.folder.make(number)
        begun = time.strftime("%Y-%m-%dT%H:%M:%SZ", time.gmtime(time.time()))
        about = About(number, out, number - 1, begun)
        self.writer.prepare(about)
        recording = Recording(number, out)
        self.all[number] = Recorder(recording, made, about)
        self.count = number
        return recording

    def drop(self, recording: Recording) -> None:
        """Lets a recording go whose recorder can't be started; what made it is closed where another one goes on."""
        recorder = self.of(recording)
        outputs.discard(recorder)
        self.watched.end(recorder)
        self.folder.remove(recording.number)
        if len(self.all) > 1:
            self.forget(recording)

    def forget(self, recording: Recording) -> None:
        """Closes all that live has of a recording."""
        self.all.pop(recording.number).close()

    # ---- OUT

    def create(self, recording: Recording) -> bool:
        """Creates OUT, which nobody has: whether it is there now."""
        recorder = self.of(recording)
        if not self.is_special(recording):
            try:
                recorder.take_output(self.files.create(recorder.about.out))
            except OSError as error:
                self.err(said(f"{recorder.about.out}: {error.strerror}"))
                return False
        self.watched.watch(recorder)
        return True

    def is_special(self, recording: Recording) -> bool:
        """Whether OUT is a pipe or a device, which may have to wait for a reader."""
        return is_special(recording.out)

    def following(self, before: Recording) -> Optional[Recording]:
        """Makes the next recording, with OUT and pipes; None, which is told, where that can't be done."""
        number, out = self.names.next()
        try:
            recording = self.created(out)
            self.watched.watch(self.of(recording))
            return recording
        except OSError:
            self.names.give_back(number)
        if self.told_of != out and not before.has_failed and not before.has_ended():
            self.err(said(f"{out} can't be begun: {before.out} goes on"))
        self.told_of = out
        return None

    def created(self, out: str) -> Recording:
        """A recording with its OUT. An OSError says that it can't be made, and nothing of it is there."""
        descriptor = self.files.create(out)
        try:
            recording = self.prepare(out)
        except OSError:
            os.close(descriptor)
            os.unlink(out)
            self.folder.remove(self.count + 1)
            raise
        self.of(recording).take_output(descriptor)
        return recording

    def forget_output(self, recorder: Recorder) -> None:
        """Closes OUT, which would keep its room on the disk."""
        self.watched.end(recorder)
        recorder.forget()

    def is_empty(self, recording: Recording) -> bool:
        """Whether nothing is in an OUT that was created for this recording, or none was."""
        return outputs.is_empty(self.of(recording))

    def size(self, recording: Recording) -> int:
        """How many bytes OUT has."""
        return self.of(recording).size()

    def has_room(self, recording: Recording) -> bool:
        """Whether the disk has room for a next recording."""
        return outputs.room_beside(recording) >= ROOM

    def awaits_answer(self, recording: Recording) -> bool:
        """Whether a line hasn't been answered by its recorder, so that its filter isn't known."""
        return bool(self.of(recording).lines.unanswered)
