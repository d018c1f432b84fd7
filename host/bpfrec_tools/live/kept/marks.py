"""Marks: lines that note an event in the facts of the recording that goes on, with its counter and its time."""

from __future__ import annotations

import time
from collections import deque
from typing import Callable, NamedTuple, Optional

from bpfrec.formats.facts import nanoseconds_of
from bpfrec.formats.limits import MAX_COUNTER, MAX_NOTED_MARKS, NANOSECONDS_A_TICK
from bpfrec.formats.marks import text_fault
from bpfrec_tools.live.control.words import Asker, answer
from bpfrec_tools.live.kept.noted import Entry, Noted, note
from bpfrec_tools.live.parts.events import Events
from bpfrec_tools.live.parts.part import Part
from bpfrec_tools.live.parts.recorder import Recorder
from bpfrec_tools.live.said import said


class Typed(NamedTuple):
    """A mark that no recording has yet: the moment at which it was typed, by the clock that nobody sets and by the
    host's, in nanoseconds, and who asked for it."""

    steady: int
    moment: int
    text: str
    asker: Asker = None


class Marks(Part):
    """The marks of a run. `noted` is called where a recording has one more, and `err` takes a line for who watches."""

    def __init__(
        self, events: Events, is_rotating: bool, noted: Callable[[Recorder, Entry], None], err: Callable[[str], None]
    ) -> None:
        self.events, self.is_rotating, self.noted, self.err = events, is_rotating, noted, err
        # How far the host's clock was ahead of the one that nobody sets when the capture had begun.
        self.ahead: Optional[int] = None
        # The recording that goes on, those that wait for the next one, and those of each by its number.
        self.current: Optional[Recorder] = None
        self.waiting: deque[Typed] = deque()
        # Whether the last recording failed, so that the next one may begin much later.
        self.has_failed = False
        self.all: dict[int, list[Typed]] = {}

    def begin_clock(self) -> None:
        """The capture has begun: from now on counters go on however the host's clock is set."""
        if self.ahead is None:
            self.ahead = time.time_ns() - time.monotonic_ns()

    def take(self, given: bytes, asker: Asker = None) -> None:
        """Takes the text of a mark that was typed just now."""
        steady, moment = time.monotonic_ns(), time.time_ns()
        try:
            text = given.decode().strip()
            fault = text_fault(text)
        except UnicodeDecodeError:
            fault = "its text is not UTF-8"
        if not fault and len(self.waiting) >= MAX_NOTED_MARKS:
            fault = f"{MAX_NOTED_MARKS:,} wait for the next recording, and no more can"
        if fault:
            self.refuse(asker, said(f"mark: {fault}"))
            return
        if self.has_failed and not self.current:
            answer(asker, f"mark {text} waits for the next recording", True)
            asker = None
        self.waiting.append(Typed(steady, moment, text, asker))
        self.note_all()

    # ---- recordings

    def begun(self, recorder: Recorder) -> None:
        """A recording has begun: it has what is typed from now on, and what waited for it."""
        self.current = recorder
        self.note_all()

    def ended(self, recorder: Recorder) -> None:
        """A recorder has ended."""
        if self.current is recorder:
            self.current, self.has_failed = None, recorder.recording.has_failed

    def concluded(self, recorder: Recorder, _: int) -> None:
        """All is known of a recording. The marks of one that has gone, since nothing was in it, are the next one's."""
        marks = self.all.pop(recorder.recording.number, [])
        if not recorder.is_created and self.events.origins:
            self.waiting.extendleft(reversed(marks))
            self.note_all()

    def finish(self) -> None:
        """The run has ended: says which marks no recording has."""
        for typed in self.waiting:
            self.refuse(typed.asker, said(f"mark {typed.text}: the recording has ended"))
        self.waiting.clear()

    # ---- how

    def note_all(self) -> None:
        """Notes what waits, where a recording goes on."""
        while self.waiting and self.current:
            typed = self.waiting.popleft()
            fault = self.note(typed, self.current)
            if fault:
                self.refuse(typed.asker, said(f"mark {typed.text}: {fault}"))

    def refuse(self, asker: Asker, text: str) -> None:
        """Says why a mark isn't noted."""
        self.err(text)
        answer(asker, text, False)

    def note(self, typed: Typed, recorder: Recorder) -> Optional[str]:
        """Notes a mark in a recording: why that can't be done, where it can't."""
        marks, out = self.all.setdefault(recorder.recording.number, []), recorder.about.out
        if not self.events.origins or recorder.keeper is None:
            return f"{out} has no facts, in which it would stand"
        if len(marks) >= MAX_NOTED_MARKS:
            return f"{out} has {MAX_NOTED_MARKS:,} marks, and can't have more"
        mark = Noted(self.counter_of(typed.steady), typed.moment, typed.text)
        try:
            note(recorder.folder, mark)
        except OSError as error:
            return f"it can't be noted: {error.strerror}"
        marks.append(typed)
        told = mark.facts([self.events.origins[-1].facts()])
        text = f"marked {told['counter']} {told['time']}{f' in {out}' if self.is_rotating else ''}"
        self.err(text)
        answer(typed.asker, text, True)
        self.noted(recorder, told)
        return None

    def counter_of(self, steady: int) -> int:
        """The counter of a moment, as the capture counts by the host's clock."""
        self.begin_clock()
        first = nanoseconds_of(self.events.origins[0].origin) or 0
        return ((steady + (self.ahead or 0) - first) // NANOSECONDS_A_TICK) & MAX_COUNTER
