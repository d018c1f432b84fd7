"""How right the host's clock is while a run goes on: a line at the beginning and at each change, and who observes is
told each second."""

from __future__ import annotations

import shutil
import threading
import time
from typing import Callable, Optional

from bpfrec.formats.clock_state import ClockState, source_in, state_in
from bpfrec_tools.live.kept.synchronisation import ASKED, by_chrony, by_kernel, by_ptp
from bpfrec_tools.live.parts.loop import Loop
from bpfrec_tools.live.parts.part import Part
from bpfrec_tools.live.parts.recorder import Recorder
from bpfrec_tools.live.said import said

# How often the kernel is asked, and those who hold the clock right, which takes longer, in seconds.
TICK, QUESTION_PAUSE = 1.0, 60.0


def by_the_kernel() -> ClockState:
    """What the kernel says of its clock."""
    return state_in({"kernel": by_kernel()})


def by_others() -> Optional[str]:
    """What holds the clock right, as chrony and ptp4l say it."""
    return source_in({"chrony": by_chrony(), "ptp": by_ptp()})


class ClockWatch(Part):
    """Looks at the clock. `most` is by how many seconds it may be off, `err` takes a line for who watches, and `seen`
    the state of each second with `most`."""

    def __init__(
        self,
        loop: Loop,
        most: Optional[float],
        err: Callable[[str], None],
        seen: Callable[[ClockState, Optional[float]], None],
    ) -> None:
        self.loop, self.most, self.err, self.seen = loop, most, err, seen
        self.state, self.said = ClockState(), ""
        # None until something is recorded, so that what can't be begun says that alone.
        self.next_look: Optional[float] = None
        self.next_question = 0.0
        self.is_asking = False

    def begun(self, _: Recorder) -> None:
        """A recording has begun."""
        if self.next_look is None:
            self.next_look = time.monotonic()

    def deadline(self) -> Optional[float]:
        """When the clock is looked at next."""
        return self.next_look

    def tick(self, now: float) -> None:
        """Looks at the clock, once a second."""
        if self.next_look is None or now < self.next_look:
            return
        self.next_look = max(self.next_look + TICK, now)
        before = self.kind()
        self.state = by_the_kernel()._replace(source=self.state.source)
        self.seen(self.state, self.most)
        if self.kind() != before or now >= self.next_question:
            self.ask(now)

    def kind(self) -> tuple[Optional[bool], bool]:
        """What isn't said again as long as it stays the same, but for the clock's source."""
        return self.state.is_synchronised, bool(self.state.fault(self.most))

    def ask(self, now: float) -> None:
        """Asks those who hold the clock right, by a thread, since they may not answer."""
        if self.is_asking:
            return
        self.next_question = now + QUESTION_PAUSE
        if not any(map(shutil.which, ASKED)):
            self.take(None)
            return
        self.is_asking = True
        try:
            threading.Thread(target=self.question, daemon=True).start()
        except RuntimeError:
            self.take(None)

    def question(self) -> None:
        """Asks, and brings the answer to the loop."""
        source = None
        try:
            source = by_others()
        finally:
            self.loop.call_soon(lambda: self.take(source))

    def take(self, source: Optional[str]) -> None:
        """Takes what holds the clock right, and says what is new."""
        self.is_asking, self.state = False, self.state._replace(source=source)
        what = f"{self.kind()} {source}"
        if what != self.said:
            self.said = what
            self.err(line_of(self.state, self.most))


def line_of(state: ClockState, most: Optional[float]) -> str:
    """The line of a state."""
    fault = state.fault(most)
    return said(f"clock: {state.text()}{f': --require-clock: {fault}' if fault else ''}")
