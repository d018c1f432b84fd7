"""The end of a run that was given a time."""

from __future__ import annotations

import time
from typing import Callable, Optional

from bpfrec_tools.live.parts.part import Part
from bpfrec_tools.live.parts.recorder import Recorder


class EndOfRun(Part):
    """Ends a run so many seconds after its first recording has begun; None never does."""

    def __init__(self, seconds: Optional[int], end: Callable[[], None]) -> None:
        self.seconds, self.end = seconds, end
        self.moment: Optional[float] = None
        self.has_begun = False

    def begun(self, _: Recorder) -> None:
        """The first recording has begun, or another one."""
        if not self.has_begun and self.seconds is not None:
            self.moment = time.monotonic() + self.seconds
        self.has_begun = True

    def deadline(self) -> Optional[float]:
        """When the run ends."""
        return self.moment

    def tick(self, now: float) -> None:
        """Ends it where its time is over."""
        if self.moment is not None and now >= self.moment:
            self.moment = None
            self.end()
