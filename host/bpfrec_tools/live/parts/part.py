"""A part of a run: what it does as a recording goes its way, and at moments of its own."""

from __future__ import annotations

from typing import TYPE_CHECKING, Optional

if TYPE_CHECKING:
    from bpfrec_tools.live.parts.recorder import Recorder


class Part:
    """What a run tells each of its parts. One that has nothing to do with something leaves it as it is here."""

    def begun(self, recorder: Recorder) -> None:
        """A recorder has opened OUT."""

    def forced(self, recorder: Recorder, moment: float) -> None:
        """The recording that goes on is on its disk up to a moment."""

    def ended(self, recorder: Recorder) -> None:
        """A recorder has ended."""

    def concluded(self, recorder: Recorder, status: int) -> None:
        """All is known of a recording: its audit has ended too."""

    def deadline(self) -> Optional[float]:
        """When it has something to do next; None where nothing is to come."""
        return None

    def tick(self, now: float) -> None:
        """Does what is due."""
