"""Watches of files: who wants to know is called when one changes, without looking again and again."""

from __future__ import annotations

from typing import Callable, Optional

from bpfrec_tools.live.parts import system
from bpfrec_tools.live.parts.children import Holder
from bpfrec_tools.live.parts.part import Part

# How often files are looked at where the kernel has no watches left, in seconds.
LOOKING_PAUSE = 0.1
Look = Callable[[], None]


class Watches(Holder, Part):
    """Watched files, each with what looks at it, and the descriptor of the watches, with which all end. A look may come
    more often than something happens."""

    def __init__(self) -> None:
        super().__init__(None)
        self.looks: dict[int, Look] = {}
        self.looked_at: dict[int, Look] = {}
        self.next_key, self.next_look = -1, 0.0
        try:
            self.descriptor = system.open_watches()
        except OSError:
            pass

    def deadline(self) -> Optional[float]:
        """When files are looked at next; None where the kernel tells of each change."""
        return self.next_look if self.looked_at else None

    def tick(self, now: float) -> None:
        """Looks at the files of which the kernel tells nothing."""
        if self.looked_at and now >= self.next_look:
            self.next_look = now + LOOKING_PAUSE
            self.look_at_all()

    def add(self, path: str, events: int, look: Look) -> int:
        """Watches a file, whatever is called by its name later: the key of the watch. A second watch of a file takes
        the place of the first."""
        if self.descriptor is not None:
            try:
                key = system.add_watch(self.descriptor, path, events)
                self.looks[key] = look
                return key
            except OSError:
                pass
        self.next_key -= 1
        self.looked_at[self.next_key] = look
        return self.next_key

    def remove(self, key: int) -> None:
        """Ends a watch."""
        self.looked_at.pop(key, None)
        if self.looks.pop(key, None) and self.descriptor is not None:
            system.remove_watch(self.descriptor, key)

    def serve(self) -> None:
        """Calls what looks at each file of which something is told."""
        if self.descriptor is None:
            return
        told = dict.fromkeys(watch for watch, _ in system.read_events(self.descriptor))
        for key in told:
            look = self.looks.get(key)
            if look:
                look()

    def look_at_all(self) -> None:
        """Calls what looks at the files of which the kernel tells nothing."""
        for look in list(self.looked_at.values()):
            look()
