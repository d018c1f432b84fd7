"""When interfaces brought no frames, and why, by what the capture notes of them."""

from __future__ import annotations

from dataclasses import dataclass
from typing import Any, NamedTuple, Optional

# So many are kept of the recordings that go on; further ones lengthen the last one of their interface.
MOST_KEPT = 1_000
# Why, where it isn't the interface: no recorder reads its frames, or nothing captures them any more.
UNREAD, FAILED = "unread", "failed"


class Link(NamedTuple):
    """From a counter on an interface brings no frames, for this reason, or by None it does again. `feed` is the number
    of the recording whose feed it writes then, from 0."""

    interface: str
    counter: int
    away: Optional[str]
    feed: int


@dataclass
class Interruption:
    """An interface that brought no frames: from a counter on, up to another once it is over, each with its feed."""

    interface: str
    why: str
    begin: int
    first_feed: int
    end: Optional[int] = None
    last_feed: Optional[int] = None

    def is_of(self, feed: int) -> bool:
        """Whether it was in the time of a feed."""
        return self.first_feed <= feed and (self.last_feed is None or self.last_feed >= feed)

    def facts(self) -> dict[str, Any]:
        """The interruption as the facts have it."""
        return {"interface": self.interface, "why": self.why, "from": self.begin, "to": self.end}


class Interruptions:
    """Those of the recordings that go on."""

    def __init__(self) -> None:
        self.all: list[Interruption] = []

    def take(self, link: Link) -> None:
        """Takes what was noted of an interface."""
        mine = [it for it in self.all if it.interface == link.interface]
        for one in mine:
            if one.end is None:
                one.end, one.last_feed = link.counter, link.feed
        if link.away and len(self.all) >= MOST_KEPT and mine:
            mine[-1].end = mine[-1].last_feed = None
        elif link.away:
            self.all.append(Interruption(link.interface, link.away, link.counter, link.feed))

    def facts(self, feed: int) -> list[dict[str, Any]]:
        """Those of a feed's time."""
        return [it.facts() for it in self.all if it.is_of(feed)]

    def forget(self, feed: int) -> None:
        """Forgets those that were over when a feed ended."""
        self.all = [it for it in self.all if it.last_feed is None or it.last_feed > feed]
