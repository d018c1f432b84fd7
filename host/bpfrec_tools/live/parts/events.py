"""What the capture says of a run, a line of JSON each: origins, losses, counts and interruptions in a file, and on a pipe
the counts of each second."""

from __future__ import annotations

import json
import os
from pathlib import Path
from typing import Any, Callable, Iterator, NamedTuple, Optional, Union

from bpfrec_tools.live.parts.interruptions import Interruptions, Link
from bpfrec_tools.live.run.ports import Counts

READ_LEN = 1 << 20
Entry = dict[str, Any]


class Origin(NamedTuple):
    """The moment from which counters count, from a counter on, and by how much the clock was set: each in seconds. And
    in which time scale it is, None where nobody knows, with how many seconds TAI is ahead of UTC. `setting` numbers the
    times that the clock was set, from 1 on."""

    origin: str
    counter: int
    set_by: Optional[str]
    scale: Optional[str]
    tai_offset: Optional[int]
    setting: Optional[int] = None

    def facts(self) -> Entry:
        """The origin as the facts have it, with its scale also where nobody knows it."""
        told = {name: value for name, value in self._asdict().items() if value is not None or name == "scale"}
        told.pop("setting", None)
        return told

    def is_again(self, other: Origin) -> bool:
        """Whether it is another origin once more: of the same setting, since when that holds is known better by now;
        else no more than the scale may be a new one."""
        if self.setting is not None:
            return self.setting == other.setting
        return self[:3] == other[:3]

    def is_before(self, other: Origin) -> bool:
        """Whether the clock was set to the other one later."""
        return self.setting is not None and other.setting is not None and self.setting < other.setting


def with_origin(origins: list[Origin], added: Origin) -> list[Origin]:
    """Origins with one more, in the place of the one that it is again."""
    kept = [it for it in origins if it.setting is None or not added.is_again(it)]
    if kept and added.is_again(kept[-1]):
        kept.pop()
    at = len(kept)
    while at > 0 and added.is_before(kept[at - 1]):
        at -= 1
    return [*kept[:at], added, *kept[at:]]


class Loss(NamedTuple):
    """What an interface lost from a counter up to another. `feed` is the number of the recording whose feed it wrote,
    from 0."""

    interface: str
    begin: int
    end: int
    dropped: int
    missed: int
    skipped: int
    feed: int

    def facts(self) -> Entry:
        """The loss as the facts have it."""
        lost = {"dropped": self.dropped, "missed": self.missed, "skipped": self.skipped}
        return {"interface": self.interface, "from": self.begin, "to": self.end, **lost}


class Counted(NamedTuple):
    """What was counted of an interface up to a counter."""

    interface: str
    counter: int
    counts: Counts
    feed: int

    def facts(self) -> Entry:
        """The counts as the facts have them."""
        return {"interface": self.interface, "counter": self.counter, **self.counts._asdict()}


class LostInAll(NamedTuple):
    """What an interface lost in the whole run."""

    interface: str
    dropped: int
    skipped: int
    missed: int

    def sentence(self) -> str:
        """What is printed of it."""
        missed = f" {self.missed} missed" if self.missed else ""
        return f"{self.interface} LOST {self.dropped} dropped {self.skipped} skipped{missed}"


Event = Union[Origin, Loss, Counted, LostInAll, Link]


def origin_of(told: Entry) -> Origin:
    """The origin that an object is."""
    names = ("set_by", "scale", "tai_offset", "setting")
    return Origin(told["origin"], told["counter"], *(told.get(it) for it in names))


def loss_of(told: Entry) -> Loss:
    """The loss that an object is."""
    lost = (told["dropped"], told["missed"], told["skipped"])
    return Loss(told["lost"], told["from"], told["to"], *lost, told["feed"])


def counted_of(told: Entry) -> Counted:
    """The counts that an object is."""
    counts = Counts(*(told[name] for name in Counts._fields))
    return Counted(told["counts"], told["counter"], counts, told["feed"])


def lost_in_all_of(told: Entry) -> LostInAll:
    """The losses in all that an object is."""
    return LostInAll(told["lost_in_all"], told["dropped"], told["skipped"], told["missed"])


def link_of(told: Entry) -> Link:
    """What an object says of an interface."""
    return Link(told["link"], told["counter"], told["away"], told["feed"])


# What an object becomes, by the key that it has alone.
KINDS: dict[str, Callable[[Entry], Event]] = {
    "origin": origin_of,
    "lost": loss_of,
    "counts": counted_of,
    "lost_in_all": lost_in_all_of,
    "link": link_of,
}


def event_in(line: str) -> Optional[Event]:
    """The event of a line; None where it has none, as one that was cut."""
    try:
        told = json.loads(line)
        return next((made(told) for key, made in KINDS.items() if key in told), None)
    except (ValueError, KeyError, TypeError):
        return None


class Events:
    """The events that were noted in a file so far."""

    def __init__(self, path: Path) -> None:
        # Open from now on, so that no shortage of descriptors hides what comes.
        self.file = open(path, "rb", buffering=0)
        self.at, self.rest = 0, b""
        self.origins: list[Origin] = []
        # By feed, and what was counted last by interface too.
        self.losses: dict[int, list[Loss]] = {}
        self.counts: dict[int, dict[str, Counted]] = {}
        self.lost_in_all: list[LostInAll] = []
        # What was noted of interfaces, and what of it nobody has taken yet.
        self.interruptions, self.links = Interruptions(), list[Link]()

    def read(self) -> int:
        """Reads what is new: how many events."""
        count = 0
        for line in self.lines():
            event = event_in(line.decode(errors="ignore"))
            if event is not None:
                self.take(event)
                count += 1
        return count

    def lines(self) -> Iterator[bytes]:
        """The lines that are new and whole."""
        while part := os.pread(self.file.fileno(), READ_LEN, self.at):
            self.at += len(part)
            *lines, self.rest = (self.rest + part).split(b"\n")
            yield from lines

    def take(self, event: Event) -> None:
        """Takes an event."""
        if isinstance(event, Origin):
            self.origins = with_origin(self.origins, event)
        elif isinstance(event, Loss):
            self.losses.setdefault(event.feed, []).append(event)
        elif isinstance(event, Counted):
            self.counts.setdefault(event.feed, {})[event.interface] = event
        elif isinstance(event, Link):
            self.interruptions.take(event)
            self.links.append(event)
        else:
            self.lost_in_all.append(event)

    def take_links(self) -> list[Link]:
        """What was noted of interfaces since this was asked."""
        taken, self.links = self.links, []
        return taken

    def facts(self, feed: int) -> Entry:
        """What the facts of the recording with this feed have of it."""
        return {
            "origins": [it.facts() for it in self.origins],
            "counts": [it.facts() for it in self.counts.get(feed, {}).values()],
            "losses": [it.facts() for it in self.losses.get(feed, [])],
            "interruptions": self.interruptions.facts(feed),
        }

    def forget(self, feed: int) -> None:
        """Forgets what was noted of a feed that has ended."""
        self.losses.pop(feed, None)
        self.counts.pop(feed, None)
        self.interruptions.forget(feed)
