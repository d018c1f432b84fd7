"""The marks and the filters of a recording, as they stand in its folder for who writes its facts: a line of JSON each."""

from __future__ import annotations

import contextlib
import json
from pathlib import Path
from typing import Any, Iterator, NamedTuple, Optional

from bpfrec.formats.facts import TURN, nanoseconds_of, tick_of
from bpfrec.formats.limits import MAX_COUNTER, MAX_LISTING_LEN, NANOSECONDS_A_TICK, TICKS_A_SECOND
from bpfrec.formats.listing import listing_in
from bpfrec_tools.live.parts.folder import MARKS

Entry = dict[str, Any]
# By so many nanoseconds the host's clock and a mark's counter differ at most, where nobody has set it.
MOST_APART = 1_000_000
# Where the filters are, and how many bytes long that gets by those that lines set: what reads facts refuses long ones.
FILTERS, MOST_FILTERS_LEN = "filters", 4 << 20


class Noted(NamedTuple):
    """A mark of a recording: its counter by the host's clock, its moment in nanoseconds since 1970, and its text."""

    counter: int
    moment: int
    text: str

    def facts(self, origins: list[Entry]) -> Entry:
        """The mark as the facts have it. Its counter is that of a frame that came then, whose clock may run TAI."""
        ahead = origins[-1].get("tai_offset") or 0 if origins else 0
        counter = (self.counter + ahead * TICKS_A_SECOND) & MAX_COUNTER
        return {"counter": counter, "time": tick_of(self.time(counter, origins)), "text": self.text}

    def time(self, counter: int, origins: list[Entry]) -> int:
        """Its moment by its counter, as all have it that read facts; by the host's clock where that was set since."""
        held = [it for it in origins if it.get("counter", 0) <= counter]
        moment = nanoseconds_of(held[-1].get("origin")) if held else None
        if moment is None:
            return self.moment
        moment += self.counter * NANOSECONDS_A_TICK
        moment += (self.moment - moment + TURN // 2) // TURN * TURN
        return moment if abs(moment - self.moment) < MOST_APART else self.moment


def note(folder: Path, mark: Noted) -> None:
    """Notes a mark of the recording with this folder; an OSError says that it can't be."""
    add_line(folder / MARKS, mark)


def marks_of(folder: Path, origins: list[Entry]) -> list[Entry]:
    """The marks of the recording with this folder, as the facts have them."""
    try:
        return [Noted(*it).facts(origins) for it in lines_in(folder / MARKS)]
    except OSError:
        return []


def filter_entry(channel: int, path: str, words: str) -> Optional[Entry]:
    """A channel's filter as it is noted: its listing, and the words of which that was made; None of no listing."""
    listing = listing_in(path, MAX_LISTING_LEN)
    if listing is None:
        return None
    found: Entry = {"channel": channel, "listing": listing.decode(errors="ignore")}
    return {**found, "expression": words} if words else found


def note_filter(folder: Path, channel: int, listing: Path, words: str) -> None:
    """Notes a filter that a line gave a channel, where there is room: the recording has its program either way."""
    found = filter_entry(channel, str(listing), words)
    with contextlib.suppress(OSError):
        if found and (folder / FILTERS).stat().st_size < MOST_FILTERS_LEN:
            add_line(folder / FILTERS, found)


# ---- lines of JSON


def add_line(path: Path, value: object) -> None:
    """Adds a line to a file."""
    with open(path, "a", encoding="ascii") as file:
        file.write(f"{json.dumps(value)}\n")


def lines_in(path: Path) -> Iterator[Any]:
    """What the lines of a file are, but for one that was cut, as where the disk was full."""
    for line in path.read_bytes().splitlines(keepends=True):
        with contextlib.suppress(ValueError):
            if line.endswith(b"\n"):
                yield json.loads(line)
