"""What is in several recordings, as those of a run: a table of channels over all, and a line for each recording."""

from __future__ import annotations

import os
from typing import Container, Iterator, NamedTuple, Optional

from bpfrec_tools.chapter11.runs import missing_among
from bpfrec_tools.cli.program import Audit
from bpfrec_tools.info.contents import Channel, Recording
from bpfrec_tools.info.facts_file import FactsFile, time_of
from bpfrec_tools.info.names import name_of
from bpfrec_tools.info.overview import remarks_of, time_text
from bpfrec_tools.info.text import beside_rows

CHANNEL_HEADS = ("channel", "frames", "offered", "dropped", "recordings")
CHANNEL_WIDTHS = (7, 13, 13, 13, 10)
TIME_WIDTH = 30
# What facts say that is of interest over all recordings.
LOST = "frames lost"
EVENTS, NO_LOSS = ("mark", "interruption", LOST), (LOST, "none")


class Part(NamedTuple):
    """A recording, what the audit says of it, and its facts."""

    path: str
    recording: Recording
    audit: Audit
    beside: Optional[FactsFile]

    def time_of(self, counter: int) -> str:
        """The time of a counter, by the facts; else since counter 0."""
        return time_of(counter, self.beside) or f"{time_text(counter)} s"

    def remarks(self) -> list[str]:
        """What a reader should see at once of it."""
        found = [f"{self.recording.damage_count:,} DAMAGED"] if self.recording.damage_count else []
        for number, channel in sorted(self.recording.channels.items()):
            seen = [it for it in remarks_of(channel, self.recording.missing[number]) if it != "KEPT NOTHING"]
            found += [f"channel {number}: {it}" for it in seen]
        return found if self.recording.kinds else ["EMPTY"]


def in_all(values: list[Optional[int]]) -> str:
    """A sum; where one isn't known, nothing is."""
    return "-" if None in values else f"{sum(it for it in values if it is not None):,}"


def channel_line(number: int, parts: list[tuple[Part, Channel]]) -> str:
    """A channel over all recordings that have it."""
    channels = [it for _, it in parts]
    counted = [in_all([get(it) for it in channels]) for get in (Channel.offered, Channel.dropped)]
    cells = (str(number), f"{sum(it.frames for it in channels):,}", *counted, str(len(parts)))
    with_frames = [(part, found) for part, channel in parts if (found := channel.counters())]
    first = with_frames[0][0].time_of(with_frames[0][1][0]) if with_frames else "-"
    last = with_frames[-1][0].time_of(with_frames[-1][1][1]) if with_frames else "-"
    numbers = " ".join(f"{it:>{width}}" for it, width in zip(cells, CHANNEL_WIDTHS))
    part, channel = parts[-1]
    return f"{numbers}  {first:<{TIME_WIDTH}} {last:<{TIME_WIDTH}} {name_of(number, channel, part.beside)}".rstrip()


def channel_lines(parts: list[Part]) -> Iterator[str]:
    """The table of all channels."""
    heads = " ".join(f"{it:>{width}}" for it, width in zip(CHANNEL_HEADS, CHANNEL_WIDTHS))
    yield f"{heads}  {'first':<{TIME_WIDTH}} {'last':<{TIME_WIDTH}} interface"
    numbers = sorted({number for part in parts for number in part.recording.channels})
    for number in numbers:
        having = [(it, it.recording.channels[number]) for it in parts if number in it.recording.channels]
        yield channel_line(number, having)


def recording_lines(parts: list[Part], last: Container[str]) -> Iterator[str]:
    """A line for each recording: its bytes, its frames, what the audit says, and what is to be seen at once, as what is
    missing behind it."""
    width = max(len("recording"), *(len(os.path.basename(it.path)) for it in parts))
    missing = missing_among(((it.path, it.beside and it.beside.known) for it in parts), last)
    yield f"{'recording':<{width}} {'bytes':>15} {'frames':>13}  audit"
    for part in parts:
        frames = sum(it.frames for it in part.recording.channels.values())
        missed = [f"next missing: {it.names}" for it in missing if it.behind == part.path]
        remarks = "".join(f", {it}" for it in [*part.remarks(), *missed])
        name = os.path.basename(part.path)
        yield f"{name:<{width}} {part.recording.bytes:>15,} {frames:>13,}  {part.audit}{remarks}"


def event_lines(parts: list[Part]) -> Iterator[str]:
    """The marks, the interruptions and the losses of all, by the facts."""
    width = max(len(os.path.basename(it.path)) for it in parts)
    beside = [(os.path.basename(it.path), it.beside) for it in parts if it.beside]
    rows = [(name, *row) for name, found in beside for row in beside_rows(found) if row[0] in EVENTS]
    for name, kind, value in rows:
        if (kind, value) != NO_LOSS:
            yield f"{name:<{width}}  {kind:<12}  {value}"
    if beside and all((kind, value) == NO_LOSS for _, kind, value in rows if kind == LOST):
        yield f"{LOST} none"


def text_of(parts: list[Part], last: Container[str] = ()) -> Iterator[str]:
    """All of it, line by line."""
    for line in channel_lines(parts):
        yield f"{line}\n"
    yield "\n"
    for line in recording_lines(parts, last):
        yield f"{line}\n"
    yield "\n"
    for line in event_lines(parts):
        yield f"{line}\n"
    approved = sum(1 for it in parts if it.audit.is_yes())
    yield f"recordings {len(parts)}, approved by the audit {approved}\n"
