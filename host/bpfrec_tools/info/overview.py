"""What stands ahead of all that info prints: a line for each channel, and each damaged place by channel and time."""

from __future__ import annotations

from typing import Iterator, Optional

from bpfrec.formats.limits import TICKS_A_SECOND
from bpfrec.formats.packet import Damage
from bpfrec_tools.info.contents import Channel, Recording
from bpfrec_tools.info.facts_file import FactsFile, time_of
from bpfrec_tools.info.names import name_of

HEADS = ("channel", "frames", "offered", "frames/s", "first s", "last s", "remarks")
# What stands ahead of the remarks where facts have it.
INTERFACE = "interface"
WIDTHS = (7, 13, 13, 11, 15, 15)
# How many damaged places are shown one by one here; the row "damaged places" has more.
MOST_SHOWN = 10


def time_text(counter: Optional[int]) -> str:
    """A counter as seconds since counter 0, to 100 ns."""
    return "-" if counter is None else f"{counter // TICKS_A_SECOND}.{counter % TICKS_A_SECOND:07d}"


def remarks_of(channel: Channel, missing: int) -> list[str]:
    """What a reader should see at once of a channel."""
    return [
        *(["KEPT NOTHING"] if not channel.frames else []),
        *(["NO END RECORD"] if channel.end is None else []),
        *([f"{missing:,} PACKETS MISSING"] if missing else []),
    ]


def line_of(number: int, channel: Channel, missing: int, name: str) -> str:
    """A channel's line of the table; its name stands there where the table has names."""
    offered, rate, counters = channel.offered(), channel.mean_rate(), channel.counters()
    first, last = counters[:2] if counters else (None, None)
    cells = (
        str(number),
        f"{channel.frames:,}",
        "-" if offered is None else f"{offered:,}",
        "-" if rate is None else f"{rate:,.1f}",
        time_text(first),
        time_text(last),
    )
    numbers = " ".join(f"{it:>{width}}" for it, width in zip(cells, WIDTHS))
    return f"{numbers}  {name}{', '.join(remarks_of(channel, missing))}".rstrip()


def damage_line(damage: Damage, before: Optional[tuple[int, int]], beside: Optional[FactsFile]) -> str:
    """A damaged place with the channel and the time of the frames that stand before it."""
    place = f"DAMAGED {damage.fault.name} at {damage.fault.at:,} ({damage.length:,} bytes)"
    if before is None:
        return f"{place}, ahead of all frames"
    channel, counter = before
    moment = time_of(counter, beside)
    return f"{place}, behind frames of channel {channel} at {time_text(counter)} s{f', {moment}' if moment else ''}"


def overview(recording: Recording, beside: Optional[FactsFile]) -> Iterator[str]:
    """The table of all channels, and the first damaged places, line by line."""
    names = {it: name_of(it, channel, beside) for it, channel in recording.channels.items()}
    # No column where there is no name.
    width = max([len(INTERFACE), *map(len, names.values())]) + 2 if any(names.values()) else 0
    heads = " ".join(f"{it:>{each}}" for it, each in zip(HEADS, WIDTHS))
    yield f"{heads}  {INTERFACE[:width]:<{width}}{HEADS[-1]}\n"
    for number, channel in sorted(recording.channels.items()):
        yield f"{line_of(number, channel, recording.missing[number], f'{names[number]:<{width}}')}\n"
    shown = list(zip(recording.damages, recording.before))[:MOST_SHOWN]
    for damage, before in shown:
        yield f"{damage_line(damage, before, beside)}\n"
    more = recording.damage_count - len(shown)
    if more:
        yield f"DAMAGED {more:,} more places\n"
