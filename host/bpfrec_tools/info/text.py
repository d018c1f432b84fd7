"""What is in a recording, as a text; its rows are those of the page too."""

from __future__ import annotations

from typing import Iterator, Optional, Union

from bpfrec.formats import facts
from bpfrec.formats.limits import TICKS_A_SECOND
from bpfrec.formats.marks import Mark
from bpfrec.formats.packet import Damage
from bpfrec_tools.cli.program import Audit
from bpfrec_tools.info import whole_file
from bpfrec_tools.info.contents import MOST_PLACES, Channel, Missing, Recording, Version
from bpfrec_tools.info.facts_file import MOMENTS, FactsFile, span_of, time_of
from bpfrec_tools.info.names import name_of, said_time, words_of
from bpfrec_tools.info.overview import overview

# What is known, as a name and a value.
Row = tuple[str, str]


def number(value: Union[int, float, None]) -> str:
    """A number for people: with commas, and a fraction's first digit."""
    if value is None:
        return "unknown"
    return f"{value:,.1f}" if isinstance(value, float) else f"{value:,}"


def seconds(ticks: Optional[int]) -> str:
    """Ticks of 100 ns as seconds."""
    if ticks is None:
        return "unknown"
    sign, ticks = "-" if ticks < 0 else "", abs(ticks)
    return f"{sign}{ticks // TICKS_A_SECOND}.{ticks % TICKS_A_SECOND:07d} s"


def origin_text(origin: facts.Origin) -> str:
    """The moment of counter 0, from which counter on it holds, by how much the clock was set, and that it ran TAI."""
    remarks = [
        *([f"the clock was set by {origin.set_by} s"] if origin.set_by else []),
        *([f"the clock ran TAI, {origin.tai_offset} s ahead"] if origin.scale == facts.TAI else []),
    ]
    moment = facts.in_scale(facts.utc_of(origin.moment), origin.scale)
    return f"{moment} from counter {number(origin.counter)} on{': ' if remarks else ''}{', '.join(remarks)}"


def mark_text(mark: Mark, beside: FactsFile) -> str:
    """The time of a mark, its counter, and its text."""
    return f"{time_of(mark.counter, beside) or 'time unknown'} counter {number(mark.counter)}: {facts.on_a_line(mark.text)}"


def interruption_text(found: facts.Interruption, beside: FactsFile) -> str:
    """Which interface brought no frames, why, and when."""
    begin, end = (
        None if it is None else time_of(it, beside) or f"counter {number(it)}" for it in (found.begin, found.end)
    )
    return facts.on_a_line(f"{found.interface} {found.why} from {begin} to {end or 'the end'}")


def rows_of(channel_id: int, channel: Channel, beside: Optional[FactsFile]) -> list[Row]:
    """What is known of a channel."""
    span = span_of(channel_id, beside)
    mean, most, width = channel.mean_rate(), channel.rates.greatest(), channel.rates.seconds()
    time = "a second" if width == 1 else f"{width} seconds"
    return [
        ("frames kept", number(channel.frames)),
        ("bytes kept", number(channel.bytes)),
        ("frames offered", number(channel.offered())),
        ("dropped by the filter", number(channel.dropped())),
        *counter_rows(channel, beside),
        ("time between", seconds(channel.span())),
        ("mean rate", f"{number(mean)} frames/s" if mean else "unknown"),
        ("greatest rate", f"{number(most)} frames in {time}" if most else "unknown"),
        ("longest gap", seconds(channel.longest_gap())),
        ("counters that step back", number(channel.steps_back)),
        ("frames with error flags", number(channel.marked)),
        ("versions of the filter", number(channel.version_count)),
        *([] if span is None else [("span of packets", seconds(span) if span else "none")]),
        ("end record", "there" if channel.end else "missing"),
    ]


def counter_rows(channel: Channel, beside: Optional[FactsFile]) -> Iterator[Row]:
    """The first and the last counter of a channel, with their times where a whole file or facts have them."""
    first, last, least, greatest = channel.counters() or (None, None, None, None)
    for name, counter, ticks in (("first", first, channel.first_time), ("last", last, channel.last_time)):
        yield f"{name} counter", number(counter)
        if beside or ticks is not None:
            yield f"{name} time", said_time(counter, ticks, beside) or "unknown"
    if channel.steps_back:
        yield "least, greatest counter", f"{number(least)}, {number(greatest)}"


def beside_rows(beside: FactsFile) -> Iterator[Row]:
    """What the facts beside a recording say."""
    origins = beside.known.origins
    lost = [f"{number(count)} {name}" for name, count in beside.known.losses.items() if count]
    yield "facts", facts.on_a_line(beside.path)
    yield "host", facts.on_a_line(beside.known.host)
    for origin in origins[:MOST_PLACES]:
        yield "origin", origin_text(origin)
    if len(origins) > MOST_PLACES:
        yield "origin", f"and {number(len(origins) - MOST_PLACES)} more"
    for moment, state in beside.clocks().items():
        yield f"clock at the {MOMENTS[moment]}", state.text()
    for mark in beside.known.marks[:MOST_PLACES]:
        yield "mark", mark_text(mark, beside)
    if len(beside.known.marks) > MOST_PLACES:
        yield "mark", f"and {number(len(beside.known.marks) - MOST_PLACES)} more"
    for found in beside.known.interruptions[:MOST_PLACES]:
        yield "interruption", interruption_text(found, beside)
    yield "frames lost", ", ".join(lost) or "none"


def place_of(gap: Missing) -> str:
    """Where sequence numbers are missing."""
    return f"{gap.missing} of channel ID {gap.channel} from {gap.first} at {gap.at}"


def damage_of(damage: Damage) -> str:
    """Where bytes are no packet."""
    return f"{damage.fault.name} at {damage.fault.at} ({number(damage.length)} bytes)"


def listed(texts: list[str], count: int) -> str:
    """Texts of places, and how many more there are."""
    more = count - len(texts)
    return ", ".join([*texts, *([f"and {number(more)} more"] if more else [])]) or "none"


def rows_of_whole(recording: Recording, audit: Audit, beside: Optional[FactsFile]) -> list[Row]:
    """What is known of a recording on the whole."""
    return [
        ("bytes", number(recording.bytes)),
        *((f"packets: {kind}", number(recording.kinds[kind])) for kind in recording.packet_kinds()),
        ("missing sequence numbers", listed([place_of(it) for it in recording.gaps], recording.gap_count)),
        ("damaged places", listed([damage_of(it) for it in recording.damages], recording.damage_count)),
        ("audit", str(audit)),
        *(whole_file.rows(recording.whole) if recording.whole else []),
        *(beside_rows(beside) if beside else []),
    ]


def channel_lines(channel_id: int, channel: Channel, beside: Optional[FactsFile]) -> Iterator[str]:
    """The lines of a channel, behind an empty one."""
    versions = [(f"version {it.name()}", version_text(channel_id, it, beside)) for it in channel.versions]
    called = name_of(channel_id, channel, beside)
    yield f"\nchannel {channel_id}{f': {called}' if called else ''}\n"
    for name, value in rows_of(channel_id, channel, beside) + versions:
        yield f"  {name:<26} {value}\n"


def version_text(channel_id: int, version: Version, beside: Optional[FactsFile]) -> str:
    """From which frame on a version of a filter held, and the words of which it was made."""
    words = words_of(channel_id, version, beside)
    begin = f"from frame {number(version.first)}, counter {number(version.counter)}"
    return begin if words is None else f"{begin}: {words}"


def text_parts(recording: Recording, audit: Audit, beside: Optional[FactsFile] = None) -> Iterator[str]:
    """A table of all channels, and then all numbers, as the parts of a text."""
    yield from overview(recording, beside)
    yield "\n"
    for name, value in rows_of_whole(recording, audit, beside):
        yield f"{name:<26} {value}\n"
    for channel_id, channel in sorted(recording.channels.items()):
        yield from channel_lines(channel_id, channel, beside)
