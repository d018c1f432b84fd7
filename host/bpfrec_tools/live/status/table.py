"""How a run goes, as lines of a terminal."""

from __future__ import annotations

import unicodedata
from collections.abc import Iterator
from typing import NamedTuple, Optional

from bpfrec_tools.cli.quantities import duration_text, plural, size_text
from bpfrec_tools.live.status.alarms import ALARM, Alarm, Level, level_of
from bpfrec_tools.live.status.as_json import kept_rates, offered_rates
from bpfrec_tools.live.status.view import ChannelView, State, View, lost

# The colours of a line, and what ends them: of alarms white on red, of warnings black on yellow.
COLOURS = {Level.ALARM: "\x1b[97;41m", Level.WARNING: "\x1b[30;43m", Level.OK: ""}
PLAIN = "\x1b[0m"
# A bar of the last seconds, from nothing to the most.
LEVELS = " ▁▂▃▄▅▆▇█"
# The least that is drawn, and the widths of names that may be cut.
LEAST_WIDTH, NAME_WIDTH = 20, 13
BAR_SECONDS = 20
# The columns of a filter, where there are so many, and the fewest in which one is shown.
FILTER_WIDTH, LEAST_FILTER_WIDTH = 24, 5
# What large numbers are counted in: no run has 10^18 frames.
UNITS = ((1e3, "k"), (1e6, "M"), (1e9, "G"), (1e12, "T"), (1e15, "P"))


class Line(NamedTuple):
    """A line, without its end, and how bad what it tells is."""

    text: str
    level: Level


def lines_of(view: View, alarms: tuple[Alarm, ...], width: int, height: int) -> list[str]:
    """The table, of at most so many lines, each of at most so many columns, with their colours. Where there are more
    channels, those with an alarm come first, and the rest is counted."""
    head = [Line(heading(view, alarms), level_of(alarms)), *(Line(it, Level.OK) for it in whole(view))]
    mine = [Line(it.text, it.level) for it in alarms]
    head += mine[: max((height - len(head)) // 3, 0)]
    room = max(height - len(head) - 2, 0)
    channels = shown(view.channels, alarms, room)
    rows = [Line(TITLES, Level.OK), *(row(it, alarms, width) for it in channels)] if channels else []
    left = len(view.channels) - len(channels)
    if left:
        rows.append(Line(f"and {plural(left, 'more channel')}", Level.OK))
    return [coloured(it, max(width, LEAST_WIDTH)) for it in (head + rows)[:height]]


def report_of(view: View, alarms: tuple[Alarm, ...]) -> list[str]:
    """The table with all alarms, channels and filters, without colours."""
    told = [it.text for it in alarms]
    channels = [TITLES, *(row(it, alarms).text for it in view.channels)] if view.channels else []
    return [printable(it) for it in (heading(view, alarms), *whole(view), *told, *channels)]


def heading(view: View, alarms: tuple[Alarm, ...]) -> str:
    """The first line: whether all is well."""
    count = sum(it.level == ALARM for it in alarms)
    state = {State.RECORDING: "RECORDING", State.ENDED: "ENDED", State.WAITING: "NOT RECORDING"}[view.state]
    words = [f"{count} ALARM{'' if count == 1 else 'S'}"] if count else []
    words += [plural(len(alarms) - count, "warning")] if len(alarms) > count else []
    return ", ".join([state, *words])


def whole(view: View) -> Iterator[str]:
    """The recording and its disk."""
    if not view.recording:
        return
    recording = view.recording
    rate = "" if recording.bytes_per_second is None else f", {size_text(recording.bytes_per_second)}/s"
    clock = "  clock not synchronised" if view.clock.state.is_synchronised is False else ""
    yield f"{recording.name}  {duration_text(recording.seconds)}  {size_text(recording.bytes)}{rate}{clock}"
    left = view.disk and view.disk.seconds_left
    disk = f"disk {size_text(view.disk.free)} free" if view.disk else "disk not known"
    full = f", full in {duration_text(left)}" if left is not None else ""
    sync = "" if not view.sync.interval else f"  synced {ago(view.sync.age)}"
    audits = f"  audits {view.audits.yes} yes, {view.audits.no} no" if view.recordings else ""
    yield f"{disk}{full}{sync}{audits}"
    for station in view.ground:
        yield f"{station.address}  {plural(station.datagrams, 'datagram')}, {station.lost:,} lost, {station.late:,} late"


def ago(age: Optional[float]) -> str:
    """How long ago."""
    return "not yet" if age is None else f"{duration_text(age)} ago"


# ---- channels

TITLES = (
    f"{'channel':<{NAME_WIDTH + 6}} {'came':>6} {'kept':>6} {'lost':>6} {'came/s':>6} {'kept/s':>6} {'last':>8}"
    "  state, filter"
)

# The column at which a channel's state begins.
STATE_AT = TITLES.index("state")


def shown(channels: tuple[ChannelView, ...], alarms: tuple[Alarm, ...], room: int) -> list[ChannelView]:
    """The channels for which there is room, by their IDs; those that have an alarm before others."""
    if len(channels) <= room:
        return list(channels)
    told = {it.channel for it in alarms}
    chosen = sorted(channels, key=lambda channel: channel.channel not in told)[: max(room - 1, 0)]
    return sorted(chosen, key=lambda channel: channel.channel)


def row(channel: ChannelView, alarms: tuple[Alarm, ...], width: Optional[int] = None) -> Line:
    """A channel, for a line of so many columns; without them, with its whole filter and no bar."""
    came, kept = offered_rates(channel.history), kept_rates(channel.history)
    name = cut(printable(channel.source() or "(a feed)"), NAME_WIDTH)
    words = ", ".join(alarm.word for alarm in alarms if alarm.channel == channel.channel)
    said = words.upper() or ("ended" if channel.has_ended else "")
    whole_state = f"{said} {filter_text(channel)}".strip()
    counts = channel.counts
    columns = [
        f"{channel.channel:>5} {padded(name, NAME_WIDTH)}",
        f"{number(counts and counts.frames):>6}",
        f"{number(channel.kept_frames):>6}",
        f"{number(counts and lost(counts)):>6}",
        f"{number(came and came[0]):>6}",
        f"{number(kept and kept[0]):>6}",
        f"{'-' if channel.frame_age is None else duration_text(channel.frame_age):>8}",
        f" {whole_state if width is None else state(channel, said, width - STATE_AT)}",
    ]
    return Line(" ".join(columns), level_of(alarms, channel.channel))


def state(channel: ChannelView, said: str, width: int) -> str:
    """What is wrong with a channel, and in what is left of the columns its filter and its bar."""
    parts = [said] if said else []
    room = width - len(said) - len(parts)
    if room >= LEAST_FILTER_WIDTH:
        parts.append(padded(cut(printable(filter_text(channel)), min(room, FILTER_WIDTH)), FILTER_WIDTH))
    if not channel.has_ended:
        parts.append(bar(channel, room - FILTER_WIDTH - 1))
    return " ".join(parts).rstrip()


def filter_text(channel: ChannelView) -> str:
    """Its filter, and how often that was changed."""
    name, changes = channel.filter
    return f"{name} ({plural(changes, 'change')})" if changes else name


def number(value: Optional[float]) -> str:
    """Frames, or frames a second, in six columns: whole to 99,999, then in three digits."""
    if value is None:
        return "-"
    if isinstance(value, float) and 0 < value < 10:
        return f"{value:.1f}"
    if value < 99_999.5:
        return f"{value:,.0f}"
    scaled, letter = next((value / unit, it) for unit, it in UNITS if value < unit * 999.5)
    return f"{scaled:.{2 if scaled < 9.995 else 1 if scaled < 99.95 else 0}f} {letter}"


def bar(channel: ChannelView, width: int) -> str:
    """The frames that came in the last seconds, each as high as its share of the most, in at most so many columns."""
    count = min(BAR_SECONDS, width)
    values = [second.offered_frames or 0 for second in channel.history[-count:]] if count > 0 else []
    most = max(values, default=0) or 1
    return "".join(LEVELS[round(value / most * (len(LEVELS) - 1))] for value in values)


# ---- widths


def printable(text: str) -> str:
    """A text without what would move a terminal's cursor."""
    plain = text.encode("utf-8", "replace").decode()
    return "".join(it if it.isprintable() else "?" for it in plain)


def columns_of(letter: str) -> int:
    """How many columns a letter takes."""
    if unicodedata.combining(letter):
        return 0
    return 2 if unicodedata.east_asian_width(letter) in "WF" else 1


def cut(text: str, width: int) -> str:
    """The beginning of a text, of at most so many columns; where it is cut it ends in a dot."""
    if sum(map(columns_of, text)) <= width:
        return text
    kept, taken = "", 0
    for letter in text:
        taken += columns_of(letter)
        if taken >= width:
            break
        kept += letter
    return f"{kept}…"


def padded(text: str, width: int) -> str:
    """A text with blanks behind it."""
    return text + " " * (width - sum(map(columns_of, text)))


def coloured(line: Line, width: int) -> str:
    """A line of at most so many columns, in its colours."""
    text = cut(printable(line.text), width)
    return f"{COLOURS[line.level]}{text}{PLAIN}" if COLOURS[line.level] else text
