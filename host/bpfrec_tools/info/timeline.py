"""The timeline of a channel on the page: its rates as bars, its gaps and its end, and the versions of its filter."""

from __future__ import annotations

import html
from typing import Iterable, Iterator, Mapping

from bpfrec.formats.limits import TICKS_A_SECOND
from bpfrec.formats.marks import Mark
from bpfrec_tools.info.contents import FINEST, Channel
from bpfrec_tools.info.text import number, seconds

# In units of the drawing, and how many bars a timeline has at most.
WIDTH, HEIGHT, MOST_BARS = 900, 120, 450


def escaped(value: object) -> str:
    """A value as HTML has it; what no text can have is shown as a question mark."""
    return html.escape(str(value).encode("utf-8", "replace").decode())


class Axis:
    """Where counters stand in a timeline, and how many ticks a bar of it has."""

    def __init__(self, channels: Iterable[Channel]) -> None:
        known = [counter for it in channels for counter in counters_of(it)]
        self.first, self.last, self.ticks = min(known, default=0), max(known, default=0), FINEST
        while self.last // self.ticks - self.first // self.ticks >= MOST_BARS:
            self.ticks *= 2
        # It begins and ends with a bar.
        self.begin = self.first // self.ticks * self.ticks
        self.span = (self.last // self.ticks + 1) * self.ticks - self.begin

    def part(self, counter: int) -> float:
        """How far along a counter stands, from 0 to 1."""
        return min(max((counter - self.begin) / self.span, 0), 1)

    def at(self, counter: int) -> float:
        """Where a counter stands, in units of the drawing."""
        return self.part(counter) * WIDTH


def counters_of(channel: Channel) -> Iterator[int]:
    """The counters of a channel that its timeline must reach."""
    _, _, *ends = channel.counters() or (0, 0)
    yield from ends
    last = channel.last_offered()
    if last is not None:
        yield last
    for version in channel.versions:
        yield version.counter


def last_of(channel: Channel) -> int:
    """The last counter that a channel with a version is known to have had."""
    found = [channel.last_offered(), None if channel.first is None else channel.greatest]
    return max([it for it in found if it is not None] + [it.counter for it in channel.versions[-1:]])


def bars(counts: Mapping[int, int], axis: Axis) -> Iterator[str]:
    """Kept frames a second as bars."""
    most, width = max(counts.values(), default=1), WIDTH * axis.ticks / axis.span
    for at, count in sorted(counts.items()):
        high = max(count / most * HEIGHT, 1)
        begin = axis.at(at * axis.ticks)
        yield (
            f'<rect class=bar x="{begin:.2f}" y="{HEIGHT - high:.2f}" width="{max(width - .5, .5):.2f}" '
            f'height="{high:.2f}"/>'
        )


def mark_lines(marks: Iterable[Mark], axis: Axis) -> Iterator[str]:
    """Where marks stand that the timeline reaches."""
    for mark in marks:
        if axis.begin <= mark.counter <= axis.begin + axis.span:
            at = min(axis.at(mark.counter), WIDTH - 1)
            yield (
                f'<line class=mark x1="{at:.2f}" y1="0" x2="{at:.2f}" y2="{HEIGHT}"><title>{escaped(mark.text)}</title>'
                "</line>"
            )


def lines(channel: Channel, axis: Axis) -> Iterator[str]:
    """The axis, the gaps of over a second, and the end."""
    yield f'<line class=axis x1="0" y1="{HEIGHT}" x2="{WIDTH}" y2="{HEIGHT}"/>'
    for gap, begin in channel.gaps.kept:
        yield (
            f'<line class=gap x1="{axis.at(begin):.2f}" y1="{HEIGHT - 2}" x2="{axis.at(begin + gap):.2f}" '
            f'y2="{HEIGHT - 2}"><title>no frame for {seconds(gap)}</title></line>'
        )
    last = channel.last_offered()
    if last is not None:
        at = min(axis.at(last), WIDTH - 1)
        yield (
            f'<line class=end x1="{at:.2f}" y1="0" x2="{at:.2f}" y2="{HEIGHT}"><title>the end of the channel</title>'
            "</line>"
        )


def strip(channel: Channel, axis: Axis) -> Iterator[str]:
    """Where each version of the filter was in force."""
    begins = [axis.part(it.counter) for it in channel.versions]
    for at, (version, begin) in enumerate(zip(channel.versions, begins)):
        until = begins[at + 1] if at + 1 < len(begins) else axis.part(last_of(channel))
        label = f"version {version.name()} from frame {number(version.first)}"
        yield (
            f'<span class={("even", "odd")[at % 2]} style="left:{100 * begin:.3f}%;'
            f'width:{100 * max(until - begin, 0):.3f}%" title="{escaped(label)}">{version.name()}</span>'
        )


def timeline(channel: Channel, axis: Axis, marks: Iterable[Mark] = ()) -> str:
    """The drawing with what stands around it."""
    counts = channel.times.wider(axis.ticks)
    most, times = max(counts.values(), default=0), axis.ticks / TICKS_A_SECOND
    highest = f"highest bar: {number(most / times)} frames/s ({number(most)} in {times:g} s)"
    ends = f"<div class=ends><span>{seconds(0)}</span><span>{seconds(axis.span)}</span></div>"
    return (
        f"<div class=ends><span>{escaped(highest)}</span></div>"
        f'<svg viewBox="0 0 {WIDTH} {HEIGHT}" preserveAspectRatio=none role=img aria-label="kept frames a second">'
        f'{"".join([*bars(counts, axis), *lines(channel, axis), *mark_lines(marks, axis)])}</svg>{ends}'
        f'<div class=strip aria-label="versions of the filter">{"".join(strip(channel, axis))}</div>'
    )
