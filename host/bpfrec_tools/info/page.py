"""What is in a recording, as a page of HTML that loads nothing from elsewhere."""

from __future__ import annotations

import os
from typing import Collection, Iterable, Iterator, Optional

from bpfrec.formats.facts import on_a_line
from bpfrec_tools.cli import program
from bpfrec_tools.cli.program import Texts
from bpfrec_tools.info.contents import Channel, Recording
from bpfrec_tools.info.facts_file import FactsFile
from bpfrec_tools.info.names import name_of, words_of
from bpfrec_tools.info.text import Row, number, rows_of, rows_of_whole, seconds
from bpfrec_tools.info.timeline import Axis, escaped, last_of, timeline

STYLE = """
:root { color-scheme: light dark; --ink: #1c2430; --soft: #566171; --line: #d4dae2; --paper: #fff; --box: #f2f4f7;
  --bar: #2f6fb0; --even: #cfe0f1; --odd: #f3dfb8; --bad: #b3261e; }
@media screen and (prefers-color-scheme: dark) { :root { --ink: #e6eaf0; --soft: #9aa6b5; --line: #39424e;
  --paper: #14181d; --box: #1e242b; --bar: #6aa7e0; --even: #24405c; --odd: #554522; --bad: #ff8a80; } }
* { box-sizing: border-box; }
body { font: 16px/1.5 system-ui, sans-serif; color: var(--ink); background: var(--paper); max-width: 60rem;
  margin: 0 auto; padding: 1rem; }
h1 { font-size: 1.4rem; overflow-wrap: anywhere; } h2 { font-size: 1.15rem; margin: 2rem 0 .3rem; }
h3 { font-size: 1rem; margin: 0; } .soft { color: var(--soft); }
table { border-collapse: collapse; width: 100%; } td, th { text-align: left; padding: .2rem .8rem .2rem 0;
  border-bottom: 1px solid var(--line); vertical-align: top; font-weight: normal; }
th { color: var(--soft); width: 40%; } td { font-variant-numeric: tabular-nums; overflow-wrap: anywhere; }
.bad { color: var(--bad); font-weight: 600; }
.ends { display: flex; justify-content: space-between; gap: 1rem; font-size: .85rem; color: var(--soft);
  font-variant-numeric: tabular-nums; }
svg { width: 100%; height: 7.5rem; display: block; }
.bar { fill: var(--bar); } .axis { stroke: var(--line); } .gap { stroke: var(--bad); stroke-width: 5; }
.end { stroke: var(--ink); stroke-dasharray: 4 3; } .mark { stroke: var(--ink); stroke-width: 2; } line { vector-effect: non-scaling-stroke; }
.strip { position: relative; height: 1.5rem; margin: .2rem 0; overflow: hidden; font-size: .85rem; }
.strip span { position: absolute; top: 0; bottom: 0; overflow: hidden; padding-left: .2rem; min-width: 2px; }
.even { background: var(--even); } .odd { background: var(--odd); }
.filter { display: grid; grid-template-columns: minmax(11rem, 1fr) 3fr; gap: 1rem; margin: 1rem 0; }
.filter > div { border-left: .4rem solid; padding-left: .6rem; font-variant-numeric: tabular-nums; }
.filter .even { border-color: var(--even); background: none; }
.filter .odd { border-color: var(--odd); background: none; }
pre { background: var(--box); padding: .6rem; margin: 0; overflow-x: auto; font-size: .85rem; }
@media (max-width: 40rem) { .filter { grid-template-columns: minmax(0, 1fr); gap: .4rem; } }
@media print { body { max-width: none; padding: 0; font-size: 11pt; } * { print-color-adjust: exact;
  -webkit-print-color-adjust: exact; } pre { white-space: pre-wrap; } .filter, svg, tr { break-inside: avoid; }
  h2, h3 { break-after: avoid; } }
"""
# What each page begins with.
BEGINNING = "<!DOCTYPE html>"
LEGEND = (
    "Bars are kept frames a second, red lines times of over a second without one, full lines marks, the dashed line is "
    "the end; below them the versions of the filter."
)


def table(rows: Iterable[Row], bad: Collection[str] = ()) -> str:
    """Rows as a table, in which those of the names `bad` stand out."""
    cells = (
        f'<tr><th>{escaped(name)}</th><td{" class=bad" * (name in bad)}>{escaped(value)}</td></tr>'
        for name, value in rows
    )
    return f"<table>{''.join(cells)}</table>"


def filters(channel_id: int, channel: Channel, axis: Axis, texts: Texts, beside: Optional[FactsFile]) -> Iterator[str]:
    """Each version's span with its words and its text beside it."""
    for at, version in enumerate(channel.versions):
        after = channel.versions[at + 1] if at + 1 < len(channel.versions) else None
        to = f"to frame {number(after.first - 1)}" if after else "on"
        ends = (version.counter, after.counter if after else last_of(channel))
        begin, until = (seconds(it - axis.first) for it in ends)
        words = words_of(channel_id, version, beside)
        title = f"Version {version.name()}{'' if words is None else f': {words}'}"
        yield (
            f"<div class=filter><div class={('even', 'odd')[at % 2]}><h3>{escaped(title)}</h3>"
            f"<div>from frame {number(version.first)} {to}</div><div class=soft>{begin} to {until}</div></div>"
            f"<pre>{escaped(texts.text_of(version.insns))}</pre></div>"
        )
    if channel.hidden_versions:
        yield f"<p>and {number(channel.hidden_versions)} more versions</p>"


def section(channel_id: int, channel: Channel, axis: Axis, texts: Texts, beside: Optional[FactsFile]) -> str:
    """What the page has of a channel."""
    bad, called = [] if channel.end else ["end record"], name_of(channel_id, channel, beside)
    title = f"Channel {channel_id}{f': {called}' if called else ''}"
    marks = beside.known.marks if beside else ()
    return (
        f"<section><h2>{escaped(title)}</h2>{timeline(channel, axis, marks)}{table(rows_of(channel_id, channel, beside), bad)}"
        f"{''.join(filters(channel_id, channel, axis, texts, beside))}</section>"
    )


def bad_rows(recording: Recording, audit: program.Audit, beside: Optional[FactsFile]) -> list[str]:
    """The names of the rows that tell of a loss or of damage."""
    return [
        *["damaged places"] * bool(recording.damages),
        *["missing sequence numbers"] * bool(recording.missing),
        *["audit"] * (not audit.is_yes()),
        *["interruption"] * bool(beside and beside.known.interruptions),
        *["frames lost"] * bool(beside and any(beside.known.losses.values())),
    ]


def times_text(beside: FactsFile) -> str:
    """What the page says of its times."""
    name = on_a_line(os.path.basename(beside.path))
    unknown = "" if beside.known.are_all_utc() else " but where their scale is unknown"
    return f"Times are UTC{unknown}, from the facts in {name}."


def page_parts(
    name: str, recording: Recording, audit: program.Audit, beside: Optional[FactsFile] = None
) -> Iterator[str]:
    """The page of a recording of this name, part by part."""
    axis, texts = Axis(recording.channels.values()), Texts()
    whole = table(rows_of_whole(recording, audit, beside), bad_rows(recording, audit, beside))
    span = f"Counters {number(axis.first)} to {number(axis.last)}, {seconds(axis.last - axis.first)}, in each timeline."
    times = f" {times_text(beside)}" if beside else ""
    times += " Times of channels are UTC, by the time packets of the file." if recording.whole else ""
    yield (
        f"{BEGINNING}\n<html lang=en><meta charset=utf-8>"
        '<meta name=viewport content="width=device-width, initial-scale=1">'
        f"<title>{escaped(name)}</title><style>{STYLE}</style><h1>{escaped(name)}</h1>{whole}"
        f"<p>{escaped(span)} {escaped(LEGEND)}{escaped(times)}</p>"
    )
    for channel, contents in sorted(recording.channels.items()):
        yield section(channel, contents, axis, texts, beside)
    yield "</html>\n"
