"""The command line of bpfrec info."""

from __future__ import annotations

import argparse
import json
import os
from itertools import chain
from typing import Any, Optional

from bpfrec.formats.guesses import guess_at
from bpfrec.formats.limits import MAX_VERSIONS
from bpfrec.formats.names import all_of, facts_path, last_of_runs
from bpfrec_tools.cli import printing
from bpfrec_tools.cli.arguments import Parser, name_of
from bpfrec_tools.cli.program import Audit, audit_of
from bpfrec_tools.cli.streams import NO_PACKET, STREAM, Taken, created, input_at
from bpfrec_tools.info.as_json import object_of
from bpfrec_tools.info.contents import MOST_PLACES, MOST_SECONDS, Recording, read
from bpfrec_tools.info.facts_file import FactsFile, facts_beside
from bpfrec_tools.info.page import BEGINNING, page_parts
from bpfrec_tools.info.several import Part, text_of
from bpfrec_tools.info.text import text_parts

ABOUT = """\
What is in a recording: rates, gaps, versions of filters, faults, as a text, as JSON or as a page.

For each channel: frames and bytes that were kept, the versions of its filter with the first frame of each, the first
and last value of the relative time counter (RTC) with the time between. Then the mean rate (frames by the time between
the least and the greatest counter), the greatest rate (frames in a second of the counter), the longest gap between two
frames, counters that step back, and frames with error flags. The end record has the frames offered and dropped by the
filter. For the whole: packets by kind, gaps in sequence numbers, places that can't be read, wrong checksums among them,
and what `bpfrec audit` answers. Packets behind a damaged place are counted too (salvage copies them).

If the facts of the recording are beside it, as RECORDING.json, it prints from them the host, and each origin (the
moment of counter 0) with the counter from which on it is right. It prints the marks, the frames that were lost, and
whether the host's clock was synchronised at the beginning and at the end, and for each channel the times of its first
and last frame. These times are UTC: if an adapter's clock ran atomic time (TAI), they are less by the seconds that it
is ahead. Where nobody knows how the clock ran, `scale unknown` stands behind its times. The time between two frames is
that of their counters.

RECORDING may be the name of a run, which is all its recordings. Of several it prints a table of channels over all of them,
with first and last times, and a line for each recording with its audit and what is missing behind it; --json has an
object for each.

RECORDING may be a whole Chapter 11 file too. By its setup record it prints the host, the program, whose clock it was
and the names of channels. By its time packets it prints the times of the first and last of these, and those of each
channel's first and last frame in UTC, which then aren't by facts. Time packets and index packets are counted.
"""
MORE = f"""\
In JSON lengths of time are ticks of 100 ns, and what isn't known is null, as all that comes from facts if there are
none, and times of a scale that is unknown. If over {MOST_SECONDS:,} seconds have frames, rates are for longer times, which
are printed. The first {MOST_PLACES:,} gaps, damaged places and origins are printed one by one, and the first {MAX_VERSIONS:,}
versions of a channel's filter; all are counted.

A RECORDING.json that can't be read, or has no facts of a recording, is reported on standard error, and changes neither
the rest nor the status.

RECORDING `-` is standard input, and FILE `-` is standard output.

It runs bpfrec: what BPFREC names, or the one beside it; without it there is no audit and no text of filters.

Status: 0 it is read to its end, 1 it isn't, 2 the arguments are wrong, 3 a file can't be read or written, 4 out of
memory.
"""
# What `-` is, as a path that can be opened.
STANDARD_INPUT = "/dev/stdin"


def parser() -> Parser:
    """The arguments of bpfrec info."""
    made = Parser(prog=name_of("info"), description=ABOUT, epilog=MORE)
    made.add_argument("recordings", metavar="RECORDING", nargs="+")
    made.add_argument("--json", action="store_true", help="prints the same as one object")
    made.add_argument("--quiet", action="store_true", help="shows no progress on a terminal")
    made.add_argument("--html", metavar="FILE", help="writes a page: timelines, filters and the numbers")
    return made


def write_page(path: str, name: str, recording: Recording, audit: Audit, beside: Optional[FactsFile]) -> None:
    """Writes the page of a recording of this name; not in the place of the recording or of its facts."""
    judge_output(path, name)
    judge_page(path)
    with created(path) as file:
        file.writelines(it.encode() for it in page_parts(os.path.basename(name), recording, audit, beside))


def judge_output(path: str, recording: str) -> None:
    """Refuses an output that is the recording or its facts, which it would be written into."""
    for what, name in (("RECORDING", recording), ("RECORDING.json", facts_path(recording))):
        if input_at(path, [name]):
            raise OSError(0, f"it is {what} itself", path)


def judge_page(path: str) -> None:
    """Refuses a page in the place of a file that is none, as of another recording."""
    if path == STREAM or not os.path.isfile(path):
        return
    with open(path, "rb") as file:
        head = file.read(len(BEGINNING))
    if head and head != BEGINNING.encode():
        raise Taken(f"{path} is there, and is no page: give FILE another name")


def is_other(recording: Recording) -> bool:
    """Whether a file is no recording: it has no packet, and doesn't begin as one."""
    is_empty = not sum(recording.kinds.values())
    return is_empty and bool(recording.damages) and recording.damages[0].fault.name == "Sync"


def part_at(path: str, is_quiet: bool) -> Optional[Part]:
    """A recording with its audit and its facts; None of what is no recording, as a line says."""
    judge_output(STREAM, path)
    audit = audit_of(path, is_quiet)
    # An audit that says yes has summed all data.
    recording = read(path, not audit.is_yes(), is_quiet)
    if is_other(recording):
        printing.err(f"{name_of('info')}: {path}: no recording{guess_at(path)}")
        return None
    if not recording.kinds and not recording.damages:
        printing.err(f"{name_of('info')}: {path}: {NO_PACKET}")
    return Part(path, recording, audit, facts_beside(path))


def object_of_part(part: Part) -> dict[str, Any]:
    """A recording as an object."""
    return object_of(part.recording, part.audit.answer, part.beside)


def told_of(parts: list[Part]) -> dict[str, Any]:
    """One recording as an object, or several as a list of them."""
    if len(parts) == 1:
        return object_of_part(parts[0])
    return {"recordings": [{"path": it.path, **object_of_part(it)} for it in parts]}


def show(given: argparse.Namespace, parts: list[Part]) -> None:
    """Prints what is in recordings, or writes the page of one."""
    (path, recording, audit, beside), *others = parts
    if given.json:
        printing.out_parts(chain(json.JSONEncoder(indent=2).iterencode(told_of(parts)), ["\n"]))
    elif others:
        printing.out_parts(text_of(parts, last_of_runs(given.recordings)))
    elif not given.html:
        printing.out_parts(text_parts(recording, audit, beside))
    if given.html:
        write_page(given.html, path, recording, audit, beside)


def run(arguments: list[str]) -> int:
    """Tells what is in recordings: the status."""
    made = parser()
    given = made.parse_args(arguments)
    if given.json and given.html == STREAM:
        made.error("--html - takes standard output, and --json that too")
    paths = [path for it in given.recordings for path in all_of(STANDARD_INPUT if it == STREAM else it)]
    if given.html and len(paths) > 1:
        made.error("--html is for one recording")
    found = [part_at(it, given.quiet) for it in paths]
    parts = [it for it in found if it is not None]
    if parts:
        show(given, parts)
    return 1 if len(parts) < len(paths) or any(it.recording.damage_count for it in parts) else 0
