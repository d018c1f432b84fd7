"""The command line of bpfrec export."""

from __future__ import annotations

import argparse
import os
import re
from typing import Callable, NamedTuple, Optional

from bpfrec.formats.names import all_of, last_of_runs
from bpfrec_tools.chapter11 import command as chapter11
from bpfrec_tools.chapter11.options import add_setup_options
from bpfrec_tools.cli.arguments import Parser, channel_of, name_of
from bpfrec_tools.cli.streams import STREAM
from bpfrec_tools.export import captures as pcapng
from bpfrec_tools.export.times import time_of

ABOUT = """\
Makes one file of recordings, the last word: a capture in pcapng, or a whole Chapter 11 file. The ending of OUT says
which, .pcapng or .ch10, or else --as does; `-` is a capture. RECORDING may be the name of a run, which is all its
recordings.

  bpfrec export flight.ch11 flight.pcapng
  bpfrec export --from 09:04:10 --to 09:04:20 --channel eth0 flight.ch11 slice.pcapng
  bpfrec export flight.ch11 flight.ch10

A capture has all time of the recordings or a slice of it, and all channels or some. Each channel of a recorder is an
interface, with the name that the facts beside the recording have for it. A recorder is a run of a host, by the facts;
recordings without facts are of a recorder each. Frames stand in the order in which they came, so times step back where
a clock was set back. Frames have their frame check sequence (FCS) and their error flags. Comments have the first filter
of each channel, or the one in force where the slice begins, with its expression and the counts of the channel, and at
the first frame after a change the filter from there on. The comment of the capture has the recordings and their marks,
and a mark is a comment of the first frame of its run that comes then or later.

A whole Chapter 11 file has a setup record (TMATS), time packets and an index, and all frames, programs and ends of the
recordings, merged by their counters and cut into packets of 100 ms at most. The setup record has the host, the
recorder and the names of interfaces by the facts. The network identifier of a channel is that of its first frame.
`bpfrec chapter11` makes it, by a text in TOML that is made here and that --print-setup prints.
"""
MORE = """\
Times are UTC by the facts beside a recording, RECORDING.json. Those of a capture are without facts by the time packets
of a whole Chapter 11 file, else since counter 0, from 1970 on; all its recordings must have UTC times, or none. If the
facts don't know in which scale a clock ran, a capture takes its times as they are, and a line says so. A whole file is
refused then, unless --utc or --tai says it; both speak of such origins alone.

TIME is seconds since counter 0, as 12.5, or UTC as 2025-12-01T12:00:00.25Z or 23:36:10.5, which needs facts that know
it. Without its date it is the first such time since the beginning of the first recording, by the clock as it was set
last; that of --to is the first since --from. So of recordings over several days later ones need their date.

Recordings of several recorders become one file, by the clock of each, and in a whole file recordings of one run become
one, in their order. There the first that has a channel ID keeps it. Another gets the least ID that no recording has and
no other got, and a line is printed: `channel 1 of tap2.ch11 is 3`. Each then needs its facts, by which a run is known,
and what is missing in it: that is refused without --gaps, and said on standard error of a capture. If a clock was set
by over a second, frames before that have times by the clock as it was set then, and a line says so.

As RECORDING of a capture `-` is standard input, and a pipe is copied into TMPDIR. Of a capture it prints
`frames <n> skipped <m>`, on standard error if OUT is standard output: m frames have another content, or fewer than 18
bytes, and no capture can have them. A damaged place is reported on standard error, and what is behind it is read. When
the last line is printed, OUT is on its disk.

A security classification is never made up: --attribute 'G\\SC:U' has one.

It runs bpfrec: what BPFREC names, or the one beside it; a capture without it has listings for the texts of filters.

Status: 0 made, 1 a recording is damaged or the facts are refused, 2 the arguments are wrong, 3 a file can't be read or
written, or OUT is taken, 4 out of memory.
"""


class Kind(NamedTuple):
    """What OUT becomes: how a line calls it, what makes it, and the options that it alone has, by where they are kept."""

    name: str
    make: Callable[[argparse.Namespace], int]
    options: dict[str, str]


KINDS = {
    "pcapng": Kind("a capture", pcapng.make, {"since": "--from", "until": "--to", "channel": "--channel"}),
    "chapter11": Kind(
        "a whole Chapter 11 file",
        chapter11.make,
        {
            "facts": "--facts",
            "origin": "--origin",
            "ahead": "--utc and --tai",
            "external": "--external",
            "attribute": "--attribute",
            "gaps": "--gaps",
            "print_setup": "--print-setup",
        },
    ),
}
ENDINGS = {".pcapng": "pcapng", ".ch10": "chapter11"}


def parser() -> Parser:
    """The arguments of bpfrec export."""
    name = name_of("export")
    usage = f"{name} [OPTION..] RECORDING.. OUT\n       {name} --print-setup [OPTION..] RECORDING.."
    made = Parser(prog=name, usage=usage, description=ABOUT, epilog=MORE)
    kinds = "what OUT becomes, where its ending doesn't say it: pcapng or chapter11"
    made.add_argument("--as", dest="kind", metavar="KIND", choices=[*KINDS], help=kinds)
    made.add_argument("--force", action="store_true", help="overwrites an OUT that exists")
    made.add_argument("--quiet", action="store_true", help="shows no progress on a terminal")
    add_slice(made.add_argument_group("of a capture"))
    whole = made.add_argument_group("of a whole Chapter 11 file")
    times = whole.add_mutually_exclusive_group()
    times.add_argument("--facts", metavar="FILE", help="the facts of the recording, if they aren't RECORDING.json")
    origin = "where there are no facts, the moment of counter 0 in UTC, in seconds since 1970 as 1764590400.25"
    times.add_argument("--origin", metavar="SECONDS", type=chapter11.origin_of, help=origin)
    add_setup_options(whole)
    gaps = "takes recordings of a run of which some between them are missing; the file's comment names those"
    whole.add_argument("--gaps", action="store_true", help=gaps)
    whole.add_argument("--print-setup", action="store_true", help="prints SETUP, and makes no file: there is no OUT")
    made.add_argument("paths", metavar="RECORDING.. OUT", nargs="*")
    return made


def add_slice(options: argparse._ArgumentGroup) -> None:
    """The options that say what of the recordings a capture has."""
    options.add_argument("--from", dest="since", metavar="TIME", type=time_of, help="frames from this time on")
    options.add_argument("--to", dest="until", metavar="TIME", type=time_of, help="frames before this time")
    named = "this channel, by its ID, its name or its interface, also as 'eth0 of tap2'; several times"
    options.add_argument("--channel", metavar="N", type=channel_of, action="append", help=named)


def kind_of(given: argparse.Namespace) -> Optional[str]:
    """What OUT becomes; None where nothing says it."""
    if given.kind or given.out is None:
        return given.kind or "chapter11"
    ending = re.search(r"\.[^./]+$", given.out)
    return "pcapng" if given.out == STREAM else ENDINGS.get(ending[0] if ending else "")


def why_no_kind(given: argparse.Namespace) -> str:
    """What is wrong with an OUT whose ending doesn't say what it becomes."""
    if re.fullmatch(r"[0-9-]+T[0-9:.]+Z", given.out):
        return (
            f"OUT is the last word, and a time stands behind --from or --to; `date -u -d {given.out} +%s` has seconds"
        )
    if os.path.lexists(given.out) and any(it.endswith(tuple(ENDINGS)) for it in given.recordings):
        return f"it is there, and OUT is the last word: {given.out} {given.recordings[-1]}"
    return "it ends neither in .pcapng nor in .ch10: --as pcapng or --as chapter11 says what it is"


def refuse_options(made: Parser, given: argparse.Namespace) -> None:
    """Refuses options that are of what OUT doesn't become."""
    for name, kind in KINDS.items():
        asked = [option for key, option in kind.options.items() if getattr(given, key) != made.get_default(key)]
        if name != given.kind and asked:
            instead = ", which has all: a slice is OUT.pcapng" if given.kind == "chapter11" else ""
            made.error(f"{asked[0]} is for {kind.name}, and OUT is {KINDS[given.kind].name}{instead}")


def arguments_of(arguments: list[str]) -> argparse.Namespace:
    """The arguments, the last of which is OUT, but where SETUP is printed."""
    made = parser()
    end = arguments.index("--") if "--" in arguments else len(arguments)
    given = made.parse_args(arguments[:end])
    paths = [*given.paths, *arguments[end + 1 :]]
    recordings, given.out = (paths, None) if given.print_setup else (paths[:-1], paths[-1] if paths else None)
    given.recordings = [found for it in recordings for found in all_of(it)]
    given.last = last_of_runs(recordings)
    if not given.recordings:
        made.error(f"the following arguments are required: {'OUT' if paths else 'RECORDING, OUT'}")
    kind = kind_of(given)
    if kind is None:
        made.error(f"{given.out}: {why_no_kind(given)}")
    given.kind = kind
    refuse_options(made, given)
    return given


def run(arguments: list[str]) -> int:
    """Makes a file of recordings: the status."""
    given = arguments_of(arguments)
    return KINDS[given.kind].make(given)
