"""The command line of bpfrec preflight."""

from __future__ import annotations

import argparse
import signal

from bpfrec_tools.cli.arguments import Parser, name_of
from bpfrec_tools.live.flight import flight_at

ABOUT = """\
Names, before a recording, all faults for which `bpfrec record SETTINGS OUT` would end, not only the first.

Run it in the folder in which the recording will run, since paths are used as they are written. It judges

- the settings, key by key;
- each filter, by `bpfrec verify`, and each feed that is a file, to its end;
- two channels whose feeds are one pipe or device;
- OUT: whether it can be written, that it isn't among the inputs, and how much room its disk has;
- the memory that the buffers of the recording take at most, and how much is available.

With --capture it records FEED through each filter into /dev/null, and says how many frames are kept.

With --live, or of a flight, it judges the arguments of `live`, as `flight.toml --every 1h`, or `--live wire.toml
flight.ch11 eth0=1`: the same for SETTINGS and OUT, which may not exist. It judges whether each interface exists and is up and whether the
kernel joins its frames; the permission to capture; the kernel's buffers, and how much memory is available; the origin
that --origin names; and the expressions that are filters.

SETTINGS may be `-`, standard input. It creates nothing but temporary files, empties nothing, and opens no pipe, since that would wait for
the pipe's other end.
"""
MORE = """\
Each finding is a line on standard output, `FILE[:LINE]: [channel ID: ]what`; a channel without an ID
is `channel table N`. What is no fault begins with `note:`. The last line is `N faults`; of one
`1 fault`. The status is 0 without faults, 1 with faults, 2 if nothing was judged, 3 if the findings can't be printed, and
4 if it is out of memory. Nothing is judged if the arguments are wrong, the program is missing,
SETTINGS is a pipe, or TOML can't be read. That is so if Python has no tomllib (3.11 is the first that
has it) and no tomli, or its tomllib doesn't read what is new in TOML 1.1, which bpfrec reads.

It runs bpfrec: what BPFREC names, or the one beside it. Nothing of this tool is proved.
"""


def parser() -> Parser:
    """The arguments of bpfrec preflight."""
    name = name_of("preflight")
    made = Parser(
        prog=name,
        usage=f"{name} SETTINGS [--out OUT] [--capture FEED]\n       {name} [--live] ARGUMENT..",
        description=ABOUT,
        epilog=MORE,
    )
    made.add_argument("settings", metavar="SETTINGS", nargs="?", help="the settings of the recording")
    made.add_argument("--out", metavar="OUT", help="the file of the recording")
    made.add_argument("--capture", metavar="FEED", help="a feed on which each filter is tried")
    made.add_argument("--live", metavar="ARGUMENT", nargs=argparse.REMAINDER, help="the arguments of a run of live")
    return made


def run(arguments: list[str]) -> int:
    """Names what is wrong: the status."""
    # A reader of the findings may leave, as `head` does.
    signal.signal(signal.SIGPIPE, signal.SIG_DFL)
    made = parser()
    at = arguments.index("--live") if "--live" in arguments else len(arguments)
    given, others = made.parse_known_args(arguments[:at])
    # As they are, with the end of their options too.
    given.live = arguments[at + 1 :] if at < len(arguments) else None
    if given.live is None and others and any(map(flight_at, arguments)):
        given.live = arguments
    elif others:
        made.parse_args(arguments[:at])
    if given.settings is None and given.live is None:
        made.error("the following arguments are required: SETTINGS")
    # Here, since help and a refusal need nothing of it.
    from bpfrec_tools.preflight.judging import findings

    return findings(given)
