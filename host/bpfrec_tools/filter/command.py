"""The command line of bpfrec filter."""

from __future__ import annotations

import argparse
import os
import re
import shutil
import subprocess
import tempfile

from bpfrec_tools.cli import printing
from bpfrec_tools.cli.arguments import Parser, name_of
from bpfrec_tools.cli.program import command_of
from bpfrec_tools.cli.streams import STREAM, Unreadable, refuse_inputs, refuse_overwriting
from bpfrec_tools.export import captures as pcapng

ABOUT = """\
Writes what a filter keeps of a capture into a capture in pcapng, with the times of IN:

  bpfrec filter 'udp port 53' flight.pcap dns.pcapng

EXPRESSION is one as tcpdump takes it, or a file that is a listing or a text for bpfrec asm. IN is a capture of Ethernet
frames, pcap or pcapng. As IN `-` is standard input, and as OUT standard output. A frame without its frame check sequence
(FCS), as most captures have them, gets it in OUT: four bytes more.

It is `live` with the capture in the place of an interface, in a folder of its own in TMPDIR, and then `export`. So the
proved program filters, and audits what it recorded.
"""
MORE = """\
It prints `kept <n> of <m>`, on standard error if OUT is standard output: n of the m frames of IN that can be recorded. What
can't be, as a frame that was cut short, a line on standard error counts.

Status: 0 done, 1 the capture is refused, 2 the arguments or the expression are wrong, 3 a file can't be read or written, or
OUT exists, 4 out of memory.
"""
# What live says of a capture that it refuses, beside why.
LEFT_OUT = re.compile(" origin |^bpfrec live: clock: | bytes 0 skipped 0 ")
REPORT = re.compile(r"channel 1 versions \d+ offered (\d+) kept (\d+) ")


def parser() -> Parser:
    """The arguments of bpfrec filter."""
    made = Parser(prog=name_of("filter"), description=ABOUT, epilog=MORE)
    made.add_argument("--force", action="store_true", help="overwrites an OUT that exists")
    made.add_argument("expression", metavar="EXPRESSION")
    made.add_argument("capture", metavar="IN")
    made.add_argument("out", metavar="OUT")
    return made


def placed(path: str, folder: str) -> str:
    """A capture under a name by which live takes it, in a folder; standard input is copied there."""
    if path == STREAM:
        made = os.path.join(folder, "stdin.pcap")
        with open(0, "rb", closefd=False) as stream, open(made, "wb") as copy:
            shutil.copyfileobj(stream, copy)
        return made
    if not os.path.isfile(path):
        raise Unreadable(f"{path}: {'it is no regular file' if os.path.exists(path) else 'no such file'}")
    name = os.path.basename(path).replace("=", "_")
    made = os.path.join(folder, name if name.endswith((".pcap", ".pcapng")) else f"{name}.pcap")
    os.symlink(os.path.abspath(path), made)
    return made


def recorded(given: argparse.Namespace, folder: str) -> tuple[str, str]:
    """The recording of the frames that are kept, and what was printed of it."""
    capture, made = placed(given.capture, folder), os.path.join(folder, "kept.ch11")
    words = [*command_of("live"), "--quiet", made, f"{capture}=1:{given.expression}"]
    done = subprocess.run(words, stdin=subprocess.DEVNULL, capture_output=True, encoding="utf-8", errors="replace")
    for line in done.stderr.splitlines():
        if done.returncode or " skipped 0 " not in f"{line} ":
            tell(line.replace(capture, given.capture).replace(f"{folder}/", ""), bool(done.returncode))
    if done.returncode:
        raise Failed(done.returncode)
    return made, done.stdout


class Failed(Exception):
    """The recording couldn't be made, which lines have said: the status."""

    def __init__(self, status: int) -> None:
        super().__init__(status)
        self.status = status


def tell(line: str, is_all: bool) -> None:
    """Tells what of live's lines is of the capture: its faults, and the frames that it skipped."""
    if not LEFT_OUT.search(line) if is_all else " skipped " in line:
        printing.err(re.sub("^bpfrec (live|capture): ", f"{name_of('filter')}: ", line))


def write(given: argparse.Namespace, folder: str) -> int:
    """Writes OUT: the status."""
    recording, report = recorded(given, folder)
    all_of_it = {"last": (), "since": None, "until": None, "channel": None}
    asked = argparse.Namespace(recordings=[recording], out=given.out, force=given.force, quiet=True, **all_of_it)
    counts = REPORT.search(report)
    return pcapng.make(asked, f"kept {counts[2]} of {counts[1]}" if counts else None)


def judge(given: argparse.Namespace) -> None:
    """Refuses an OUT that may not be written."""
    refuse_inputs([given.capture], given.out)
    refuse_overwriting(given.out, given.force)


def run(arguments: list[str]) -> int:
    """Filters a capture: the status."""
    given = parser().parse_args(arguments)
    try:
        judge(given)
        with tempfile.TemporaryDirectory(prefix="bpfrec-filter-") as folder:
            return write(given, folder)
    except Failed as failed:
        return failed.status
