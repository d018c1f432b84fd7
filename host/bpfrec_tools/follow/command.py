"""The command line of bpfrec follow."""

from __future__ import annotations

import os
import signal
import stat
import time
from typing import Optional

from bpfrec_tools.cli import printing
from bpfrec_tools.cli.arguments import Parser, channel_of, name_of
from bpfrec_tools.cli.streams import STREAM, Refused, created, refuse_inputs
from bpfrec_tools.follow.growing import PAUSE, first_of, next_of
from bpfrec_tools.follow.view import Recording, View

ABOUT = """\
Gives the frames of a recording that goes on as pcapng on standard output, each packet as soon as it is written, over
the recordings of a run that follow one another, until the run ends:

  bpfrec follow flight.ch11 | wireshark -k -i -

RECORDING is a recording, or the name of a run whose recordings are numbered; then it begins with the newest. Each
channel is an interface with the name that the facts beside the recording have for it, and times are those of the facts.
It may be a whole Chapter 11 file too, as bpfrec receive writes it: names are those of its setup record, and times those
of its time packets. Then it goes on as long as that is written, and over the files that follow.
Comments have the filter of each channel, and at the first frame after a change the new one. A mark is a comment of the
next frame that is shown; one that no frame follows is a comment of a section at the end, and a line on standard error.
Frames of a channel stand in their order; those of channels stand as the packets were written.
"""
MORE = """\
At the end it prints `frames <n> skipped <m>` on standard error: m frames have another content, or fewer than 18 bytes,
and no capture can have them.
The facts of a recording that has just begun are waited for, up to 10 s. Of a whole file's frames ahead of its first time
packet that can be read a line says that their times are since counter 0; it has no marks.
A packet is written when it is full or as old as the --span of live, so frames come that late. The recording is only
read: a reader that is slow or leaves changes nothing of it.

Status: 0 the run has ended, 1 a recording is damaged, 2 the arguments are wrong, 3 a file can't be read or written,
4 out of memory, 130 interrupted.
"""
BUFFER_LEN = 1 << 20


def parser() -> Parser:
    """The arguments of bpfrec follow."""
    made = Parser(prog=name_of("follow"), description=ABOUT, epilog=MORE)
    named = "this channel, by its ID, its name or its interface; several times"
    made.add_argument("--channel", metavar="N", type=channel_of, action="append", help=named)
    made.add_argument("--now", action="store_true", help="leaves out the frames that are in the recording already")
    made.add_argument("recording", metavar="RECORDING")
    return made


def err(line: str) -> None:
    """Prints a line of a recording on standard error."""
    printing.err(f"{name_of('follow')}: {line}")


def follow(path: str, begins_now: bool, view: View) -> bool:
    """Shows a recording and those that follow it, until the run ends: whether one was damaged."""
    next_path: Optional[str] = path
    is_damaged = False
    while next_path:
        recording = Recording(next_path, view, err)
        try:
            if begins_now:
                recording.hide()
            recording.wait_for_facts()
            if recording.known:
                recording.judge_asked()
            next_path, begins_now = follow_one(recording), False
        finally:
            recording.close()
        is_damaged |= recording.is_damaged
    return is_damaged


def follow_one(recording: Recording) -> Optional[str]:
    """Shows a recording until it has ended: the one that follows; None where the run has ended."""
    while not recording.has_all_ends() and not recording.has_ended():
        show_more(recording)
    recording.end()
    recording.view.out.flush()
    return next_of(recording)


def show_more(recording: Recording) -> None:
    """Shows what has come, or waits a little."""
    recording.view.look_back()
    if recording.read_on():
        recording.view.out.flush()
    else:
        time.sleep(PAUSE)


def run(arguments: list[str]) -> int:
    """Follows a recording: the status."""
    given = parser().parse_args(arguments)
    if os.isatty(1):
        raise Refused("standard output is a terminal, which shows no capture")
    path = first_of(given.recording)
    if not stat.S_ISREG(os.stat(path).st_mode):
        raise Refused(f"{path}: it is no regular file, which could be followed")
    refuse_inputs([path], STREAM)
    # Its reader may leave whenever it likes, as Wireshark does.
    signal.signal(signal.SIGPIPE, signal.SIG_DFL)
    with created(STREAM, BUFFER_LEN) as out:
        view = View(name_of("follow"), out, given.channel or [])
        is_damaged = follow(path, given.now, view)
        left = view.end()
    for mark in left:
        err(f"no frame follows {mark}")
    printing.err(f"frames {view.frames} skipped {view.skipped}")
    return 1 if is_damaged else 0
