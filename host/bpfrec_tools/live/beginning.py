"""The beginning of a run: what would be lost or would not work is refused before anything is begun."""

from __future__ import annotations

import os
import shutil
from typing import Optional

from bpfrec.formats.names import Names, whole_path
from bpfrec_tools.cli import program
from bpfrec_tools.cli.files import STREAM
from bpfrec_tools.live import ahead
from bpfrec_tools.live.arguments import Arguments
from bpfrec_tools.live.control.changes import may_bring_lines
from bpfrec_tools.live.kept.names import Files, Refusal, is_special, refuse_folder, refuse_long, refused, unreadable
from bpfrec_tools.live.model import Programs
from bpfrec_tools.live.parts.expressions import judge_filters
from bpfrec_tools.live.parts.folder import Folder, judge_settings, made_settings, read_settings
from bpfrec_tools.live.parts.loop import Signals
from bpfrec_tools.live.parts.spans import judge_spans
from bpfrec_tools.live.reports import journal
from bpfrec_tools.live.run.ports import Observer
from bpfrec_tools.live.run.run import Run
from bpfrec_tools.live.said import said
from bpfrec_tools.live.status import BadEndpoint, NoServer, Status, Terminal, endpoint_in
from bpfrec_tools.live.status.observer import USUAL_LIMIT


def record(given: Arguments, observer: Optional[Observer] = None) -> int:
    """Records: the status."""
    # A signal may come before there is anything to end.
    signals = Signals()
    try:
        programs = find_programs(given)
        look_ahead(given)
        text, settings = read_settings(given.settings) if given.settings else made_settings(given.routes)
        ahead.refuse_many_channels(settings)
        ahead.refuse_feeds_alone(given)
        ahead.refuse_lacking(settings, given)
        ahead.refuse_inputs(given, settings.channels)
        ahead.refuse_few_descriptors(given, len(settings.channels))
        judge_settings(settings, given)
        judge_spans(settings)
        judge_filters(settings, given)
        terminal = Terminal(2, "--quiet" in given.options)
        status = made_status(given, settings.document.get("limit"), terminal)
        folder = Folder(text, settings, given)
    except Refusal as refusal:
        journal.err(refusal.line)
        return refusal.status
    if signals.come():
        journal.err(said("it was ended before anything was begun"))
        return 3
    try:
        recording = Run(given, programs, folder, signals, observer or status, terminal)
    except Refusal as refusal:
        folder.remove_all()
        journal.err(refusal.line)
        return refusal.status
    except BaseException:
        folder.remove_all()
        raise
    return run_shown(recording, status)


def run_shown(recording: Run, status: Optional[Status]) -> int:
    """Runs it, with what shows how it goes: the status."""
    if status:
        # The guard was copied by now, and has no thread of the server's.
        status.start()
        status.alarm_changed = recording.alarm_command.take
        if status.address():
            recording.err(f"status: {status.address()}")
    try:
        return recording.run()
    finally:
        recording.loop.signals.ignore()
        if status:
            status.close()


def made_status(given: Arguments, limit: object, terminal: Terminal) -> Optional[Status]:
    """What shows how it goes, where somebody looks; a port that can't be had is refused."""
    try:
        endpoint = endpoint_in(given.status, given.status_names) if given.status is not None else None
        is_told = given.on_alarm or given.socket() or journal.is_read_from(2)
        is_watched = endpoint or terminal.is_shown() or may_bring_lines() or is_told
        longest = limit if isinstance(limit, int) else USUAL_LIMIT
        has_ring = given.keep is not None or given.keep_free is not None
        return Status(endpoint, terminal, given.sync, longest, has_ring) if is_watched else None
    except (BadEndpoint, NoServer) as why:
        raise refused(why.status, str(why)) from None


def find_programs(given: Arguments) -> Programs:
    """The programs that are run, where they can be."""
    try:
        bpfrec = program.find()
    except program.Missing as why:
        raise refused(3, str(why)) from None
    capture = program.capture_path()
    if given.routes and not shutil.which(capture):
        made = "make build makes it where libpcap's headers are (apt-get install libpcap-dev)"
        raise refused(3, f"{capture} is missing: {made}")
    return Programs(bpfrec, capture)


def look_ahead(given: Arguments) -> None:
    """Refuses what can't be read, and an OUT that would be lost or can't be created."""
    if given.settings is not None and given.settings != STREAM:
        why = unreadable(given.settings)
        if why:
            raise refused(3, why)
        if os.path.exists(given.out) and os.path.samefile(given.out, given.settings):
            raise refused(3, f"{given.out}: it is SETTINGS itself")
    ahead.refuse_together(given)
    ahead.refuse_holder()
    ahead.refuse_alarm_command(given)
    ahead.refuse_control(given)
    ahead.refuse_clock(given)
    ahead.refuse_signing(given)
    for lack in filter(None, (it.lacks() for it in given.targets)):
        raise refused(3, f"--publish {lack}")
    if not given.is_rotating():
        beside = (whole_path(given.out),) if given.makes_whole_files else ()
        Files(given.mode, given.is_forced).refuse_overwriting(given.out, *beside)
        if not is_special(given.out):
            refuse_folder(given.out)
            refuse_long(given.out, bool(given.routes), given.sign is not None)
        return
    if os.path.exists(given.out) and not os.path.isfile(given.out):
        raise refused(2, f"--every and --size make files, and {given.out} is not a file")
    refuse_folder(given.out)
    refuse_long(Names(given.out).next()[1], True, given.sign is not None)
