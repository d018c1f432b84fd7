"""The settings of a recording, with its filters and feeds."""

from __future__ import annotations

import os
import re
import stat
import tempfile
from pathlib import Path
from typing import Container, Optional

from bpfrec.formats import feed
from bpfrec.formats.answers import is_no_listing
from bpfrec.formats.limits import CHANNEL_KEYS, MAX_NUMBER
from bpfrec.formats.listing import no_listing
from bpfrec.formats.settings import Channel, Settings, number_fault
from bpfrec.formats.settings_text import quoted
from bpfrec_tools.cli import program
from bpfrec_tools.cli.files import Unread, file_id, kind_of, read_text
from bpfrec_tools.preflight.keys import judge_channel_keys, judge_ids, judge_top, place_in
from bpfrec_tools.preflight.output import judge_memory
from bpfrec_tools.preflight.report import Report


def judge_settings(
    settings: Settings, report: Report, piped: Container[object] = (), worded: Container[object] = ()
) -> list[Channel]:
    """Judges settings with their filters and feeds, but for the channels whose feed is a pipe of live's, or whose filter
    is in words that it takes: the channels that have a valid filter."""
    judge_top(settings, report)
    for channel in settings.channels:
        judge_channel_keys(settings, channel, report)
    judge_ids(settings, report)
    valid = []
    for channel in settings.recorded():
        if channel.id() not in worded and judge_filter(settings, channel, report):
            valid.append(channel)
        if channel.id() not in piped:
            judge_channel_feed(settings, channel, report)
    judge_shared_feeds(settings, report)
    judge_memory(settings, report)
    return valid


def judge_filter(settings: Settings, channel: Channel, report: Report) -> bool:
    """Whether a channel has a filter that may be installed, as far as can be seen without opening a pipe."""
    path = channel.path("filter")
    if path is None:
        return False
    at = place_in(settings, channel, "filter")
    try:
        kind = kind_of(path)
        if kind in ("pipe", "device"):
            report.note(at, f"filter {path} is a {kind} and was not opened")
            return False
        read_text(path)
    except Unread as unread:
        report.fault(at, f"file {path}: {unread}")
        return False
    # A path that begins with - would be an option or standard input.
    done = program.run("verify", path if path.startswith("/") else f"./{path}")
    answer = program.answer_of(done)
    if done.returncode == 0:
        report.note(at, f"filter {path}: {answer}")
    else:
        report.fault(at, f"{answer}: filter {no_listing(path) if is_no_listing(answer) else path}")
    return done.returncode == 0


def judge_feed(path: str, most: int, at: str, report: Report, has_time_marks: bool = False) -> bool:
    """Whether a feed is a file that can be read; what it holds, of which `most` frames are taken."""
    try:
        kind = kind_of(path)
        if kind in ("pipe", "device"):
            report.note(at, f"feed {path} is a {kind} and was not opened")
            return False
        if kind == "directory":
            report.fault(at, f"SourceFault Device: feed {path} is a directory")
            return False
        with open(path, "rb") as file:
            end = feed.end_of(file, has_time_marks)
    except Unread as unread:
        report.fault(at, f"file {path}: {unread}")
        return False
    except OSError as fault:
        report.fault(at, f"SourceFault Device: feed {path}: {fault.strerror}")
        return False
    tell_end(path, end, most, at, report)
    return True


def tell_end(path: str, end: feed.FeedEnd, most: int, at: str, report: Report) -> None:
    """Tells how a feed ends: a fault only where it is among the frames that are taken."""
    if end.fault and end.frames < most:
        report.fault(at, f"SourceFault {end.fault}: feed {path} at byte {end.at}, after {end.frames} frames")
        return
    taken = f", of which {most} are taken" if most < end.frames else ""
    report.note(at, f"feed {path}: {end.frames} frames{taken}")
    if end.fault:
        report.note(at, f"feed {path}: {end.fault} at byte {end.at}, past the frames that are taken")


def judge_channel_feed(settings: Settings, channel: Channel, report: Report) -> None:
    """The feed of a channel, as far as it is taken."""
    path, most = channel.path("feed"), channel.table.get("max", MAX_NUMBER)
    if path is not None:
        is_number = not number_fault(most, CHANNEL_KEYS["max"], "max")
        at, has_span = place_in(settings, channel, "feed"), bool(channel.table.get("span"))
        judge_feed(path, most if is_number else MAX_NUMBER, at, report, has_span)


def judge_shared_feeds(settings: Settings, report: Report) -> None:
    """Two channels that would take one another's frames."""
    first: dict[tuple[int, int], str] = {}
    for channel in settings.channels:
        path = channel.path("feed")
        shared = None if path is None else shared_id(path)
        if shared is None:
            continue
        if shared in first:
            what = f"file {path}: the feed of {first[shared]} too, and what one of them reads the other lacks"
            report.fault(place_in(settings, channel, "feed"), what)
        first.setdefault(shared, channel.name)


def shared_id(path: str) -> Optional[tuple[int, int]]:
    """The device and the inode of a pipe or a device, from which no two channels can read; None of other files."""
    found = file_id(path)
    if found is None or stat.S_IFMT(os.stat(path).st_mode) in (stat.S_IFREG, stat.S_IFDIR):
        return None
    return found


def judge_capture(settings: Settings, channel: Channel, capture: str, report: Report) -> None:
    """How many frames of a feed the filter of a channel, which has one, keeps."""
    path, at = channel.path("filter") or "", place_in(settings, channel, "filter")
    with tempfile.TemporaryDirectory() as folder:
        made = Path(folder) / "settings.toml"
        table = f"[[channel]]\nid = 1\nfeed = {quoted(capture)}\nfilter = {quoted(path)}\n"
        made.write_text(table, encoding="utf-8")
        done = program.run("record", str(made), os.devnull)
    found = re.match(r"channel 1 versions 1 offered (\d+) kept (\d+) ", done.stdout)
    if found:
        report.note(at, f"filter {path} keeps {found[2]} of {found[1]} frames of {capture}")
    else:
        report.fault(at, f"{program.answer_of(done)}: filter {path} on {capture}")
