"""OUT, and the memory that a recording takes."""

from __future__ import annotations

import os
import re
import stat
from pathlib import Path
from typing import Optional

from bpfrec.formats.limits import BUFFERS_BESIDE_RING, TOP_KEYS
from bpfrec.formats.settings import Channel, Settings, number_fault
from bpfrec_tools.cli.files import file_id, is_locked
from bpfrec_tools.cli.quantities import size_text
from bpfrec_tools.preflight.report import Report, place

# A disk with fewer bytes free is full: a recording has hardly begun where it ends.
LEAST_ROOM = 1 << 20


def judge_memory(settings: Settings, report: Report) -> None:
    """The buffers of all channels, beside the memory that is available."""
    limit, ring = (settings.document.get(key, TOP_KEYS[key].default) for key in ("limit", "ring"))
    if number_fault(limit, TOP_KEYS["limit"], "limit") or number_fault(ring, TOP_KEYS["ring"], "ring"):
        return
    channels, buffers = len(settings.channels), ring + BUFFERS_BESIDE_RING
    total, available = channels * buffers * limit, available_memory()
    parts = f"channels {channels}, of each {buffers}, of {limit} bytes"
    what = f"buffers of at most {size_text(total)} ({total} bytes; {parts})"
    if available is None:
        report.note(settings.file, f"{what}; /proc/meminfo doesn't say how many are available")
    elif total > available:
        report.fault(settings.file, f"memory: {what}, and {bytes_text(available)} are available")
    else:
        report.note(settings.file, f"{what}, and {bytes_text(available)} are available")


def available_memory() -> Optional[int]:
    """How many bytes of memory programs may still take, as Linux estimates; None where it doesn't say."""
    try:
        text = Path("/proc/meminfo").read_text(encoding="utf-8")
    except OSError:
        return None
    found = re.search(r"^MemAvailable:\s*(\d+) kB$", text, re.MULTILINE)
    return int(found[1]) * 1024 if found else None


def judge_out(out: str, settings_file: str, channels: list[Channel], report: Report) -> None:
    """Whether a recording can be written to OUT, without a loss of an input."""
    if is_input_beside(out, settings_file, channels, report):
        return
    folder = os.path.dirname(os.path.realpath(out))
    if os.path.isdir(out):
        report.fault(out, f"file {out}: a directory")
    elif not os.path.basename(out):
        report.fault(out, f"file {out}: no name of a file")
    elif os.path.exists(out):
        judge_old_out(out, folder, report)
    elif not os.path.isdir(folder):
        report.fault(out, f"file {out}: its folder is missing")
    elif not os.access(folder, os.W_OK | os.X_OK):
        report.fault(out, f"file {out}: forbidden")
    else:
        judge_room(out, folder, "", report)


def judge_old_out(out: str, folder: str, report: Report) -> None:
    """An OUT that is there."""
    mode = os.stat(out).st_mode
    if stat.S_ISSOCK(mode):
        report.fault(out, f"file {out}: a socket")
    elif not os.access(out, os.W_OK):
        report.fault(out, f"file {out}: forbidden")
    elif stat.S_ISREG(mode) and is_locked(out):
        report.fault(out, f"file {out}: another program writes it")
    elif stat.S_ISREG(mode):
        told = f"is there with {os.path.getsize(out)} bytes, and will be emptied; "
        judge_room(out, folder, told, report)
    else:
        report.note(out, f"is a {'pipe' if stat.S_ISFIFO(mode) else 'device'} and was not opened")


def judge_room(out: str, folder: str, told: str, report: Report) -> None:
    """How much room the disk of OUT has, which may be none; an OUT that is emptied makes its own."""
    status, own = os.statvfs(folder), os.path.getsize(out) if told else 0
    free = status.f_bavail * status.f_frsize
    if free + own < LEAST_ROOM:
        report.fault(out, f"file {out}: {told}its disk is full: {bytes_text(free)} are free")
    else:
        report.note(out, f"{told}{bytes_text(free)} are free on its disk")


def bytes_text(count: int) -> str:
    """A number of bytes, for people and as it is."""
    return f"{size_text(count)} ({count} bytes)"


def is_input_beside(out: str, settings_file: str, channels: list[Channel], report: Report) -> bool:
    """Whether OUT is a file or a pipe that the recording reads, which is told."""
    out_id = file_id(out)
    if out_id is None or stat.S_IFMT(os.stat(out).st_mode) not in (stat.S_IFREG, stat.S_IFIFO):
        return False
    found = [(out, "the output is the settings")] if out_id == file_id(settings_file) else []
    for channel, key in ((it, key) for it in channels for key in ("filter", "feed")):
        path = channel.path(key)
        if path is not None and out_id == file_id(path):
            found.append((place(out, None, channel.name), f"the output is this channel's {key}, {path}"))
    for at, what in found:
        report.fault(at, f"file {out}: {what}")
    return bool(found)
