"""Lines for systemd's journal, where it reads standard error: each begins with its priority, as sd-daemon(3) has it."""

from __future__ import annotations

import os
import re
from enum import Enum

from bpfrec_tools.cli import printing

STREAM = "JOURNAL_STREAM"


class Priority(Enum):
    """How bad it is what a line says, as sd-daemon(3) writes it."""

    ERROR = "<3>"
    WARNING = "<4>"
    NOTE = "<6>"


# What a line says by how it begins, the first that holds; all else of live, of the capture and of files is an error, and
# what remains is what was asked for.
KINDS = [
    (r"bpfrec live: clock: .*--require-clock", Priority.ERROR),
    (
        r"bpfrec live: (clock: synchronised|the next recording begins$|(alarm|warning) ended: |.* was removed: "
        r"|publish \S+: published packets )",
        Priority.NOTE,
    ),
    (
        r"bpfrec live: (clock: |warning: |next: |left of runs that were killed"
        r"|\d+ lines were left out|.* LOST |.* was moved to |its guard was ended |publish \S+: )",
        Priority.WARNING,
    ),
    (
        r"bpfrec capture: (origin \S+( from counter 0 on: counters have begun at 0 again)?$|\S+ frames \d+ |\S+ clock "
        r"|\S+ buffer \d+ MiB|.*: the adapter's clock |.*: it is (up again|back)$)",
        Priority.NOTE,
    ),
    (
        r"bpfrec capture: (origin |\S+ LOST |.*: it (is down|has no carrier), and |.*: the interface is gone, and "
        r"|it may write all "
        r"|.* (aren't|isn't) limited: |.*, and it goes on as before$|.*: the recorder alone runs it$"
        r"|.*: its frames have another time scale )",
        Priority.WARNING,
    ),
    (r"refused ", Priority.WARNING),
    (r"bpfrec (live|capture): |file |SourceFault |memory$", Priority.ERROR),
]


def priority_of(line: str) -> Priority:
    """How bad it is what a line says."""
    return next((priority for pattern, priority in KINDS if re.match(pattern, line)), Priority.NOTE)


def is_read_from(descriptor: int) -> bool:
    """Whether systemd's journal reads what is written there."""
    device, _, inode = os.environ.get(STREAM, "").partition(":")
    try:
        found = os.fstat(descriptor)
    except OSError:
        return False
    return (device, inode) == (str(found.st_dev), str(found.st_ino))


def with_priority(text: str) -> str:
    """A text of which each line begins with the priority of the first."""
    mark = priority_of(text).value
    return mark + text.replace("\n", f"\n{mark}")


def err(line: str) -> None:
    """Prints a line on standard error, before anything is recorded."""
    printing.err(with_priority(line) if is_read_from(2) else line)
