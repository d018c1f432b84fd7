"""Whole Chapter 11 files of a run's recordings: each is made once its recording is approved and on its disk.

One is made at a time, by bpfrec export, which ends with live, and gets its name once it is whole. What goes wrong is
told, and spoils no recording.
"""

from __future__ import annotations

import errno
import os
import subprocess
import tempfile
from collections import deque
from dataclasses import dataclass, field
from typing import IO, Callable, Optional

from bpfrec.formats.names import whole_path
from bpfrec_tools.cli.program import command_of
from bpfrec_tools.cli.streams import force_folder_of
from bpfrec_tools.live.kept.names import Files, created_beside, remove
from bpfrec_tools.live.kept.retention import Kept
from bpfrec_tools.live.model import KILLED
from bpfrec_tools.live.parts import children
from bpfrec_tools.live.parts.guard import Guard
from bpfrec_tools.live.parts.loop import Loop
from bpfrec_tools.live.run.engine import FILE_FAULT
from bpfrec_tools.live.said import said

# How much of what the tool told is read.
MOST_TOLD = 1 << 16
GIVEN_UP = "the run was ended"
MEBIBYTE = 1 << 20


@dataclass
class Job:
    """A file that is being made: of which recording, under which name until it is whole, and what the tool prints into.
    One whose recording has to go has the reason, and what removes that."""

    kept: Kept
    out: str
    following: str
    told: IO[bytes]
    has_to_go: str = ""
    remove: Callable[[], None] = field(default=lambda: None)


class WholeFiles:
    """Makes them, with these options of bpfrec export; None where none are wanted. `err` takes a line for who
    watches."""

    def __init__(
        self, options: Optional[list[str]], files: Files, loop: Loop, guard: Guard, err: Callable[[str], None]
    ) -> None:
        self.options, self.files, self.loop, self.guard, self.err = options, files, loop, guard, err
        self.waiting: deque[Kept] = deque()
        self.child: Optional[children.Child] = None
        self.job: Optional[Job] = None
        self.is_given_up = False
        # That of the first that couldn't be made.
        self.status = 0

    def add(self, kept: Kept) -> None:
        """A recording is approved, and on its disk with its facts."""
        if self.options is not None:
            self.waiting.append(kept)
            self.begin_next()

    def let_go(self, out: str, why: str, go: Callable[[], None]) -> None:
        """A recording has to go, with a whole file or without: it is removed once the tool doesn't read it."""
        if self.job and self.job.kept.out == out:
            self.job.has_to_go, self.job.remove = why, go
            children.kill(self.child)
            return
        if any(it.out == out for it in self.waiting):
            self.waiting = deque(it for it in self.waiting if it.out != out)
            self.fail(whole_path(out), why)
        go()

    def awaited(self) -> str:
        """What isn't made yet: nothing where all is."""
        more = f", and {len(self.waiting)} more" if self.waiting else ""
        return f"{self.job.out}, the whole file{more}" if self.job else ""

    def begin_next(self) -> None:
        """Starts with the recording that has waited longest, where none is in work."""
        while self.waiting and not self.child:
            self.start(self.waiting.popleft())

    def start(self, kept: Kept) -> None:
        """Starts the tool for a recording, or tells that this can't be done."""
        out = whole_path(kept.out)
        try:
            self.refuse_there(out)
            following, descriptor = created_beside(out, self.files)
            os.close(descriptor)
            job = Job(kept, out, following, tempfile.TemporaryFile())
            self.child, self.job = self.started(job), job
        except OSError as error:
            self.fail(out, error.strerror or str(error), FILE_FAULT)
            return
        self.loop.follow(self.child, lambda status: self.end(job, status))

    def refuse_there(self, out: str) -> None:
        """Refuses a file that came meanwhile, which --force alone replaces."""
        if os.path.lexists(out) and not self.files.is_forced:
            raise FileExistsError(errno.EEXIST, os.strerror(errno.EEXIST), out)

    def started(self, job: Job) -> children.Child:
        """Starts the tool, which prints into a file."""
        paths = (os.path.abspath(job.kept.out), os.path.abspath(job.following))
        words = [*command_of("export"), "--as=chapter11", "--force", *(self.options or []), "--", *paths]
        try:
            return self.guard.start(words, (subprocess.DEVNULL, job.told, subprocess.STDOUT), [self.guard.all])
        except OSError:
            remove(job.following)
            raise

    def end(self, job: Job, status: int) -> None:
        """The tool has ended."""
        self.child = self.job = None
        with job.told:
            job.told.seek(0)
            lines = os.fsdecode(job.told.read(MOST_TOLD)).splitlines()
        if status:
            self.fail(job.out, self.why_not_made(job, status, lines), 0 if job.has_to_go else status)
        else:
            self.name(job, lines[-1] if lines else "made")
        remove(job.following)
        job.remove()
        self.begin_next()

    def name(self, job: Job, told: str) -> None:
        """Gives a file that is whole its name."""
        try:
            self.refuse_there(job.out)
            os.replace(job.following, job.out)
            force_folder_of(job.out)
        except OSError as error:
            self.fail(job.out, error.strerror or str(error), FILE_FAULT)
            return
        self.err(said(f"{job.out}: {told}"))
        job.kept.beside.append(job.out)

    def why_not_made(self, job: Job, status: int, lines: list[str]) -> str:
        """Why the tool made no file."""
        ended = f"it was ended by signal {status - KILLED}" if status > KILLED else f"status {status}"
        why = lines[-1] if lines else ended
        if status == FILE_FAULT and why == f"file {os.path.abspath(job.following)}":
            why = f"file {os.path.abspath(job.out)}: {why_unwritten(job.following)}"
        return job.has_to_go or (GIVEN_UP if self.is_given_up else why)

    def fail(self, out: str, why: str, status: int = 0) -> None:
        """Tells that a file couldn't be made, which is no fault where its recording had to go."""
        self.status = self.status or status
        self.err(said(f"{out} isn't made: {why}"))

    def finish(self, turn: Callable[[], None], is_given_up: Callable[[], bool]) -> None:
        """Waits until all are made, unless nobody waits for that any more."""
        while (self.child or self.waiting) and not is_given_up():
            turn()
        self.is_given_up = True
        for kept in self.waiting:
            self.fail(whole_path(kept.out), GIVEN_UP, FILE_FAULT)
        self.waiting.clear()
        children.kill(self.child)
        while self.child:
            turn()


def why_unwritten(path: str) -> str:
    """Why a file takes no more bytes, which is tried; its writer doesn't say it."""
    try:
        with open(path, "ab") as file:
            file.write(bytes(MEBIBYTE))
            file.flush()
            os.fsync(file.fileno())
    except OSError as error:
        return error.strerror or str(error)
    return "nobody knows why"
