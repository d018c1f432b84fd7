"""Files and pipes that are read and written: which are refused, and how what is written gets to its disk."""

from __future__ import annotations

import errno
import os
import shutil
import stat
import tempfile
from contextlib import contextmanager
from typing import BinaryIO, Iterable, Iterator, Optional, cast

from bpfrec.formats import facts
from bpfrec.formats.facts import Facts
from bpfrec.formats.guesses import guess_at
from bpfrec.formats.held import File
from bpfrec.formats.names import facts_path
from bpfrec_tools.cli import printing
from bpfrec_tools.cli.ending import Refused as Refused
from bpfrec_tools.cli.files import STREAM as STREAM
from bpfrec_tools.cli.files import lock

# What is said of an empty recording.
NO_PACKET = "it is empty: there is no packet"
# So many parts at most wait for a write.
PARTS_A_WRITE = 256


def force(out: BinaryIO) -> None:
    """Forces a file to its disk; a pipe or a device that says that it can't be is skipped."""
    out.flush()
    force_descriptor(out.fileno())


def force_descriptor(descriptor: int) -> None:
    """The same, of an open file whose bytes were written."""
    try:
        os.fsync(descriptor)
    except OSError as error:
        if error.errno != errno.EINVAL:
            raise


def force_folder(folder: str) -> None:
    """Forces a folder to its disk, so that a new file's name is there; one that may not be read can't be forced."""
    try:
        descriptor = os.open(folder, os.O_RDONLY | os.O_DIRECTORY)
    except PermissionError:
        return
    try:
        force_descriptor(descriptor)
    finally:
        os.close(descriptor)


def force_folder_of(path: str) -> None:
    """Forces the folder of a new file to its disk."""
    force_folder(os.path.dirname(os.path.realpath(path)))


@contextmanager
def created(path: str, buffered: int = -1) -> Iterator[BinaryIO]:
    """A file that is emptied, and whose folder is forced where it is new, or standard output; a fault that has no other
    name has that of the file."""
    is_new = path != STREAM and not os.path.exists(path)
    try:
        with open(1 if path == STREAM else path, "wb", buffered, closefd=path != STREAM) as out:
            if is_new:
                force_folder_of(path)
            yield out
    except OSError as error:
        error.filename = error.filename or path
        raise


class Unreadable(Refused):
    """Facts that can't be read."""

    status = 3


class Taken(Refused):
    """An output that exists, and that may not be overwritten."""

    status = 3


def identity(path: str, stream: int) -> Optional[tuple[int, int]]:
    """What tells a file or a pipe from all others, by its path or as a standard stream; None of a device, and where
    there is nothing."""
    try:
        found = os.fstat(stream) if path == STREAM else os.stat(path)
    except (OSError, ValueError):
        return None
    is_kept = stat.S_ISREG(found.st_mode) or stat.S_ISFIFO(found.st_mode)
    return (found.st_dev, found.st_ino) if is_kept else None


def input_at(out: str, inputs: Iterable[str]) -> Optional[str]:
    """The input that an output is, also by another name; `-` is standard output there and standard input here."""
    taken = identity(out, 1)
    return next((it for it in inputs if taken and identity(it, 0) == taken), None)


def refuse_inputs(inputs: Iterable[str], *outs: Optional[str]) -> None:
    """Refuses an output that is an input, into which it would be written."""
    names = list(inputs)
    for out in filter(None, outs):
        taken = input_at(out, names)
        if taken:
            raise Taken(f"{out}: it is {'standard input' if taken == STREAM else taken} itself")


def refuse_overwriting(out: str, is_forced: bool) -> None:
    """Refuses a file that exists, unless it may be overwritten; a recording with its facts beside it may not."""
    if out == STREAM or not os.path.isfile(out):
        return
    if os.path.exists(facts_path(out)):
        raise Taken(f"{out} is a recording, with its facts beside it: give OUT another name")
    if not is_forced:
        raise Taken(f"{out} is there: give it another name, or --force")


def refuse_twice(paths: Iterable[str]) -> None:
    """Refuses a file that is given twice, also by another name."""
    known: dict[tuple[int, int], str] = {}
    for path in paths:
        found = identity(path, 0)
        if found in known:
            raise Refused(f"{path}: it is given twice" + (f", as {known[found]} too" if known[found] != path else ""))
        if found:
            known[found] = path


def refuse_strange(paths: Iterable[str]) -> None:
    """Refuses what is no recording, as a capture or a text is, and recordings of which none has a packet."""
    given = list(paths)
    for path, guess in ((it, guess_at(it)) for it in given):
        if guess:
            raise Refused(f"{path}: no recording{guess}")
    if all(os.path.isfile(it) and not os.path.getsize(it) for it in given):
        raise Refused(f"{given[0]}: {NO_PACKET}")


def readable(path: str) -> File:
    """A file of which parts can be read: a regular one, or standard input, of which a pipe is copied into an unnamed
    file first."""
    if path == STREAM:
        given = open(0, "rb", closefd=False)
        return File(path, given if stat.S_ISREG(os.fstat(0).st_mode) else copied(given))
    # Before it is opened, since a pipe would be waited for.
    if not stat.S_ISREG(os.stat(path).st_mode):
        raise Refused(f"{path}: it is no regular file, of which parts could be read")
    return File(path, open(path, "rb"))


def copied(given: BinaryIO) -> BinaryIO:
    """An unnamed file that has what a pipe gives."""
    made = cast(BinaryIO, tempfile.TemporaryFile())
    shutil.copyfileobj(given, made)
    made.seek(0)
    return made


def facts_at(path: str) -> Facts:
    """The facts in a file, or on standard input."""
    try:
        return facts.read(0 if path == STREAM else path)
    except OSError as error:
        raise Unreadable(f"{path}: {error.strerror}") from None
    except facts.NoFacts as fault:
        raise Refused(f"{path}: no facts of a recording: {fault}") from None


class Output:
    """A file that is written in large pieces."""

    def __init__(self, path: str, is_forced: bool = False) -> None:
        self.name = path
        self.parts: list[bytes] = []
        refuse_overwriting(path, is_forced)
        try:
            self.descriptor = 1 if path == STREAM else self.create()
        except OSError as fault:
            raise Refused(f"{path}: {fault.strerror}") from None

    def create(self) -> int:
        """The descriptor of the file; a regular one is locked, so that one program at a time writes it, and emptied."""
        is_new = not os.path.exists(self.name)
        descriptor = os.open(self.name, os.O_WRONLY | os.O_CREAT, 0o666)
        if stat.S_ISREG(os.fstat(descriptor).st_mode):
            if not lock(descriptor):
                os.close(descriptor)
                raise Taken(f"{self.name}: another program writes it")
            os.ftruncate(descriptor, 0)
        if is_new:
            force_folder_of(self.name)
        return descriptor

    def write(self, part: bytes) -> None:
        """Takes a part, which is written with others."""
        self.parts.append(part)
        if len(self.parts) >= PARTS_A_WRITE:
            self.flush()

    def flush(self) -> None:
        """Writes all parts that were taken."""
        left = memoryview(b"".join(self.parts))
        self.parts.clear()
        try:
            while left:
                left = left[os.write(self.descriptor, left) :]
        except OSError as fault:
            raise Refused(f"{self.name}: {fault.strerror}") from None

    def close(self) -> None:
        """Writes what is left, forces the file to its disk, and closes it."""
        self.flush()
        try:
            if self.descriptor != 1:
                force_descriptor(self.descriptor)
                os.close(self.descriptor)
        except OSError as fault:
            raise Refused(f"{self.name}: {fault.strerror}") from None

    def report(self, line: str) -> None:
        """Prints what was done: on standard output, or on standard error where that is the output itself."""
        if self.name == STREAM:
            printing.err(line)
            return
        try:
            printing.out(f"{line}\n")
        except OSError as fault:
            raise Refused(f"-: {fault.strerror}") from None
