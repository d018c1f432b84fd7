"""How the files of recordings are created: never through a link, and never in another's place."""

from __future__ import annotations

import errno
import itertools
import os
import stat
from typing import NamedTuple, Optional

from bpfrec.formats.names import facts_path, signature_path
from bpfrec_tools.cli.files import is_locked
from bpfrec_tools.live.said import said

# Who may read a recording and its facts, but for what umask takes away.
USUAL_MODE = 0o640
# What a file's name ends with that gets its own once it is whole, and how many such names are tried.
FOLLOWING = ".new"
MOST_NAMES = 1_000


class Refusal(Exception):
    """Why nothing is begun, and the status for it."""

    def __init__(self, status: int, line: str) -> None:
        super().__init__(line)
        self.status, self.line = status, line

    def what(self) -> str:
        """The same without the name of live ahead."""
        return self.line.removeprefix("bpfrec live: ")


def refused(status: int, why: str) -> Refusal:
    """A refusal in live's own name; others have a line of the recorder's."""
    return Refusal(status, said(why))


def unreadable(path: str) -> Optional[str]:
    """Why a file can't be read; None where it can."""
    try:
        mode = os.stat(path).st_mode
    except (FileNotFoundError, NotADirectoryError):
        return f"{path}: no such file"
    except (OSError, ValueError):
        return f"{path}: it may not be read"
    if stat.S_ISDIR(mode):
        return f"{path}: it is a directory"
    return None if os.access(path, os.R_OK) else f"{path}: it may not be read"


def remove(path: str) -> None:
    """Removes a file that may be there."""
    try:
        os.unlink(path)
    except OSError:
        pass


def is_special(path: str) -> bool:
    """Whether a path is a pipe or a device, which is opened by its name."""
    try:
        mode = os.stat(path).st_mode
    except OSError:
        return False
    return not stat.S_ISREG(mode) and not stat.S_ISDIR(mode)


class Files(NamedTuple):
    """How files are created: the mode that they are given, or the usual one, less what umask takes away; and whether
    what is there is overwritten."""

    mode: Optional[int] = None
    is_forced: bool = False

    def create(self, path: str) -> int:
        """Creates a file, or with --force opens a regular one that is there, without emptying it: a descriptor."""
        flags = os.O_RDWR | os.O_NOFOLLOW | os.O_CLOEXEC | os.O_NOCTTY | os.O_NONBLOCK
        descriptor = self.open_there(path, flags) if self.is_forced else None
        if descriptor is None:
            descriptor = os.open(path, flags | os.O_CREAT | os.O_EXCL, USUAL_MODE)
        if self.mode is not None:
            os.fchmod(descriptor, self.mode)
        return descriptor

    def open_there(self, path: str, flags: int) -> Optional[int]:
        """Opens a regular file that is there; None where there is none."""
        try:
            return checked(os.open(path, flags), path)
        except FileNotFoundError:
            return None

    def refuse_overwriting(self, out: str, *beside: str) -> None:
        """Refuses an OUT that is there, which is another flight's, and so are the facts and what else is made beside
        it."""
        if is_special(out):
            return
        if os.path.isdir(out):
            raise refused(3, f"{out}: it is a folder")
        for path in (out, facts_path(out), signature_path(facts_path(out)), *beside):
            if os.path.lexists(path) and (not self.is_forced or os.path.islink(path)):
                raise refused(3, f"{path} is there: {advice(path, self.is_forced)}")
        if os.path.isfile(out) and is_locked(out):
            raise refused(3, f"{out}: another program writes it")


def created_beside(path: str, files: Files) -> tuple[str, int]:
    """Creates a file that is to take another one's place, under a name that nobody has: that and its descriptor."""
    for number in itertools.chain([""], range(2, MOST_NAMES)):
        following = f"{path}{FOLLOWING}{number}"
        try:
            return following, Files(files.mode).create(following)
        except FileExistsError:
            continue
    raise FileExistsError(errno.EEXIST, os.strerror(errno.EEXIST), f"{path}{FOLLOWING}")


def advice(path: str, is_forced: bool) -> str:
    """What to do about a file that is there."""
    return "it is a link, which is not followed" if is_forced else "give it another name, or --force"


def checked(descriptor: int, path: str) -> int:
    """A descriptor of a regular file."""
    if not stat.S_ISREG(os.fstat(descriptor).st_mode):
        os.close(descriptor)
        raise OSError(0, "it is no regular file", path)
    return descriptor


def refuse_folder(out: str) -> None:
    """Refuses an OUT in a folder that isn't there, or in which nothing can be created."""
    folder = os.path.dirname(out) or "."
    if not os.path.isdir(folder):
        raise refused(3, f"{out}: no such folder")
    if not os.access(folder, os.W_OK | os.X_OK):
        raise refused(3, f"{out}: nothing can be created in its folder")


def refuse_long(out: str, has_facts: bool, is_signed: bool = False) -> None:
    """Refuses an OUT whose name is longer than its disk takes, with what is behind it in the names of its facts and of
    their signature."""
    length = len(os.fsencode(os.path.basename(out)))
    longest = signature_path(facts_path(FOLLOWING)) if is_signed else facts_path(FOLLOWING)
    most = os.pathconf(os.path.dirname(out) or ".", "PC_NAME_MAX") - (len(longest) if has_facts else 0)
    if length > most:
        beside = " with its facts beside it" if has_facts else ""
        raise refused(3, f"{out}: its name has {length} bytes, and may have {most}{beside}")
