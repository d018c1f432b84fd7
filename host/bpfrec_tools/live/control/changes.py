"""Lines that change filters: from standard input, by the recorder, to the filters that later recordings begin with."""

from __future__ import annotations

import os
import re
from pathlib import Path
from typing import Callable, NamedTuple, Optional

from bpfrec.formats.listing import no_listing
from bpfrec_tools.cli.arguments import nearest
from bpfrec_tools.live.control.line_buffer import READ_LEN, LineBuffer
from bpfrec_tools.live.control.made_filters import MadeFilter
from bpfrec_tools.live.control.words import LINES, Asker, answer, word_of
from bpfrec_tools.live.kept.names import unreadable
from bpfrec_tools.live.kept.noted import note_filter
from bpfrec_tools.live.parts.expressions import is_in_words, name_of
from bpfrec_tools.live.parts.folder import Folder, copy_listing
from bpfrec_tools.live.reports.standard_streams import another
from bpfrec_tools.live.said import said

# A line that is longer is handed on in parts, and refused by the recorder.
MAX_LINE_LEN = 1 << 20
# So much may wait for the recorder until no further line is read.
MAX_WAITING = 1 << 16
SET = re.compile(rb"set ([0-9]{1,9}) (.+)", re.DOTALL)
# The same with a name in place of the ID, in quotes where it has blanks; the filter may be missing.
NAMED = re.compile(rb'set (?:"([^"]+)"|([^\s"]+))(?: (.*))?', re.DOTALL)
# The filter of all frames, as a line has it.
EMPTY = '""'
# So many lines of a terminal are read before any is taken.
MOST_READS = 64
# Makes the listing of a filter in words, in this file.
Make = Callable[[str, Path], MadeFilter]


class Input:
    """Standard input, where lines may be read from it: from no terminal of other programs, as in the background."""

    def __init__(self) -> None:
        found = another(0, os.O_RDONLY)
        self.descriptor: Optional[int] = 0 if found is None else found
        if os.isatty(0) and not is_foreground():
            self.descriptor = None
        self.buffer = LineBuffer()

    def read(self) -> None:
        """Reads what came. Where no more will come there is no descriptor any more."""
        # A terminal gives a line at a time, and has shown all that were typed or pasted.
        for _ in range(MOST_READS if self.descriptor is not None and os.isatty(self.descriptor) else 1):
            if self.descriptor is None or not self.read_part(self.descriptor):
                return

    def read_part(self, descriptor: int) -> bool:
        """Reads what is there: whether there was anything."""
        try:
            part = os.read(descriptor, READ_LEN)
        except BlockingIOError:
            return False
        except OSError:
            part = b""
        self.buffer.put(part)
        if not part or len(self.buffer.rest) > MAX_LINE_LEN:
            self.buffer.end_line()
        if not part:
            self.descriptor = None
        return bool(part)


def is_foreground() -> bool:
    """Whether the terminal of standard input reads lines for this program."""
    try:
        return os.tcgetpgrp(0) == os.getpgrp()
    except OSError:
        return False


def may_bring_lines() -> bool:
    """Whether a line may come on standard input: not where it is closed, /dev/null, or the terminal of others."""
    try:
        found, null = os.fstat(0), os.stat(os.devnull)
    except OSError:
        return False
    return found.st_rdev != null.st_rdev and (not os.isatty(0) or is_foreground())


class Change(NamedTuple):
    """A line that the recorder has and hasn't answered: the copy of the listing that it names, its channel, the filter's
    name, who asked, and the filter's words, where it has some, or else its file."""

    channel: int
    copy: Optional[Path]
    name: str = ""
    asker: Asker = None
    words: str = ""
    path: str = ""

    def why_refused(self, line: str) -> str:
        """What is wrong with its file, behind the recorder's answer; nothing where that isn't about a file."""
        kind = line.rpartition(" ")[2] if self.path else ""
        if kind == "Program":
            return f": bpfrec verify {self.path} says why"
        return f": {unreadable(self.path) or no_listing(self.path)}" if kind in ("File", "Listing") else ""


class Pipe:
    """The lines to a recorder, and its answers to them, in order."""

    def __init__(self) -> None:
        self.reader, self.writer = os.pipe2(os.O_CLOEXEC)
        os.set_blocking(self.writer, False)
        self.waiting = bytearray()
        self.unanswered: list[Change] = []
        self.is_ending = self.has_ended = False

    def put(self, line: bytes, change: Change) -> None:
        """Takes a line for the recorder, which gets it by `write`."""
        if not self.is_ending:
            self.unanswered.append(change)
            self.waiting += line + b"\n"

    def write(self) -> None:
        """Hands on what there is room for; a recorder that reads no lines any more answers none."""
        try:
            while self.waiting:
                del self.waiting[: os.write(self.writer, self.waiting)]
        except BlockingIOError:
            pass
        except OSError:
            self.waiting.clear()
            self.forget()

    def forget(self) -> None:
        """No line is answered any more: says so to who asked."""
        for change in self.unanswered:
            answer(change.asker, said("the recording ended ahead of an answer"), False)
        self.unanswered.clear()

    def close(self) -> None:
        """Closes the pipe."""
        self.is_ending = True
        self.waiting.clear()
        if not self.has_ended:
            self.has_ended = True
            os.close(self.writer)


class Held:
    """A line that no recorder has yet: what the recorder gets of it, a word, or a filter that is made first."""

    def __init__(self, line: bytes, change: Change = Change(0, None), made: Optional[MadeFilter] = None) -> None:
        self.line, self.change, self.made = line, change, made
        self.word = word_of(line)

    def is_ready(self) -> bool:
        """Whether all is known that it says."""
        return self.made is None or self.made.has_ended

    def fault(self) -> Optional[str]:
        """What is wrong with it, once that is known."""
        return said(f"{os.fsdecode(self.line)}: {self.made.fault}") if self.made and self.made.fault else None

    def asked(self) -> tuple[bytes, Change]:
        """The line for the recorder."""
        if self.made is None or self.change.copy is None:
            return self.line, self.change
        return set_line(self.change.channel, self.change.copy), self.change


def in_order(line: bytes) -> str:
    """A line whose word stands elsewhere than first, with that ahead; nothing where it has none."""
    words = os.fsdecode(line).split()
    found = next((it for it in words if it in LINES), None)
    return f": did you mean {' '.join([found, *(it for it in words if it != found)])}?" if found else ""


def set_line(channel: int, listing: Path) -> bytes:
    """The line that gives a channel the filter of a listing."""
    return b"set %d %s" % (channel, os.fsencode(listing))


class Changes:
    """Listings for the lines that change filters: copies of those that lines name, so that later recordings begin with
    the filters that were set, and those that are made of filters in words."""

    def __init__(self, folder: Folder, keeps: bool, make: Make) -> None:
        self.folder, self.keeps, self.make, self.count = folder, keeps, make, 0

    def by_id(self, line: bytes) -> bytes:
        """A line that names its channel by its name or its interface, with the ID in its place."""
        found = NAMED.fullmatch(line)
        names = {os.fsencode(it.interface): it.channel for it in self.folder.routes}
        names |= {os.fsencode(name): channel for channel, name in self.folder.names.items()}
        channel = names.get(found[1] or found[2]) if found else None
        return b"set %d %s" % (channel, found[3] or b"") if found and channel is not None else line

    def why_refused(self, line: bytes) -> Optional[str]:
        """What is wrong with a line of which that is known by now."""
        line = self.by_id(line)
        words, found = os.fsdecode(line).split(None, 2), NAMED.fullmatch(line)
        if not words or word_of(line):
            return None
        if words[0] in LINES and words[0] != "set":
            return f"{words[0]} stands alone"
        if words[0] != "set":
            return f"no line {words[0]}, and help has all{in_order(line) or nearest(words[0], LINES)}"
        known = [str(it.table.get("id")) for it in self.folder.settings.channels]
        if len(words) < 3:
            return "it needs a channel and a filter, as set 7 udp port 5004"
        channel = os.fsdecode(found[1] or found[2]) if found else words[1]
        *others, last = os.fsdecode(line).split()[1:]
        behind = f": the channel stands first, as set {last} {' '.join(others)}" if last in known else ""
        return None if channel in known else f"no channel {channel}: {', '.join(known)}{behind}"

    def held(self, line: bytes, asker: Asker = None) -> Held:
        """A line as it waits for the recorder."""
        line = self.by_id(line)
        found = SET.fullmatch(line)
        if not found:
            return Held(line, Change(0, None, asker=asker))
        channel, text = int(found[1]), os.fsdecode(found[2]).strip()
        text = "" if text == EMPTY else text
        copy, name = self.next_copy(), name_of(text)
        if is_in_words(text):
            return Held(line, Change(channel, copy, name=name, asker=asker, words=text), self.make(text, copy))
        if not self.keeps or not copy_listing(os.fsdecode(found[2]), copy):
            return Held(line, Change(channel, None, name=name, asker=asker, path=text))
        return Held(set_line(channel, copy), Change(channel, copy, name=name, asker=asker, path=text))

    def next_copy(self) -> Path:
        """The file of the next listing."""
        self.count += 1
        return self.folder.top / f"change_{self.count}"

    def answered(self, change: Change, is_installed: bool, folder: Path) -> None:
        """Keeps the listing of a line that the recorder took, and notes its words in the folder of the recording; another
        one's copy isn't wanted any more."""
        if change.copy is None:
            return
        if is_installed and change.words:
            note_filter(folder, change.channel, change.copy, change.words)
        if is_installed and self.keeps:
            change.copy.replace(self.folder.kept_filter(change.channel))
            self.folder.keep_words(change.channel, change.words)
        else:
            change.copy.unlink(missing_ok=True)
