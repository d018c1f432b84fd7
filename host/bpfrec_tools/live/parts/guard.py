"""A process that waits for live's end: where live was killed, what it left ends whole, and nothing of it stays."""

from __future__ import annotations

import json
import os
import select
import signal
from pathlib import Path
from typing import Any, Optional, Sequence

from bpfrec.formats.names import facts_path
from bpfrec_tools.live.kept.facts import KILLED_STATUS, About, Writer
from bpfrec_tools.live.parts.children import ENDING, Child, Holder, Manner, Stream, close, opened, start, status_of
from bpfrec_tools.live.parts.events import Events

# How often the pipes are opened for which a recorder may wait, in seconds.
PAUSE = 0.05


class Guard(Holder):
    """The guard, as live has it, with the descriptor by which its end is told. Live ends it by `dismiss`; else it acts
    once live has died.

    Two pipes tell it of ends: one that live alone has open, and one that each program that live starts has open too. Two
    others tell the kernel: one that live alone has open, and one that the guard has open too.
    """

    def __init__(self, writer: Writer) -> None:
        own_reader, self.own = os.pipe()
        try:
            all_reader, self.all = os.pipe()
            self.either_reader, self.either = os.pipe()
            self.live_reader, self.live = os.pipe()
            self.pid = os.fork()
        except OSError:
            close(own_reader)
            close(self.own)
            raise
        if self.pid == 0:
            os.close(self.own)
            os.close(self.all)
            try:
                watch(writer, own_reader, all_reader, self.either)
            finally:
                os._exit(0)
        os.close(own_reader)
        os.close(all_reader)
        super().__init__(opened(self.pid))
        self.code: Optional[int] = None

    def lifeline_of_both(self) -> int:
        """A descriptor of its own of the pipe that has no writer any more once live and the guard have died."""
        return reopened(self.either_reader)

    def start(
        self,
        arguments: Sequence[str],
        streams: tuple[Stream, Stream, Stream],
        kept: Sequence[int] = (),
        environment: Optional[dict[str, str]] = None,
    ) -> Child:
        """Starts a program that ends where live dies: by the pipe that has no writer any more then."""
        with open(reopened(self.live_reader), "rb", buffering=0) as lifeline:
            return start(arguments, streams, Manner(kept, ends_with=lifeline.fileno()), environment)

    def status(self) -> Optional[int]:
        """Its status; None while it runs."""
        if self.code is None:
            found, code = os.waitpid(self.pid, os.WNOHANG)
            self.code = status_of(os.waitstatus_to_exitcode(code)) if found else None
        return self.code

    def dismiss(self) -> None:
        """Ends the guard, since live has ended all itself."""
        try:
            os.write(self.own, b"x")
        except OSError:
            # It was killed.
            pass
        if self.code is None:
            os.waitpid(self.pid, 0)


def reopened(reader: int) -> int:
    """Another descriptor of a pipe that is read, with settings of its own."""
    return os.open(f"/proc/self/fd/{reader}", os.O_RDONLY | os.O_NONBLOCK | os.O_CLOEXEC)


def watch(writer: Writer, own: int, everybody: int, either: int) -> None:
    """Waits for live's end, in the process of the guard."""
    os.setpgid(0, 0)
    for number in (*ENDING, signal.SIGTTOU):
        signal.signal(number, signal.SIG_IGN)
    # So that there is one, where they are short.
    close(0)
    for descriptor in (int(it) for it in os.listdir("/proc/self/fd")):
        if descriptor not in (own, everybody, either):
            close(descriptor)
    for _ in range(3):
        os.open(os.devnull, os.O_RDWR)
    if os.read(own, 1):
        return
    writer.folder.hold()
    end_rest(writer.folder.top, everybody)
    for about in sorted(writer.folder.top.glob("*/about.json")):
        write_facts(writer, about.parent)
    writer.folder.remove_all()


def end_rest(top: Path, everybody: int) -> None:
    """Waits until all programs that live started have ended. The capture ends as by TERM, and the recorders with their
    pipes; one that still opens its pipes is let go."""
    while not select.select([everybody], [], [], PAUSE)[0]:
        for pipe in top.glob("[0-9]*/*.pipe"):
            open_and_close(pipe)


def open_and_close(pipe: Path) -> None:
    """Opens a pipe to write and closes it, which lets go whoever waits for its writer."""
    try:
        os.close(os.open(pipe, os.O_RDWR | os.O_NONBLOCK | os.O_CLOEXEC))
    except OSError:
        pass


def write_facts(writer: Writer, made: Path) -> None:
    """Writes the last facts of a recording of which nobody else will."""
    events = Events(writer.folder.events)
    events.read()
    try:
        about = About(*json.loads((made / "about.json").read_bytes()))
        earlier = facts_beside(about.out)
        if events.origins and os.path.isfile(about.out) and earlier.get("state") != "ended":
            noted = {**events.facts(about.feed), "sync_fault": earlier.get("sync_fault")}
            writer.write(about, noted, KILLED_STATUS)
    except (OSError, ValueError, TypeError):
        pass


def facts_beside(out: str) -> dict[str, Any]:
    """The facts that are beside a recording; nothing where there are none."""
    try:
        with open(facts_path(out), "rb") as file:
            found = json.load(file)
    except (OSError, ValueError):
        return {}
    return found if isinstance(found, dict) else {}
