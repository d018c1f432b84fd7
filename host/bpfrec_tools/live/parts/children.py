"""Programs that live starts: each in a session of its own, so that no signal of a terminal reaches it that was meant for
live."""

from __future__ import annotations

import os
import signal
import subprocess
from typing import IO, NamedTuple, Optional, Sequence, Union

from bpfrec_tools.live.model import KILLED
from bpfrec_tools.live.parts import system


class Holder:
    """What holds a descriptor; None where there was none to be had, or it is closed."""

    def __init__(self, descriptor: Optional[int]) -> None:
        self.descriptor = descriptor

    def close(self) -> None:
        """Closes the descriptor."""
        if self.descriptor is not None:
            os.close(self.descriptor)
            self.descriptor = None


def close(descriptor: int) -> None:
    """Closes a descriptor that may be closed."""
    try:
        os.close(descriptor)
    except OSError:
        pass


# What ends live, and what it sends the capture.
ENDING = (signal.SIGINT, signal.SIGTERM, signal.SIGHUP)
# A program is started with these blocked: one of them would cut a recording or an audit, and the capture takes them once
# it is ready, so that none is lost before.
HELD = (*ENDING, signal.SIGUSR1, signal.SIGUSR2)
Stream = Union[int, IO[bytes]]


class Manner(NamedTuple):
    """How a program is started: the descriptors that it keeps, the pipe without whose writers it is killed, which it
    keeps too, whether it gets live's capabilities, and whether signals end it, as they do a program of a user's."""

    kept: Sequence[int] = ()
    ends_with: Optional[int] = None
    has_capabilities: bool = False
    takes_signals: bool = False


class Child(Holder):
    """A program that was started, with the descriptor by which its end is told. Its status is as shells have it: 128
    and the number of the signal that ended it."""

    def __init__(self, process: subprocess.Popen[bytes]) -> None:
        super().__init__(opened(process.pid))
        self.process, self.pid = process, process.pid

    def status(self) -> Optional[int]:
        """The status; None while it runs."""
        code = self.process.poll()
        return None if code is None else status_of(code)

    def send(self, number: signal.Signals) -> None:
        """Sends a signal; a program that has ended gets none."""
        if self.process.poll() is None:
            self.process.send_signal(number)


def kill(child: Optional[Child]) -> None:
    """Kills a program, where one was started."""
    if child:
        child.send(signal.SIGKILL)


def status_of(code: int) -> int:
    """The status by an exit code of Python, which is negative where a signal ended a program."""
    return code if code >= 0 else KILLED - code


def opened(process: int) -> Optional[int]:
    """A descriptor that can be read once a process has ended; None where the system has none."""
    try:
        return os.pidfd_open(process)
    except (AttributeError, OSError):
        return None


def start(
    arguments: Sequence[str],
    streams: tuple[Stream, Optional[Stream], Optional[Stream]],
    manner: Manner,
    environment: Optional[dict[str, str]] = None,
) -> Child:
    """Starts a program with these three streams; None is the stream of live, and its environment."""
    kept = [*manner.kept, *([] if manner.ends_with is None else [manner.ends_with])]
    before = signal.pthread_sigmask(signal.SIG_SETMASK, () if manner.takes_signals else HELD)
    try:
        with system.capabilities_of_children(manner.has_capabilities):
            # SIGXFSZ stays ignored of ours, as Python has it: a limit of the size of files is told as a failed output.
            process = subprocess.Popen(
                arguments,
                stdin=streams[0],
                stdout=streams[1],
                stderr=streams[2],
                pass_fds=kept,
                restore_signals=manner.takes_signals,
                start_new_session=True,
                env=environment,
            )
        if manner.ends_with is not None:
            system.end_at_hangup(process.pid, manner.ends_with)
        return Child(process)
    finally:
        signal.pthread_sigmask(signal.SIG_SETMASK, before)
