"""The one loop of live: it waits for signals, streams, ends of programs and a moment, and calls who wants to know."""

from __future__ import annotations

import os
import selectors
import signal
from collections import deque
from types import FrameType
from typing import Callable, Optional, Protocol

from bpfrec_tools.live.parts.children import ENDING

Call = Callable[[], None]


def nothing(_: int, __: Optional[FrameType]) -> None:
    """Stands for a signal's default, so that its number is written to where the loop reads it."""


class Signals:
    """The signals that end live, from when this is made on: none is lost that comes before the loop runs."""

    def __init__(self) -> None:
        self.reader, self.writer = os.pipe2(os.O_NONBLOCK | os.O_CLOEXEC)
        signal.set_wakeup_fd(self.writer, warn_on_full_buffer=False)
        for number in ENDING:
            # HUP stays ignored, as nohup has it; a script that starts live in the background has INT ignored.
            if number != signal.SIGHUP or signal.getsignal(number) != signal.SIG_IGN:
                signal.signal(number, nothing)
        signal.signal(signal.SIGCHLD, nothing)
        for number in (signal.SIGTTIN, signal.SIGTTOU):
            signal.signal(number, signal.SIG_IGN)

    def ignore(self) -> None:
        """Has those that come from now on do nothing: all is over, and Python would be ended by one as it ends."""
        for number in ENDING:
            signal.signal(number, signal.SIG_IGN)

    def come(self) -> list[int]:
        """The signals that came, but for ends of programs."""
        try:
            return [it for it in os.read(self.reader, 4_096) if it in ENDING]
        except BlockingIOError:
            return []


class Followed(Protocol):
    """A process whose end is told by its descriptor, where it has one."""

    descriptor: Optional[int]

    def status(self) -> Optional[int]:
        """Its status; None while it runs."""

    def close(self) -> None:
        """Closes the descriptor."""


class Loop:
    """Who is called when what happens."""

    def __init__(self, signals: Signals, ended_by: Call) -> None:
        self.selector = selectors.PollSelector()
        self.children: list[tuple[Followed, Callable[[int], None]]] = []
        self.calls: deque[Call] = deque()
        self.wake_reader, self.wake_writer = os.pipe2(os.O_NONBLOCK | os.O_CLOEXEC)
        self.signals, self.ended_by = signals, ended_by
        self.on_read(signals.reader, self.take_signals)
        self.on_read(self.wake_reader, self.take_calls)

    # ---- who is called

    def on_read(self, descriptor: int, call: Optional[Call]) -> None:
        """Calls where a descriptor has something to read; None ends that."""
        self.change(descriptor, selectors.EVENT_READ, call)

    def on_room(self, descriptor: int, call: Optional[Call]) -> None:
        """Calls where a descriptor has room for bytes; None ends that."""
        self.change(descriptor, selectors.EVENT_WRITE, call)

    def change(self, descriptor: int, event: int, call: Optional[Call]) -> None:
        """Registers a descriptor, or no longer."""
        is_there = descriptor in self.selector.get_map()
        if call is None:
            if is_there:
                self.selector.unregister(descriptor)
        elif is_there:
            self.selector.modify(descriptor, event, call)
        else:
            self.selector.register(descriptor, event, call)

    def follow(self, child: Followed, ended: Callable[[int], None]) -> None:
        """Calls with a program's status once it has ended."""
        self.children.append((child, ended))
        if child.descriptor is not None:
            self.on_read(child.descriptor, self.reap)

    def call_soon(self, call: Call) -> None:
        """Has something called by the loop, from any thread."""
        self.calls.append(call)
        try:
            os.write(self.wake_writer, b"x")
        except BlockingIOError:
            # It is awake.
            pass

    # ---- what happens

    def take_signals(self) -> None:
        """Tells of signals."""
        for _ in self.signals.come():
            self.ended_by()
        # Where the system has no descriptors of programs, SIGCHLD tells of an end.
        self.reap()

    def take_calls(self) -> None:
        """Calls what threads asked for."""
        try:
            os.read(self.wake_reader, 4_096)
        except BlockingIOError:
            pass
        while self.calls:
            self.calls.popleft()()

    def reap(self) -> None:
        """Tells of programs that have ended."""
        for entry in list(self.children):
            child, ended = entry
            status = child.status()
            if status is not None:
                self.children.remove(entry)
                if child.descriptor is not None:
                    self.on_read(child.descriptor, None)
                child.close()
                ended(status)

    def turn(self, seconds: Optional[float]) -> None:
        """Waits until something happens, at most so long, and calls who wants to know."""
        for key, _ in self.selector.select(seconds):
            # A call before may have closed it, and another one may have its number by now.
            now = self.selector.get_map().get(key.fd)
            if now is not None and now.data is key.data:
                key.data()
