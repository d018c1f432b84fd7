"""Alarms that go out: as lines to systemd's journal, and to a program that is run for each that begins and ends.

Nothing waits for that program. One runs at a time, with no descriptor of live's, and is ended after a time; the others
wait, up to a number.
"""

from __future__ import annotations

import os
import signal
import subprocess
import time
from collections import deque
from contextlib import suppress
from typing import Callable, Optional, Sequence

from bpfrec_tools.live.model import KILLED
from bpfrec_tools.live.parts import children
from bpfrec_tools.live.parts.loop import Loop
from bpfrec_tools.live.parts.part import Part
from bpfrec_tools.live.reports.console import Console
from bpfrec_tools.live.said import said
from bpfrec_tools.live.status.alarms import ALARM, AlarmChange

# For how many seconds a program may run until TERM comes, and how much later KILL does. At the end of a run both have
# come after the first of them.
LONGEST, GRACE = 10.0, 1.0
# So many alarms wait at most.
MOST_WAITING = 256
BEGINS, ENDS = "begins", "ends"
# Stands for the channel of an alarm that is of none.
NO_CHANNEL = "-"


class AlarmCommand(Part):
    """Brings alarms out. `command` is the program with its own arguments; None where there is none."""

    def __init__(self, command: Optional[Sequence[str]], loop: Loop, console: Console) -> None:
        self.command, self.loop, self.console = list(command or []), loop, console
        self.waiting: deque[list[str]] = deque()
        self.left_out = 0
        self.child: Optional[children.Child] = None
        # When the next signal is due, whether one was sent, and when all is over at the end of a run.
        self.due = 0.0
        self.was_sent = False
        self.last: Optional[float] = None

    def take(self, change: AlarmChange) -> None:
        """An alarm or a warning has begun or ended."""
        if self.console.lines.is_journal:
            self.console.err(change.line())
        if not self.command or change.alarm.level != ALARM:
            return
        if len(self.waiting) >= MOST_WAITING:
            self.left_out += 1
            return
        self.waiting.append(arguments_of(change))
        self.begin_next()

    def err(self, what: str) -> None:
        """Tells what is wrong with the program."""
        self.console.err(said(f"--on-alarm: {self.command[0]} {what}"))

    # ---- the program

    def begin_next(self) -> None:
        """Starts the program for the alarm that has waited longest, where none runs."""
        while self.waiting and not self.child:
            self.start([*self.command, *self.waiting.popleft()])
        if self.left_out and not self.waiting:
            self.err(f"wasn't run for {self.left_out} alarms: {MOST_WAITING} waited")
            self.left_out = 0

    def start(self, arguments: list[str]) -> None:
        """Starts the program, or tells that this can't be done."""
        silent = subprocess.DEVNULL
        try:
            child = children.start(arguments, (silent, silent, silent), children.Manner(takes_signals=True))
        except (OSError, ValueError) as error:
            self.err(f"can't be started: {getattr(error, 'strerror', None) or error}")
            return
        now = time.monotonic()
        self.child, self.was_sent, self.due = child, False, now + LONGEST
        if self.last is not None:
            self.due = min(self.due, self.last - GRACE)
        self.loop.follow(child, self.program_ended)

    def program_ended(self, status: int) -> None:
        """The program has ended."""
        self.child = None
        if self.was_sent:
            self.err("ran for too long, and was ended")
        elif status > KILLED:
            self.err(f"was ended by signal {status - KILLED}")
        elif status:
            self.err(f"ended with status {status}")
        self.begin_next()

    def send(self, number: signal.Signals) -> None:
        """Sends a signal to the program and what it has started."""
        if self.child and self.child.status() is None:
            with suppress(OSError):
                os.killpg(self.child.pid, number)

    # ---- time

    def deadline(self) -> Optional[float]:
        """When the program is ended; None where none runs."""
        return self.due if self.child else None

    def tick(self, now: float) -> None:
        """Ends a program that has run for too long."""
        if self.child and now >= self.due:
            self.send(signal.SIGKILL if self.was_sent else signal.SIGTERM)
            self.was_sent, self.due = True, now + GRACE

    def finish(self, is_given_up: Callable[[], bool]) -> None:
        """Has the program run for what waits, for a time in all, unless nobody waits for that any more."""
        now = time.monotonic()
        self.last = now + LONGEST
        self.due = min(self.due, self.last - GRACE)
        while (self.child or self.waiting) and now < self.last + GRACE and not is_given_up():
            if now >= self.last - GRACE:
                self.drop()
            self.tick(now)
            self.loop.turn(max(0.0, self.due - now))
            now = time.monotonic()
        self.drop()
        self.send(signal.SIGKILL)

    def drop(self) -> None:
        """Gives up what waits."""
        if self.waiting:
            count = len(self.waiting) + self.left_out
            self.waiting.clear()
            self.left_out = 0
            self.err(f"wasn't run for {count} alarms: the run has ended")


def arguments_of(change: AlarmChange) -> list[str]:
    """The arguments that the program gets of an alarm."""
    channel = NO_CHANNEL if change.alarm.channel is None else str(change.alarm.channel)
    return [BEGINS if change.has_begun else ENDS, change.alarm.name.value, channel, change.alarm.text]
