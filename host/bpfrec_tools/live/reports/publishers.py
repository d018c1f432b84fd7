"""What publishes a run: for each address a bpfrec publish, which follows its recordings and is begun again where it dies.

The recording waits for none of them, and its status isn't changed by one.
"""

from __future__ import annotations

import os
import re
import signal
import subprocess
import time
from typing import Callable, Optional

from bpfrec_tools.cli.program import command_of
from bpfrec_tools.live.model import KILLED
from bpfrec_tools.live.parts import children
from bpfrec_tools.live.parts.child_lines import ChildLines
from bpfrec_tools.live.parts.guard import Guard
from bpfrec_tools.live.parts.loop import Loop
from bpfrec_tools.live.parts.part import Part
from bpfrec_tools.live.parts.recorder import Recorder
from bpfrec_tools.live.run.ports import Sent
from bpfrec_tools.live.said import said
from bpfrec_tools.live.targets import Target

# By how much it is behind what records.
NICE = 5
# Seconds until one that died is begun again, when a receiver takes another sender. They double up to so many times where
# it dies soon. For how long it has to run so that it didn't; and for how many seconds it may send what is left at the end
# of a run.
AGAIN_AFTER, MOST_DOUBLINGS, LONG, LAST = 2.0, 4, 60.0, 2.0
COUNTS = re.compile(r"datagrams ([0-9]+) lost ([0-9]+) late ([0-9]+)")
# Takes what was sent to an address by now; None where its publisher has died.
Observe = Callable[[str, Optional[Sent]], None]


class Publisher:
    """Publishes a run at one address."""

    def __init__(self, target: Target, loop: Loop, guard: Guard, err: Callable[[str], None], observe: Observe) -> None:
        self.target, self.loop, self.guard = target, loop, guard
        self.print_line, self.observe = err, observe
        self.child: Optional[children.Child] = None
        self.pipes: list[ChildLines] = []
        # The recording that goes on, when it was begun last and is begun again, and how often it has died soon.
        self.out: Optional[str] = None
        self.begun = 0.0
        self.due: Optional[float] = None
        self.deaths = 0
        self.is_ending = False

    def err(self, what: str) -> None:
        """Prints what is said of it."""
        self.print_line(said(f"publish {self.target.address}: {what}"))

    def begin(self, out: str) -> None:
        """A recording has begun. The one that runs follows the recordings of a run by itself."""
        is_first, self.out = self.out is None, out
        if is_first:
            self.start([])

    def start(self, options: list[str]) -> None:
        """Starts it, or says that this can't be done."""
        assert self.out
        self.begun, self.due = time.monotonic(), None
        lines, counts = ChildLines(self.loop, self.take_line), ChildLines(self.loop, self.take_counts)
        words = [
            *command_of("publish", NICE),
            "--stay",
            f"--counts={counts.writer}",
            *options,
            *self.target.arguments(),
            "--",
            os.path.abspath(self.out),
        ]
        try:
            self.child = self.started([*words, str(self.target.address)], lines, counts)
        except OSError as error:
            for pipe in (lines, counts):
                os.close(pipe.writer)
                pipe.end()
            self.die(f"can't be started: {error.strerror}")
            return
        self.pipes = [lines, counts]
        for pipe in self.pipes:
            pipe.follow()
        self.loop.follow(self.child, self.ended)

    def started(self, words: list[str], lines: ChildLines, counts: ChildLines) -> children.Child:
        """The program, which prints into a pipe of ours, and counts into another one."""
        streams = (subprocess.DEVNULL, subprocess.DEVNULL, lines.writer)
        return self.guard.start(words, streams, [self.guard.all, counts.writer])

    def take_line(self, line: str) -> None:
        """It has printed a line."""
        for prefix in ("bpfrec publish: ", f"{self.target.address}: "):
            line = line[len(prefix) :] if line.startswith(prefix) else line
        self.err(line)

    def take_counts(self, line: str) -> None:
        """It has counted what it sent by now."""
        found = COUNTS.fullmatch(line)
        if found:
            self.observe(str(self.target.address), Sent(*map(int, found.groups())))

    def ended(self, status: int) -> None:
        """It has ended, which it does by itself only where something is wrong."""
        for pipe in self.pipes:
            pipe.end()
        self.child, self.pipes = None, []
        how = f"ended by signal {status - KILLED}" if status > KILLED else f"ended with status {status}"
        if not self.is_ending:
            self.die(how)
        elif status > KILLED:
            self.err(f"{how}: the rest isn't sent")

    def die(self, why: str) -> None:
        """It died: it is begun again after a pause."""
        self.observe(str(self.target.address), None)
        now = time.monotonic()
        self.deaths = 1 if now - self.begun > LONG else self.deaths + 1
        pause = AGAIN_AFTER * 2 ** min(self.deaths - 1, MOST_DOUBLINGS)
        self.due = now + pause
        self.err(f"{why}, and begins again in {pause:.0f} s")

    def end_soon(self) -> None:
        """The run has ended: it isn't begun again."""
        if self.due is not None:
            self.err("isn't begun again: the rest isn't sent")
        self.is_ending, self.due = True, None

    def deadline(self) -> Optional[float]:
        """When it is begun again."""
        return self.due

    def tick(self, now: float) -> None:
        """Begins it again where it is time. What is in the recording by now is left out."""
        if self.due is not None and now >= self.due:
            self.start(["--now"])


class Publishers(Part):
    """Those of a run."""

    def __init__(
        self, targets: list[Target], loop: Loop, guard: Guard, err: Callable[[str], None], observe: Observe
    ) -> None:
        self.loop = loop
        self.all = [Publisher(it, loop, guard, err, observe) for it in targets]

    def begun(self, recorder: Recorder) -> None:
        """A recording has begun."""
        for publisher in self.all:
            publisher.begin(recorder.about.out)

    def deadline(self) -> Optional[float]:
        """When one is begun again."""
        return min((it.due for it in self.all if it.due is not None), default=None)

    def tick(self, now: float) -> None:
        """Begins those again whose time it is."""
        for publisher in self.all:
            publisher.tick(now)

    def finish(self, is_given_up: Callable[[], bool]) -> None:
        """Has all send what is left, for a time, unless nobody waits for that any more."""
        ends = time.monotonic() + LAST
        for publisher in self.all:
            publisher.end_soon()
        self.send(signal.SIGTERM)
        while self.running() and (left := ends - time.monotonic()) > 0 and not is_given_up():
            self.loop.turn(left)
        self.send(signal.SIGKILL)
        while self.running():
            self.loop.turn(None)

    def running(self) -> bool:
        """Whether one runs."""
        return any(it.child for it in self.all)

    def send(self, number: signal.Signals) -> None:
        """Sends a signal to those that run."""
        for publisher in self.all:
            if publisher.child:
                publisher.child.send(number)
