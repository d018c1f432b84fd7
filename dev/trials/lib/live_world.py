"""A world for the machine of bpfrec live without a process: its capture, recorders and audits are played here.

What the machine asks for has consequences, which come when the trial lets them: so each order can be tried.
"""

import functools
from collections.abc import Callable
from typing import Any

from bpfrec_tools.live.model import Phase, Plan, Recording
from bpfrec_tools.live.run.machine import Machine
from bpfrec_tools.live.run.ports import Deed, Ports
from bpfrec_tools.live.run.table import Event, State

NAMES = ("capture", "bpfrec")
KILLED = 137
# A run that takes more turns than this hangs.
MOST_TURNS = 2_000


class Played:
    """A recorder that is played: it waits for its pipes, opens OUT, and ends once its feeds and lines have."""

    def __init__(self, recording: Recording) -> None:
        self.recording = recording
        self.is_running = self.has_opened = self.has_lines = False
        self.feeds_ended = self.is_created = self.is_pointed_to = False
        self.told, self.audits = 0, 0
        self.concluded: list[Any] = []
        self.is_discarded = False
        self.bytes, self.pipes_left = 0, 3


class Noted(Machine):
    """A machine that notes in which state what happened."""

    happened: set[tuple[State, Event]]

    def happens(self, event: Event) -> None:
        self.happened.add((self.state, event))
        super().happens(event)


class World:
    """Plays all that the machine works with, and notes what it says."""

    def __init__(self, plan: Plan, can_follow: bool = True) -> None:
        self.plan, self.can_follow = plan, can_follow
        self.time = 0.0
        self.said: list[str] = []
        # All that is done and said, in its order.
        self.effects: list[str] = []
        self.consequences: list[Callable[[], None]] = []
        self.is_capturing = self.is_capture_ready = False
        self.asked_to_end = self.held = 0
        self.has_space = self.can_start = True
        self.is_pipe = self.is_answer_awaited = self.is_hanging = False
        self.killed_audits = 0
        self.played: dict[int, Played] = {}
        self.happened: set[tuple[State, Event]] = set()
        self.machine = Noted(plan, Ports(self.perform, self, self, self.err), self.made(1), NAMES)
        self.machine.happened = self.happened

    # ---- deeds

    def note(self, effect: str, recording: Recording) -> None:
        self.effects.append(f"{effect} {recording.number}")

    def perform(self, deed: Deed, recording: Recording) -> None:
        self.note(deed.name.lower(), recording)
        played = self.played.get(recording.number, Played(recording))
        deeds: dict[Deed, Callable[[Played], None]] = {
            Deed.START_CAPTURE: lambda _: self.start_capture(),
            Deed.POINT_TO: self.point_to,
            Deed.END_CAPTURE: lambda _: self.ask_to_end(),
            Deed.SWITCH_CAPTURE: lambda _: self.consequences.append(self.go_over),
            Deed.HOLD_CAPTURE: lambda _: self.hold_capture(),
            Deed.KILL_CAPTURE: lambda _: self.consequences.append(lambda: self.end_capture(KILLED)),
            Deed.KILL_RECORDER: self.kill_recorder,
            Deed.KILL_AUDIT: lambda _: self.note_killed_audit(),
            Deed.OPEN_PIPES: self.let_go,
            Deed.END_LINES: self.end_lines,
            Deed.FORGET_OUT: lambda _: None,
            Deed.DISCARD_OUT: self.discard,
            Deed.PRINT_REPORT: self.print_report,
            Deed.CONCLUDE: lambda _: played.concluded.append(recording.outcome),
        }
        deeds[deed](played)

    def start_recorder(self, recording: Recording) -> bool:
        self.note("start_recorder", recording)
        played = self.played[recording.number]
        if not self.can_start:
            del self.played[recording.number]
            return False
        played.is_running = played.has_lines = True
        if not self.plan.has_interfaces:
            self.consequences.append(lambda: self.open(played))
        return True

    def start_capture(self) -> None:
        self.is_capturing = True

    def create(self, recording: Recording) -> bool:
        self.note("create", recording)
        self.played[recording.number].is_created = self.has_space
        return self.has_space

    def point_to(self, played: Played) -> None:
        played.is_pointed_to = True
        self.consequences.append(lambda: self.open(played))

    def following(self, before: Recording) -> Recording | None:
        took_over = before.phase is not Phase.OPENING
        assert self.machine.before is None or not took_over, "two recordings are before this one"
        if not self.can_follow:
            self.err("it can't be begun")
            return None
        recording = self.made(len(self.played) + 1)
        self.note("create", recording)
        self.played[recording.number].is_created = True
        return recording

    def ask_to_end(self) -> None:
        if self.is_capturing:
            self.asked_to_end += 1
        if self.is_capturing and not self.is_hanging:
            self.consequences.append(lambda: self.end_capture(0))

    def hold_capture(self) -> None:
        self.held += self.is_capturing

    def kill_recorder(self, played: Played) -> None:
        self.consequences.append(lambda: self.end_recorder(played, KILLED))

    def note_killed_audit(self) -> None:
        self.killed_audits += 1

    def let_go(self, played: Played) -> None:
        """It opens one pipe each time."""
        played.feeds_ended = True
        played.pipes_left -= 1
        if played.pipes_left == 0:
            self.consequences.append(lambda: self.open(played, is_let_go=True))

    def end_lines(self, played: Played) -> None:
        played.has_lines = False
        self.consequences.append(lambda: self.end_by_itself(played))

    def is_special(self, recording: Recording) -> bool:
        return self.is_pipe

    def is_empty(self, recording: Recording) -> bool:
        played = self.played[recording.number]
        return not played.is_created or played.bytes == 0

    def discard(self, played: Played) -> None:
        played.is_discarded = True

    def print_report(self, played: Played) -> None:
        played.told += 1

    def audit(self, recording: Recording) -> bool:
        self.note("audit", recording)
        self.played[recording.number].audits += 1
        self.consequences.append(lambda: self.machine.audited(recording, 0))
        return True

    def err(self, line: str) -> None:
        self.said.append(line)
        self.effects.append(line)

    def has_room(self, recording: Recording) -> bool:
        return self.has_space

    def awaits_answer(self, recording: Recording) -> bool:
        return self.is_answer_awaited

    def size(self, recording: Recording) -> int:
        return self.played[recording.number].bytes

    # ---- what is played

    def made(self, number: int) -> Recording:
        self.played[number] = Played(Recording(number, f"out_{number}"))
        return self.played[number].recording

    def current(self) -> Played:
        return self.played[self.machine.current.number]

    def ready(self) -> None:
        """All interfaces are open."""
        if self.is_capturing and not self.is_capture_ready:
            self.is_capture_ready = True
            self.machine.capture_ready()

    def open(self, played: Played, is_let_go: bool = False) -> None:
        """A recorder opens OUT, where all its pipes have writers."""
        may = is_let_go or not self.plan.has_interfaces or (played.is_pointed_to and self.is_capturing)
        if played.is_running and not played.has_opened and may:
            if not played.is_created:
                self.end_recorder(played, 3)
                return
            played.has_opened = True
            played.bytes = 1
            self.machine.opened(played.recording)
            self.end_by_itself(played)

    def go_over(self) -> None:
        """The capture writes the newest recording's pipes."""
        for played in self.played.values():
            played.feeds_ended = played.feeds_ended or played.recording is not self.machine.current
            self.end_by_itself(played)

    def end_by_itself(self, played: Played) -> None:
        may_end = played.has_opened and played.feeds_ended and not played.has_lines and not self.is_hanging
        if played.is_running and may_end:
            self.end_recorder(played, 0)

    def end_recorder(self, played: Played, status: int) -> None:
        if played.is_running:
            played.is_running = False
            self.machine.recorder_ended(played.recording, status, self.time)

    def end_capture(self, status: int) -> None:
        if not self.is_capturing:
            return
        self.is_capturing = False
        for played in self.played.values():
            played.feeds_ended = played.feeds_ended or played.has_opened
        self.machine.capture_ended(status, self.time)

    # ---- turns

    def settle(self) -> None:
        """Lets all consequences come, in their order."""
        for _ in range(MOST_TURNS):
            if not self.consequences:
                return
            self.consequences.pop(0)()
        raise AssertionError("consequences without end")

    def wait(self, seconds: float) -> None:
        """Lets time go by."""
        self.time += seconds
        self.machine.tick(self.time)

    def finish(self) -> None:
        """Lets come what comes until all is done."""
        for _ in range(MOST_TURNS):
            self.settle()
            if self.machine.is_done():
                return
            if not self.plan.has_interfaces:
                self.end_own_feeds()
            deadline = self.machine.deadline(self.time)
            self.wait(max(0.0, deadline - self.time) if deadline is not None else 1.0)
        raise AssertionError(f"it hangs: {self.said} {[it.recording.phase for it in self.played.values()]}")

    def let_pass(self, seconds: float) -> None:
        """Lets time go by, and what comes of it come."""
        self.wait(seconds)
        self.settle()

    def signal_unheard(self) -> None:
        """A signal of which nothing comes."""
        self.machine.told_to_end(self.time)
        self.consequences.clear()

    def end(self) -> "World":
        """Ends the run by a signal."""
        self.machine.told_to_end(self.time)
        return self.finished()

    def finished(self) -> "World":
        self.finish()
        return self

    def end_own_feeds(self) -> None:
        for played in self.played.values():
            played.feeds_ended = True
            self.consequences.append(functools.partial(self.end_by_itself, played))

    def is_left(self) -> bool:
        """Whether something runs."""
        return self.is_capturing or any(it.is_running for it in self.played.values())


__all__ = ["KILLED", "Machine", "Phase", "Plan", "Played", "Recording", "World"]
