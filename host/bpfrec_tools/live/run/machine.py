"""A run of live, as pure code: what happens comes in as calls, the table says what follows, and `Run` does it.

A call says what happened, of which the machine makes the table's event. Times are seconds of a clock that nobody sets.
"""

from __future__ import annotations

from typing import Optional

from bpfrec_tools.live.model import KILLED, Phase, Recording
from bpfrec_tools.live.run.engine import FILE_FAULT, LOST, MOST_KILLS, OUTPUT_FAULT, Engine
from bpfrec_tools.live.run.ports import Deed
from bpfrec_tools.live.run.table import Event, State, Timer
from bpfrec_tools.live.said import said

# The statuses of capture by which it says that nothing was begun.
NOT_BEGUN = (2, 3)
# Seconds behind the capture's end until a recorder is killed that may hang: its output failed, or nobody reads OUT.
GIVE_UP_AFTER = 2.0
# A signal so many seconds behind the first one hurries the run: what still runs is killed so much later, the capture
# first.
HURRIES_AFTER, KILL_AFTER = 1.0, 4.0
# Seconds between looks at the room of a disk that was full.
ROOM_PAUSE = 1.0


class Machine(Engine):
    """A run, told what happens."""

    # ---- what happens

    def begin(self, time: float) -> None:
        """Starts all."""
        self.time = self.begun = time
        if not self.plan.has_interfaces:
            self.state = State.OPENING
            if not self.store.create(self.current):
                self.refuse_to_begin()
                return
        if not self.starter.start_recorder(self.current):
            self.refuse_to_begin()
        elif self.plan.has_interfaces:
            self.perform(Deed.START_CAPTURE, self.current)

    def refuse_to_begin(self) -> None:
        """Nothing was started."""
        self.recorded = self.current.status = FILE_FAULT
        self.captured = 0
        self.state = State.REFUSED
        self.happens(Event.ALL_ENDED)

    def capture_ready(self) -> None:
        """The capture has opened all interfaces, and waits for the recorder's pipes."""
        if not self.is_ready:
            self.is_ready = True
            self.happens(Event.READY)

    def opened(self, recording: Recording) -> None:
        """A recorder has opened OUT, and all its pipes before."""
        if recording.phase is not Phase.OPENING:
            return
        recording.phase = Phase.GOING if not recording.has_ended() else Phase.ENDING
        if recording is self.current and recording.phase is Phase.GOING:
            self.happens(Event.OPENED)

    def told_to_end(self, time: float) -> None:
        """A signal came that ends the run, the first or a later one."""
        self.time = time
        if self.signalled_at is None:
            self.signalled_at = time
        elif time >= self.signalled_at + HURRIES_AFTER:
            if self.state is not State.HURRIED and Timer.KILL not in self.timers:
                self.happens(Event.LATER_SIGNAL)
                self.arm(Timer.KILL, KILL_AFTER)
                return
        if not self.plan.has_interfaces and self.is_open(self.current):
            # It waits for a feed of its own, and has recorded nothing.
            self.err(said("it was ended before anything was recorded"))
            self.recorded = self.recorded or FILE_FAULT
            self.happens(Event.SIGNAL_AT_START)
            return
        self.happens(Event.SIGNAL)

    def output_failed(self, recording: Recording, time: float) -> None:
        """A recorder says that OUT can't be written any more."""
        self.time = time
        if recording.has_failed or self.is_ending() or recording is not self.current:
            return
        recording.has_failed = True
        what = said(f"{recording.out} can't be written any more")
        if self.plan.is_rotating():
            self.err(f"{what}: the next recording begins once there is room")
            self.retries.output_failed(time)
            self.happens(Event.OUT_FAILED)
            return
        self.err(f"{what}: the recording ends")
        self.happens(Event.LAST_OUT_FAILED)
        self.arm(Timer.GIVE_UP, None if self.plan.has_interfaces else GIVE_UP_AFTER)

    def force_failed(self, recording: Recording, why: str, time: float) -> None:
        """OUT can't be forced to its disk. It can still be written and read, so its recorder goes on, to a next
        recording where one may follow."""
        self.time = time
        if recording.is_unforced or recording.has_failed:
            return
        recording.is_unforced = True
        self.err(said(f"{recording.out} can't be forced to its disk: {why}"))
        self.recorded = self.recorded or OUTPUT_FAULT
        if recording is self.current:
            self.retries.output_failed(time)

    def used_up(self, recording: Recording) -> None:
        """A recording has little room for further filters, so that another one is to follow."""
        recording.is_used_up = True

    def printing_failed(self) -> None:
        """Standard output can't be written: what is recorded is audited all the same."""
        self.recorded = self.recorded or FILE_FAULT

    def recorder_ended(self, recording: Recording, status: int, time: float) -> None:
        """A recorder has ended."""
        self.time = time
        recording.status = OUTPUT_FAULT if recording.has_failed else status
        was_killed = status > KILLED and not recording.has_failed
        if was_killed and self.state is not State.REFUSED:
            self.err(recorder_was_killed(self.recorder_name, recording.out, status - KILLED))
        if recording is self.before:
            self.report(recording)
        elif was_killed and self.may_follow() and self.may_follow_killed():
            recording.was_killed = True
            self.err(said("the next recording begins"))
            self.happens(Event.RECORDER_KILLED)
        else:
            recording.phase = recording.phase if self.state is State.RETRYING else Phase.ENDING
            self.happens(Event.RECORDER_ENDED)

    def may_follow_killed(self) -> bool:
        """A recorder was killed: whether a next recording begins, for which the capture keeps the frames."""
        if self.retries.recorder_killed(self.time):
            return True
        self.err(said(f"{MOST_KILLS} recorders in a row were killed within a minute: the recording ends"))
        return False

    def capture_ended(self, status: int, time: float) -> None:
        """The capture has ended, as it was told to or not."""
        ends_alone = self.may_follow()
        self.time, self.captured = time, status
        self.timers.pop(Timer.HURRY, None)
        if status > KILLED and self.state is not State.REFUSED:
            self.err(said(f"{self.capture_name} was ended by signal {status - KILLED}, and its interfaces with it"))
        elif ends_alone:
            self.err(said(f"{self.capture_name} has ended, and its interfaces with it"))
            self.captured = status or 1
        if status in NOT_BEGUN and not self.is_ready:
            self.happens(Event.CAPTURE_REFUSED)
            return
        was_ready, self.is_ready = self.is_ready, True
        may_hang = self.current.has_failed or self.waits_for_reader(self.current)
        if self.current.phase is not Phase.OPENING and not self.current.has_ended():
            self.current.phase = Phase.ENDING
        self.happens(Event.CAPTURE_ENDED if was_ready else Event.CAPTURE_ENDED_EARLY)
        self.arm(Timer.GIVE_UP, GIVE_UP_AFTER if may_hang and not self.current.has_ended() else None)

    def audited(self, recording: Recording, status: int) -> None:
        """An audit has ended."""
        self.audited_by = self.audited_by or status
        self.end(recording, recording.status or status)

    # ---- time

    def deadline(self, time: float) -> Optional[float]:
        """When `tick` has something to do next; None where nothing is to come."""
        self.time = time
        moments = list(self.timers.values())
        if self.state is State.RETRYING and self.may_begin_next():
            moments.append(self.retries.next_at)
        if self.may_hand_over():
            moments += [self.begun + self.plan.every] if self.plan.every is not None else []
            moments += [self.retries.next_at] if self.current.is_unforced else []
        return min(moments, default=None)

    def tick(self, time: float) -> None:
        """Tells of timers that have come, and of a next recording that is due."""
        self.time = time
        for timer in [timer for timer, moment in self.timers.items() if time >= moment]:
            self.timers.pop(timer, None)
            self.happens(self.event_of(timer))
        if self.state is State.RETRYING and self.may_begin_next() and time >= self.retries.next_at:
            self.retries.next_at = time + ROOM_PAUSE
            if self.store.has_room(self.current):
                self.happens(Event.ROOM)
        elif self.may_hand_over() and self.is_due():
            self.retries.went_well(is_unforced=self.current.is_unforced)
            self.current.is_used_up = False
            self.happens(Event.DUE)
            if self.current.is_unforced:
                self.retries.output_failed(time)

    def event_of(self, timer: Timer) -> Event:
        """What it means that a timer has come."""
        if timer is Timer.KILL:
            self.arm(Timer.KILL, KILL_AFTER)
        if timer is Timer.HURRY:
            return Event.STUCK
        if timer is Timer.LET_GO:
            return Event.UNOPENED
        if self.captured is None:
            return Event.CAPTURE_OVERDUE
        if not self.waits_for_reader(self.current):
            return Event.RECORDER_OVERDUE
        self.err(said(f"nobody reads {self.current.out}: nothing was recorded"))
        self.recorded = self.recorded or FILE_FAULT
        return Event.RECORDER_UNREAD

    # ---- the end

    def is_refused(self) -> bool:
        """Whether nothing was recorded."""
        return self.state is State.REFUSED or (self.state is State.DONE and self.current.phase is not Phase.AUDITED)

    def is_done(self) -> bool:
        """Whether all has ended."""
        return self.state is State.DONE

    def status(self, has_lost: bool) -> int:
        """The status of the run; `has_lost` says whether frames were lost."""
        if self.is_refused() and self.captured in NOT_BEGUN:
            return self.captured or 0
        if self.recorded or self.audited_by:
            return self.recorded or self.audited_by
        if self.captured:
            return 1
        return LOST if has_lost and self.plan.is_strict else 0


def recorder_was_killed(name: str, out: str, number: int) -> str:
    """What is said of a recorder that a signal ended."""
    until = f"{out} has the packets that were written until then, which salvage copies"
    return said(f"{name} record was ended by signal {number}: {until}")
