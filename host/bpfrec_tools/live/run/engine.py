"""The state of a run of live, its recordings and timers, and what is done as the table says."""

from __future__ import annotations

from typing import Callable, Optional

from bpfrec_tools.live.model import Phase, Plan, Recording
from bpfrec_tools.live.run.ports import Deed, Ports
from bpfrec_tools.live.run.table import TIMERS, Action, Event, State, Timer, outcome_of

# Seconds after a fault until the next recording is tried, which double with each failure in a row up to so many times.
RETRY_AFTER, MOST_DOUBLINGS = 0.5, 7
# After so many recorders in a row that were killed within so many seconds no other one is started.
MOST_KILLS, KILLS_SECONDS = 10, 60.0


class Retries:
    """The faults in a row of a run, and the moment from which a next recording may be tried."""

    def __init__(self) -> None:
        self.failures, self.next_at = 0, 0.0
        # The moments at which recorders were killed.
        self.kills: list[float] = []

    def output_failed(self, time: float) -> None:
        """An output failed: the next try comes later with each one in a row."""
        self.failures += 1
        self.next_at = time + RETRY_AFTER * 2 ** min(self.failures, MOST_DOUBLINGS)

    def recorder_killed(self, time: float) -> bool:
        """A recorder was killed: whether another one may be started, the first one at once."""
        self.kills = [*(it for it in self.kills if time - it < KILLS_SECONDS), time]
        self.next_at = time if len(self.kills) == 1 else time + RETRY_AFTER
        return len(self.kills) < MOST_KILLS

    def went_well(self, is_unforced: bool) -> None:
        """A recording was handed over as it was due, which ends a row of faults, but for a disk that can't be forced."""
        self.kills.clear()
        self.failures = self.failures if is_unforced else 0


OUTPUT_FAULT, FILE_FAULT, LOST = 1, 3, 5
# Seconds until a capture that nobody reads is told once more to end, which hurries it.
HURRY_AFTER = 1.1
# Seconds between openings of the pipes for which a recorder waits.
LET_GO_PAUSE = 0.05


class Engine:
    """The recordings of a run, of which one takes the frames and the one before may be ending."""

    def __init__(self, plan: Plan, ports: Ports, first: Recording, names: tuple[str, str]) -> None:
        self.plan, self.ports, self.current = plan, ports, first
        self.perform, self.starter, self.store, self.err = ports
        self.capture_name, self.recorder_name = names
        self.before: Optional[Recording] = None
        self.state = State.STARTING
        self.timers: dict[Timer, float] = {}
        self.time = self.begun = 0.0
        self.is_ready = not plan.has_interfaces
        # The capture's status, and the first of the recorders' and of the audits' that isn't 0.
        self.captured: Optional[int] = None if plan.has_interfaces else 0
        self.recorded = self.audited_by = 0
        self.retries = Retries()
        self.signalled_at: Optional[float] = None
        self.actions: dict[Action, Callable[[], None]] = {
            Action.CREATE_OUT: self.create_out,
            Action.BEGIN_NEXT: self.begin_next,
            Action.GO_OVER: self.go_over,
            Action.END_FEEDING: self.end_feeding,
            Action.HOLD_FRAMES: self.hold_frames,
            Action.FREE_OUT: self.free_out,
            Action.END_LINES: lambda: self.perform(Deed.END_LINES, self.current),
            Action.LET_GO: self.let_go,
            Action.KILL_CAPTURE: self.kill_capture,
            Action.KILL_RECORDER: lambda: self.perform(Deed.KILL_RECORDER, self.current),
            Action.KILL_ALL: self.kill_all,
            Action.REPORT: lambda: self.report(self.current),
        }

    def happens(self, event: Event) -> None:
        """Goes to the state to which an event leads, where the timers of the state before end, and does what is due."""
        self.state, actions = outcome_of(self.state, event)
        allowed = TIMERS.get(self.state, set())
        self.timers = {timer: moment for timer, moment in self.timers.items() if timer in allowed}
        for action in actions:
            self.actions[action]()
        if self.has_all_ended() and event is not Event.ALL_ENDED:
            self.happens(Event.ALL_ENDED)

    def arm(self, timer: Timer, seconds: Optional[float]) -> None:
        """Has a timer of this state end so much later; None ends it now without effect."""
        self.timers.pop(timer, None)
        if seconds is not None and timer in TIMERS.get(self.state, set()):
            self.timers[timer] = self.time + seconds

    # ---- what is so

    def is_open(self, recording: Recording) -> bool:
        """Whether a recorder runs that hasn't opened OUT."""
        return recording.phase is Phase.OPENING and not recording.has_ended() and self.state is not State.REFUSED

    def waits_for_reader(self, recording: Recording) -> bool:
        """Whether a recorder runs that may wait for a reader of OUT."""
        return self.is_open(recording) and self.store.is_special(recording)

    def is_ending(self) -> bool:
        """Whether the run was told to end, or is over."""
        return self.signalled_at is not None or self.state in (State.ENDING, State.REFUSED, State.DONE)

    def is_concluding(self) -> bool:
        """Whether the last recording is audited."""
        return self.current.phase is Phase.REPORTED

    def may_follow(self) -> bool:
        """Whether another recording may follow, once this one lets it."""
        return self.plan.is_rotating() and self.is_ready and not self.is_ending() and self.captured is None

    def may_begin_next(self) -> bool:
        """Whether the recording before leaves room for another one, which is so where the killed one never took over."""
        return self.before is None or (self.current.was_killed and self.current.phase is Phase.OPENING)

    def may_hand_over(self) -> bool:
        """Whether another recording may follow: this one is going, so its recorder has opened each of its pipes and
        the capture too, the one before is done, and each line is answered."""
        is_going = self.state is State.RECORDING and self.plan.is_rotating()
        return is_going and not self.store.awaits_answer(self.current)

    def is_due(self) -> bool:
        """Whether another recording is to follow now."""
        if self.plan.every is not None and self.time >= self.begun + self.plan.every:
            return True
        if self.current.is_used_up or (self.current.is_unforced and self.time >= self.retries.next_at):
            return True
        return self.plan.size is not None and self.store.size(self.current) >= self.plan.size

    def has_all_ended(self) -> bool:
        """Whether the capture and the recorders have ended, and the last one isn't reported yet."""
        has_ended = self.captured is not None and self.current.has_ended()
        if self.state is State.REFUSED:
            return has_ended
        is_reported = self.current.phase in (Phase.REPORTED, Phase.AUDITED)
        return has_ended and self.before is None and not is_reported

    # ---- what is done

    def create_out(self) -> None:
        """Creates OUT, unless the recorder has ended, and has the capture find the recorder's pipes."""
        if not self.current.has_ended() and not self.store.create(self.current):
            self.recorded = self.recorded or FILE_FAULT
            self.happens(Event.OUT_REFUSED)
            return
        self.perform(Deed.POINT_TO, self.current)

    def kill_capture(self) -> None:
        """Kills the capture, where it runs."""
        if self.captured is None:
            self.perform(Deed.KILL_CAPTURE, self.current)

    def end_feeding(self) -> None:
        """Ends what brings frames: the capture, or without interfaces the lines that change filters."""
        if self.captured is None:
            self.perform(Deed.END_CAPTURE, self.current)
            # A recorder that has ended, or waits itself, reads no pipe, which the capture may wait for.
            is_read = not self.current.has_ended() and not self.waits_for_reader(self.current)
            self.arm(Timer.HURRY, None if is_read else HURRY_AFTER)
        elif not self.plan.has_interfaces:
            self.perform(Deed.END_LINES, self.current)

    def hold_frames(self) -> None:
        """Has the capture keep frames for the next recorder."""
        self.perform(Deed.HOLD_CAPTURE, self.current)
        self.perform(Deed.END_LINES, self.current)

    def free_out(self) -> None:
        """Ends a recording whose OUT can't be written."""
        self.perform(Deed.KILL_RECORDER, self.current)
        self.perform(Deed.FORGET_OUT, self.current)

    def begin_next(self) -> None:
        """Begins the next recording; where it can't be begun this one goes on."""
        self.begun = self.time
        following = self.store.following(self.current)
        if following is None or not self.starter.start_recorder(following):
            return
        was, self.current = self.current, following
        if not was.was_killed or was.phase is not Phase.OPENING:
            self.before, was.phase = was, Phase.HANDING_OVER
        self.perform(Deed.END_LINES, was)
        self.happens(Event.NEXT_BEGUN if self.before else Event.NEXT_ALONE)
        if was.has_ended():
            self.report(was)

    def go_over(self) -> None:
        """Has the capture go over to the recorder that was started."""
        self.perform(Deed.POINT_TO, self.current)
        self.perform(Deed.SWITCH_CAPTURE, self.current)

    def following(self, recording: Recording) -> Optional[str]:
        """The OUT of the recording that was begun after this one; None of the last."""
        return None if recording is self.current else self.current.out

    def let_go(self) -> None:
        """Lets a recorder go on that waits for pipes which nobody will open any more, and does so again."""
        if self.is_open(self.current) and self.plan.has_interfaces:
            self.perform(Deed.OPEN_PIPES, self.current)
            self.arm(Timer.LET_GO, LET_GO_PAUSE)

    def kill_all(self) -> None:
        """Kills recorders and audits."""
        for recording in filter(None, (self.before, self.current)):
            self.perform(Deed.KILL_RECORDER, recording)
            self.perform(Deed.KILL_AUDIT, recording)

    def report(self, recording: Recording) -> None:
        """Prints what a recorder reported, and has the recording audited."""
        status = recording.status or 0
        recording.phase = Phase.REPORTED
        self.recorded = self.recorded or status
        if status != 0 and self.store.is_empty(recording):
            self.perform(Deed.DISCARD_OUT, recording)
            self.end(recording, status)
            return
        self.perform(Deed.PRINT_REPORT, recording)
        # What isn't on its disk can be read still.
        is_whole = status == 0 or (status == FILE_FAULT and recording.is_unforced)
        if not is_whole or not self.plan.audits or not self.starter.audit(recording):
            self.end(recording, status)

    def end(self, recording: Recording, status: int) -> None:
        """All is known of a recording."""
        recording.phase, recording.outcome = Phase.AUDITED, status
        self.perform(Deed.CONCLUDE, recording)
        if recording is self.before:
            self.before = None
            self.happens(Event.BEFORE_DONE)
        elif recording is self.current:
            self.happens(Event.CONCLUDED)
