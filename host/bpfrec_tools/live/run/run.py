"""A run of live: what the machine decides is done here, and what happens is told to it."""

from __future__ import annotations

import signal
import time
from typing import Callable, Optional

from bpfrec_tools.live.arguments import Arguments
from bpfrec_tools.live.control.changes import Changes
from bpfrec_tools.live.control.lines import ControlLines, ControlPorts
from bpfrec_tools.live.control.made_filters import Maker
from bpfrec_tools.live.kept.audits import Audits
from bpfrec_tools.live.kept.clock_watch import ClockWatch
from bpfrec_tools.live.kept.durability import Durability, KeeperPorts
from bpfrec_tools.live.kept.ended import EndedRecordings
from bpfrec_tools.live.kept.facts import Writer
from bpfrec_tools.live.kept.marks import Marks
from bpfrec_tools.live.kept.names import Files
from bpfrec_tools.live.kept.noted import Entry
from bpfrec_tools.live.model import KILLED, Plan, Programs, Recording
from bpfrec_tools.live.parts import children, outputs, system
from bpfrec_tools.live.parts.capture import Capture
from bpfrec_tools.live.parts.events import Events
from bpfrec_tools.live.parts.folder import Folder
from bpfrec_tools.live.parts.guard import Guard
from bpfrec_tools.live.parts.loop import Loop, Signals
from bpfrec_tools.live.parts.part import Part
from bpfrec_tools.live.parts.recorder import Recorder
from bpfrec_tools.live.parts.recordings import Recordings
from bpfrec_tools.live.parts.watches import Watches
from bpfrec_tools.live.reports.alarm_command import AlarmCommand
from bpfrec_tools.live.reports.console import Console
from bpfrec_tools.live.reports.notify import Notifier
from bpfrec_tools.live.reports.observers import Observers
from bpfrec_tools.live.reports.publishers import Publishers
from bpfrec_tools.live.run.capturing import Capturing
from bpfrec_tools.live.run.end_of_run import EndOfRun
from bpfrec_tools.live.run.engine import LOST
from bpfrec_tools.live.run.machine import Machine
from bpfrec_tools.live.run.ports import Deed, Observer, Ports
from bpfrec_tools.live.run.recorders import Recorders
from bpfrec_tools.live.said import said
from bpfrec_tools.live.status import Terminal


class Run:
    """All of a run: the processes, pipes and files of what the machine decides."""

    def __init__(
        self,
        given: Arguments,
        programs: Programs,
        folder: Folder,
        signals: Signals,
        observer: Optional[Observer],
        terminal: Terminal,
    ) -> None:
        self.given, self.programs, self.folder = given, programs, folder
        self.writer = Writer(given, folder, programs.bpfrec, Files(given.mode, given.is_forced))
        # Before anything runs that it may have to end.
        self.guard = Guard(self.writer)
        folder.make_all()
        self.loop, self.watches, self.events = Loop(signals, self.end_by_signal), Watches(), Events(folder.events)
        self.console = Console(self.loop, lambda: self.machine.printing_failed(), terminal)
        self.err = self.console.err
        self.observers = Observers(observer, folder, self.err)
        self.capture = Capture(programs.capture, given, folder, self.loop)
        self.capturing, self.recorders = Capturing(self), Recorders(self)
        self.marks = Marks(self.events, given.is_rotating(), self.marked, self.err)
        self.control = self.made_control(terminal)
        self.notifier, self.signals_came = Notifier(), 0
        self.outputs = outputs.Outputs(self.watches, given.size is not None, self.recorders.begun, self.err)
        self.recordings = Recordings(self.writer, self.outputs, self.err)
        self.audits = Audits(self.loop, programs.bpfrec, self.guard, self.audited, self.err)
        self.ended = self.made_ended()
        self.durability = self.made_durability()
        self.publishers = Publishers(given.targets, self.loop, self.guard, self.err, self.observers.published)
        self.alarm_command = AlarmCommand(given.on_alarm, self.loop, self.console)
        self.parts, self.machine = self.made_parts(), self.made_machine()
        self.deeds = self.made_deeds()

    def made_control(self, terminal: Terminal) -> ControlLines:
        """What takes the lines that are typed."""
        maker = Maker(self.loop, self.programs.bpfrec, self.guard.all)
        changes = Changes(self.folder, self.given.is_rotating(), maker.make)
        ports = ControlPorts(self.end, self.next, self.observers.report, self.marks.take, self.err, terminal)
        return ControlLines(self.loop, self.given, changes, self.current, ports)

    def made_ended(self) -> EndedRecordings:
        """What finishes recordings that have ended."""
        files, free = self.writer.files, lambda: outputs.room_beside(self.machine.current)
        return EndedRecordings(self.given, files, self.loop, self.guard, self.observers, free, self.err)

    def made_machine(self) -> Machine:
        """What decides all."""
        given, names = self.given, (self.programs.capture, self.programs.bpfrec)
        plan = Plan(bool(given.routes), given.every, given.size, given.is_audited, given.is_strict)
        ports = Ports(self.perform, self.recorders, self.recordings, self.err)
        return Machine(plan, ports, self.recordings.first(), names)

    def made_durability(self) -> Durability:
        """What keeps recordings and their facts safe."""
        following = lambda recorder: self.machine.following(recorder.recording)
        ports = KeeperPorts(self.recorders.forced, self.recorders.force_failed, following, self.ended.made_of)
        return Durability(self.loop, self.writer, self.events, ports, self.err)

    def made_parts(self) -> list[Part]:
        """All that is told how recordings go, in this order: an observer knows of a recording before it has marks, and
        a mark stands in facts that are kept."""
        made: list[Part] = [self.watches, self.outputs, self.control, EndOfRun(self.given.seconds, self.end)]
        if not self.given.reads_captures():
            made.append(ClockWatch(self.loop, self.given.clock_error, self.err, self.observers.clock_seen))
        made += [self.observers, self.ended.retention, self.notifier, self.durability, self.marks]
        return [*made, self.alarm_command, self.publishers]

    def made_deeds(self) -> dict[Deed, Callable[[Recorder], object]]:
        """What is done for each deed of the machine."""
        return {
            Deed.START_CAPTURE: lambda _: self.capturing.start(),
            Deed.POINT_TO: lambda recorder: self.folder.point_to(str(recorder.about.number)),
            Deed.END_CAPTURE: lambda _: self.capture.send(signal.SIGTERM),
            Deed.SWITCH_CAPTURE: lambda _: self.capture.send(signal.SIGUSR1),
            Deed.HOLD_CAPTURE: lambda _: self.capture.send(signal.SIGUSR2),
            Deed.KILL_CAPTURE: lambda _: self.capture.send(signal.SIGKILL),
            Deed.KILL_RECORDER: lambda recorder: children.kill(recorder.child),
            Deed.KILL_AUDIT: lambda recorder: children.kill(recorder.auditor),
            Deed.OPEN_PIPES: self.recorders.open_pipes,
            Deed.END_LINES: self.control.end,
            Deed.FORGET_OUT: self.recordings.forget_output,
            Deed.DISCARD_OUT: outputs.discard,
            Deed.PRINT_REPORT: self.recorders.print_report,
            Deed.CONCLUDE: self.recorders.conclude,
        }

    def perform(self, deed: Deed, recording: Recording) -> None:
        """Does what the machine says."""
        self.deeds[deed](self.recordings.of(recording))

    # ---- the loop

    def run(self) -> int:
        """Records until all has ended: the status."""
        if self.watches.descriptor is not None:
            self.loop.on_read(self.watches.descriptor, self.watches.serve)
        self.watches.add(str(self.folder.events), system.MODIFIED, self.capturing.look_at_events)
        self.loop.follow(self.guard, self.end_guard)
        left = self.folder.leftovers()
        if left:
            self.err(said(f"left of runs that were killed, and to be removed: {' '.join(left)}"))
        self.machine.begin(time.monotonic())
        while not self.machine.is_done():
            self.turn()
        self.finish_recordings()
        has_lost = self.capturing.report_losses()
        self.finish()
        return self.status(has_lost)

    def turn(self) -> None:
        """Waits for what comes next, and has the machine do what is due."""
        self.control.read()
        now = time.monotonic()
        self.wait(now, self.machine.deadline(now), *(it.deadline() for it in self.parts))
        now = time.monotonic()
        if self.machine.is_ending() or self.machine.is_concluding():
            self.notifier.stopping(now, self.machine.is_concluding())
            self.observers.ending()
        for part in self.parts:
            part.tick(now)
        self.machine.tick(now)
        self.console.write_on()

    def wait(self, now: float, *moments: Optional[float]) -> None:
        """Waits for what comes next, until the first of these moments at most."""
        deadline = min((it for it in moments if it is not None), default=None)
        self.loop.turn(None if deadline is None else max(0.0, deadline - now))

    def finish_recordings(self) -> None:
        """Ends what is still made of recordings: facts, hashes, whole files, and what is removed."""
        self.control.leave_input()
        for recorder in self.recordings.all.values():
            if self.machine.is_refused() and outputs.is_empty(recorder):
                outputs.discard(recorder)
            recorder.close()
        self.durability.join()
        self.ended.finish(self.turn_at_end, self.given_up())

    def finish(self) -> None:
        """Ends what still runs beside: what wasn't printed, and the guard."""
        self.marks.finish()
        self.control.finish()
        is_given_up = self.given_up()
        self.publishers.finish(is_given_up)
        self.console.finish(is_given_up)
        self.observers.all_ended()
        self.alarm_command.finish(is_given_up)
        self.guard.dismiss()
        self.folder.remove_all()

    def given_up(self) -> Callable[[], bool]:
        """What says whether nobody waits any more for what ends from now on: a further signal came."""
        came = self.signals_came
        return lambda: self.signals_came > max(came, 1)

    def turn_at_end(self) -> None:
        """Waits for what comes next where all is recorded, and tells systemd that it needs more time."""
        now = time.monotonic()
        self.notifier.stopping(now, True)
        self.wait(now, self.notifier.deadline(), self.ended.progress.deadline(now))
        self.notifier.tick(time.monotonic())
        self.ended.progress.tick(time.monotonic())
        self.console.write_on()

    def end_by_signal(self) -> None:
        """A signal came that ends the run."""
        self.signals_came += 1
        self.outputs.look(self.current())
        self.machine.told_to_end(time.monotonic())

    def end(self) -> None:
        """Ends the run, where nothing has yet: its time is over, or a line says so."""
        if not self.machine.is_ending():
            self.machine.told_to_end(time.monotonic())

    def next(self) -> None:
        """Begins the next recording: a line says so."""
        self.machine.used_up(self.machine.current)

    def end_guard(self, status: int) -> None:
        """The guard has ended, which it does by itself only once live has."""
        self.err(said(f"its guard was ended by signal {status - KILLED}: all goes on without it"))

    # ---- what is known

    def current(self) -> Recorder:
        """What live has of the recording that goes on."""
        return self.recordings.of(self.machine.current)

    def status(self, has_lost: bool) -> int:
        """The status of the run, once all is recorded, made and printed."""
        status, made = self.machine.status(has_lost), self.ended.status
        return made if made and status in (0, LOST) else status

    def marked(self, recorder: Recorder, mark: Entry) -> None:
        """A recording has one more mark."""
        self.durability.write(recorder)
        self.observers.marked(recorder, mark)

    def audited(self, recording: Recording, status: int) -> None:
        """An audit has ended."""
        self.machine.audited(recording, status)
