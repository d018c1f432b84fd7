"""Tries alarms that go out: which have begun and ended, the program that is run for them, and priorities of lines."""

import os
import signal
import time
from collections.abc import Callable
from pathlib import Path

import pytest
from bpfrec_tools.live import arguments
from bpfrec_tools.live.parts.loop import Loop, Signals
from bpfrec_tools.live.reports import alarm_command, journal, standard_streams
from bpfrec_tools.live.reports.alarm_command import AlarmCommand
from bpfrec_tools.live.reports.console import Console
from bpfrec_tools.live.reports.journal import Priority, priority_of
from bpfrec_tools.live.status.alarms import Alarm, AlarmChange, AlarmChanges, Level, Name
from bpfrec_tools.live.status.terminal import Terminal
from scripted import Flight, Wire
from support import judge, judge_quietly, program_at, wait_for

SILENT = Alarm(Name.SILENT, Level.ALARM, 3, "silent", "channel 3 (eth2): no frame came for 11 s")
DISK = Alarm(Name.DISK, Level.ALARM, None, "disk full", "the disk is full: 7 B are free")
WAITS = Alarm(
    Name.WAITS, Level.WARNING, 3, "pipe waits", "channel 3 (eth2): its pipe was full for 100 ms of the last 10 s"
)


# ---- what has begun and ended


def told(changes: AlarmChanges, *alarms: Alarm) -> list[str]:
    return [it.line() for it in changes.take(alarms)]


def test_an_alarm_begins_once_and_ends_once_whatever_it_says_meanwhile() -> None:
    changes, later = AlarmChanges(), SILENT._replace(text="channel 3 (eth2): no frame came for 12 s")
    judge("nothing yet", told(changes) == [])
    judge(
        "each begins",
        told(changes, SILENT, WAITS) == [f"bpfrec live: alarm: {SILENT.text}", f"bpfrec live: warning: {WAITS.text}"],
    )
    judge("another text is no news", told(changes, later, WAITS) == [])
    lines = [f"bpfrec live: alarm ended: {later.text}", f"bpfrec live: alarm: {DISK.text}"]
    judge("one ends with its last text, another begins", told(changes, WAITS, DISK) == lines)
    other = SILENT._replace(channel=4)
    judge("of two channels there are two", len(told(changes, WAITS, DISK, SILENT, other)) == 2)
    lines = told(changes, WAITS._replace(level=Level.ALARM), DISK, SILENT, other)
    judge(
        "a warning that becomes an alarm is one",
        lines == [f"bpfrec live: warning ended: {WAITS.text}", f"bpfrec live: alarm: {WAITS.text}"],
    )


def test_what_the_last_audit_says_goes_out_as_the_run_ends(work: Path) -> None:
    """Nothing is looked at again by then."""
    flight, seen = Flight(work, {1: Wire("eth0")}), list[AlarmChange]()
    flight.status.alarm_changed = seen.append
    flight.begin()
    flight.pass_seconds(3)
    judge("all is well", seen == [])
    flight.end_recording(["no 5 NoEnd 2"], 1)
    flight.status.ended(flight.now())
    judge("an audit that says no", [(it.has_begun, it.alarm.name) for it in seen] == [(True, "audit")], seen)


# ---- the program


class Run:
    """What an alarm's program is run beside: a loop that turns, and the lines that are told."""

    def __init__(self, signals: Signals, monkeypatch: pytest.MonkeyPatch, *command: object) -> None:
        self.lines: list[str] = []
        self.loop = Loop(signals, lambda: None)
        self.console = Console(self.loop, lambda: None, Terminal(2, True))
        monkeypatch.setattr(self.console, "err", self.lines.append)
        self.command = AlarmCommand([str(it) for it in command], self.loop, self.console)

    def turn_until(self, what: str, holds: Callable[[], object], seconds: float = 10) -> None:
        def turned() -> object:
            self.command.tick(time.monotonic())
            self.loop.turn(0.01)
            return holds()

        wait_for(lambda: f"{what}: {self.lines}", turned, seconds)

    def is_idle(self) -> bool:
        return self.command.child is None and not self.command.waiting


@pytest.fixture
def made(signals: Signals, monkeypatch: pytest.MonkeyPatch) -> Callable[..., Run]:
    # Programs are ended sooner than in a recorder, so that trials are short.
    monkeypatch.setattr(alarm_command, "LONGEST", 0.5)
    monkeypatch.setattr(alarm_command, "GRACE", 0.2)
    return lambda *command: Run(signals, monkeypatch, *command)


def test_a_program_gets_each_alarm_in_order_with_its_name_channel_and_text(
    work: Path, made: Callable[..., Run]
) -> None:
    noted = work / "noted"
    run = made(
        program_at(work / "alarm", f'printf "%s|" "$#" "$@" >> {noted}; echo >> {noted}; echo lost; echo lost >&2'),
        "two words",
    )
    for change in (
        AlarmChange(True, SILENT),
        AlarmChange(True, WAITS),
        AlarmChange(False, SILENT),
        AlarmChange(True, DISK),
    ):
        run.command.take(change)
    judge("one runs at a time", run.command.child and len(run.command.waiting) == 2)
    run.turn_until("all were run", run.is_idle)
    wanted = [
        f"5|two words|begins|silent|3|{SILENT.text}|",
        f"5|two words|ends|silent|3|{SILENT.text}|",
        f"5|two words|begins|disk|-|{DISK.text}|",
    ]
    judge("each, but for warnings", noted.read_text().splitlines() == wanted, noted.read_text())
    judge("nothing is told of a program that ends well", run.lines == [], run.lines)


def test_a_program_has_no_descriptor_of_lives_and_no_signal_blocked(work: Path, made: Callable[..., Run]) -> None:
    noted, (reader, writer) = work / "noted", os.pipe()
    os.set_inheritable(writer, True)
    looks = f"""
import os
opened = [os.readlink(f"/proc/self/fd/{{it}}") for it in sorted(os.listdir("/proc/self/fd"))[:-1]]
blocked = [it for it in open("/proc/self/status") if it.startswith("SigBlk")][0]
open({str(noted)!r}, "w").write(f"{{opened}}\\n{{blocked}}")
"""
    run = made("/usr/bin/python3", "-Sc", looks)
    run.command.take(AlarmChange(True, DISK))
    run.turn_until("it ran", run.is_idle)
    opened, blocked = noted.read_text().splitlines()
    judge("its streams are the null device, and there is no other", opened == str(["/dev/null"] * 3), opened)
    judge("no signal is blocked", int(blocked.split()[1], 16) == 0, blocked)
    os.close(reader)
    os.close(writer)


@pytest.mark.parametrize(
    "text, line",
    [
        ("exit 3", "ended with status 3"),
        ("kill -9 $$", "was ended by signal 9"),
        ("exec sleep 60", "ran for too long, and was ended"),
        ("trap '' TERM; while :; do sleep 1; done", "ran for too long, and was ended"),
    ],
    ids=["status", "killed", "slow", "deaf"],
)
def test_a_program_that_fails_or_hangs_is_said_and_the_next_is_run(
    work: Path, made: Callable[..., Run], text: str, line: str
) -> None:
    noted, program = work / "noted", work / "alarm"
    run = made(program_at(work / "alarm", f"echo x >> {noted}; {text}"))
    began = time.monotonic()
    run.command.take(AlarmChange(True, DISK))
    run.command.take(AlarmChange(False, DISK))
    run.turn_until("both were run", run.is_idle)
    judge_quietly("both were", noted.read_text() == "x\nx\n")
    judge(text, run.lines == [f"bpfrec live: --on-alarm: {program} {line}"] * 2, run.lines)
    judge_quietly("in time", time.monotonic() - began < 3)


def test_a_program_that_is_gone_is_said(work: Path, made: Callable[..., Run]) -> None:
    run = made(work / "missing")
    run.command.take(AlarmChange(True, DISK))
    judge("it", run.lines == [f"bpfrec live: --on-alarm: {work}/missing can't be started: No such file or directory"])
    judge("and nothing waits for it", run.is_idle())


def test_what_waits_is_bounded_and_what_is_left_out_is_counted(work: Path, made: Callable[..., Run]) -> None:
    run = made(program_at(work / "alarm", ":"))
    for _ in range(alarm_command.MOST_WAITING + 4):
        run.command.take(AlarmChange(True, DISK))
    judge("no more than a number waits", len(run.command.waiting) == alarm_command.MOST_WAITING)
    run.turn_until("all were run", run.is_idle, 30)
    line = f"bpfrec live: --on-alarm: {work}/alarm wasn't run for 3 alarms: {alarm_command.MOST_WAITING} waited"
    judge("the others are counted once", run.lines == [line], run.lines)


@pytest.mark.parametrize("text", ["exec sleep 60", "trap '' TERM; while :; do sleep 1; done"], ids=["slow", "deaf"])
def test_the_end_of_a_run_waits_for_a_time_in_all(work: Path, made: Callable[..., Run], text: str) -> None:
    """Also where many wait, and where the program was begun just before."""
    run = made(program_at(work / "alarm", f"echo $$ >> {work}/noted; {text}"))
    for _ in range(20):
        run.command.take(AlarmChange(True, DISK))
    child = run.command.child
    began = time.monotonic()
    run.command.finish(lambda: False)
    took = time.monotonic() - began
    judge(f"it took {took:.2f} s", 0.2 < took < 0.5 + 0.3)
    judge("none runs on", child and child.process.poll() is not None)
    judge("those that weren't run are counted", run.lines[0].endswith("for 19 alarms: the run has ended"), run.lines)


def test_the_end_of_a_run_has_the_program_run_for_what_waits(work: Path, made: Callable[..., Run]) -> None:
    run = made(program_at(work / "alarm", f"echo x >> {work}/noted"))
    for _ in range(5):
        run.command.take(AlarmChange(True, DISK))
    run.command.finish(lambda: False)
    judge("for all of it", (work / "noted").read_text() == "x\n" * 5 and run.lines == [], run.lines)


def test_an_end_that_is_given_up_waits_for_nothing(work: Path, made: Callable[..., Run]) -> None:
    run = made(program_at(work / "alarm", "exec sleep 60"))
    run.command.take(AlarmChange(True, DISK))
    child, began = run.command.child, time.monotonic()
    run.command.finish(lambda: True)
    judge("it ends at once", time.monotonic() - began < 0.2)
    judge("the program is killed", child and child.process.wait(5) == -signal.SIGKILL)


def test_a_command_is_taken_apart_as_a_shell_does_it() -> None:
    for text, wanted in {
        "mail -s alarm": ["mail", "-s", "alarm"],
        "'a program' \"$HOME\" b\\ c": ["a program", "$HOME", "b c"],
        "logger; reboot": ["logger;", "reboot"],
    }.items():
        judge_quietly(text, arguments.command_words(text) == wanted, arguments.command_words(text))
    for text, why in {
        "": "needs a command",
        " ": "needs a command",
        "'a": "needs a command: no closing quotation",
    }.items():
        with pytest.raises(Exception, match=f"^{why}$"):
            arguments.command_words(text)


# ---- priorities

PRIORITIES = {
    Priority.ERROR: [
        "bpfrec live: alarm: channel 3 (eth2): no frame came for 11 s",
        "bpfrec live: clock: not synchronised: --require-clock: the clock is not synchronised",
        "bpfrec live: clock: synchronised, off by at most 0.020000 s: --require-clock: the clock may be off by 0.020000 s, and ..",
        "bpfrec live: clock: synchronised by chrony (::1), off by at most 0.02 s: --require-clock: the clock may be off by ..",
        "bpfrec live: --on-alarm: logger ended with status 1",
        "bpfrec live: flight.ch11 can't be forced to its disk: Input/output error",
        "bpfrec live: flight.ch11 can't be written any more: the recording ends",
        "bpfrec live: --every and --size need an interface",
        "bpfrec live: eth0: no recorder reads its frames, which wait for the next recording",
        "bpfrec live: capture has ended, and its interfaces with it",
        "bpfrec capture: eth0: no permission to capture: be root, or have a group capture",
        "bpfrec capture: eth0: the interface is gone",
        "bpfrec capture: events can't be written: the facts beside the recording lack losses",
        "file flight.ch11",
        "file -",
        "SourceFault Device",
        "memory",
    ],
    Priority.WARNING: [
        "bpfrec live: warning: channel 3 (eth2): its pipe was full for 100 ms of the last 10 s",
        "bpfrec live: clock: not synchronised",
        "bpfrec live: clock: nobody says whether it is synchronised",
        "bpfrec live: next: recordings follow one another with --every or --size alone",
        "bpfrec live: 7 lines were left out: standard error had no room",
        "bpfrec live: eth0 LOST 1 dropped 0 skipped",
        "bpfrec live: left of runs that were killed, and to be removed: /tmp/bpfrec.0123456789abcdef",
        "bpfrec live: flight.ch11 was moved to other.ch11: it is recorded on there",
        "bpfrec live: publish [ff02::1%eth0]:50000: no route: datagrams lost: 5",
        "bpfrec live: publish 239.1.2.3:50000: ended by signal 9, and begins again in 1 s",
        "bpfrec capture: eth0 LOST 1 dropped 0 skipped",
        "bpfrec capture: eth0: it is down, and is recorded on once it is up",
        "bpfrec capture: eth0: it has no carrier, and is recorded on once it has one",
        "bpfrec capture: it may write all files that its user may: the kernel has no Landlock",
        "bpfrec capture: eth0: the interface is gone, and is taken again once it is back",
        "bpfrec capture: origin 1764586800.250000123 from counter 7 on: the clock was set by -3600.000000000 s",
        "refused 1 Empty",
    ],
    Priority.NOTE: [
        "bpfrec live: publish 239.1.2.3:50000: published packets 5 datagrams 5 lost 0 late 0",
        "bpfrec live: alarm ended: channel 3 (eth2): no frame came for 12 s",
        "bpfrec live: warning ended: channel 3 (eth2): its pipe was full for 100 ms of the last 10 s",
        "bpfrec live: clock: synchronised, off by at most 0.000500 s",
        "bpfrec live: clock: synchronised by chrony (192.0.2.1) and PTP (001122.fffe.334455), off by at most 0.000500 s",
        "bpfrec live: clock: synchronised by chrony (2001:db8::1), off by at most 0.000500 s",
        "bpfrec live: the next recording begins",
        "bpfrec live: flight_00001.ch11 was removed: --keep 3",
        "bpfrec capture: eth0 frames 1 bytes 64 dropped 0 missed 0 skipped 0 waited 0",
        "bpfrec capture: origin 1764590400.250000000",
        "bpfrec capture: origin 1764590400.250000000 from counter 0 on: counters have begun at 0 again",
        "bpfrec capture: eth0: it is up again",
        "bpfrec capture: eth0: it is back",
        "bpfrec capture: eth0 buffer 64 MiB",
        "bpfrec capture: eth0 clock host: UTC",
        "installed 7 1 12",
        "status: http://127.0.0.1:8080/",
        "stop                ends the recording, as Ctrl-C does",
    ],
}


@pytest.mark.parametrize("priority", PRIORITIES, ids=lambda it: it.name)
def test_a_line_has_the_priority_of_what_it_says(priority: Priority) -> None:
    wrong = {line: priority_of(line) for line in PRIORITIES[priority] if priority_of(line) is not priority}
    judge(f"{len(PRIORITIES[priority])} lines", wrong == {}, wrong)


def test_lines_have_priorities_where_the_journal_reads_them_and_nowhere_else(
    work: Path, monkeypatch: pytest.MonkeyPatch
) -> None:
    path = work / "told"
    with open(path, "wb", buffering=0) as file:
        found = os.fstat(file.fileno())
        for name, marks in {
            "": False,
            f"{found.st_dev}:{found.st_ino}": True,
            f"{found.st_dev}:{found.st_ino + 1}": False,
            f"{found.st_dev + 1}:{found.st_ino}": False,
            "x": False,
            f"{found.st_dev}:{found.st_ino}:1": False,
        }.items():
            monkeypatch.setenv(journal.STREAM, name)
            os.truncate(path, 0)
            file.seek(0)
            standard_streams.Lines(file.fileno()).put("bpfrec live: clock: not synchronised", "one\ntwo")
            wanted = (
                "<4>bpfrec live: clock: not synchronised\n<6>one\n<6>two\n"
                if marks
                else "bpfrec live: clock: not synchronised\none\ntwo\n"
            )
            judge_quietly(f"JOURNAL_STREAM={name}: {path.read_text()}", path.read_text() == wanted)
