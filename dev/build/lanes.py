"""How steps run side by side on the processors, and what a run says of itself meanwhile."""
import os
import signal
import sys
import time
from collections.abc import Callable, Sequence
from typing import Optional

from repository import ROOT, toolchain
from steps import LOGS, Step

# How many processes of checks run side by side, for each processor.
LANES_PER_PROCESSOR = 1
# How many processes one check may have, and from how many functions on it may have one more: each checks
# some functions, and then the next one reads all libraries anew, so several take up to twice the processor
# time of one. cli_record, with 29 functions and proved alone, was hardly done sooner by two.
MOST_JOBS, FUNCTIONS_A_JOB = 2, 100
# What a further process of a check takes, beside the memory of the first.
MEMORY_OF_A_JOB = 0.6
# How many measured seconds of work tell this machine's pace.
LEAST_WORK = 60
# Seconds between two lines on how far a run is, on a terminal and elsewhere.
ON_A_TERMINAL, ELSEWHERE = 1, 60


class Progress:
    """Says how far a run is: on a terminal in one line that is written anew, else in lines."""

    def __init__(self, steps: list[Step]) -> None:
        self.steps, self.began, self.said = steps, time.monotonic(), 0.0
        self.is_terminal = sys.stdout.isatty()

    def line(self) -> str:
        ended = [it for it in self.steps if it.status is not None]
        running = [it for it in self.steps if it.process and it.status is None]
        checked = sum(it.spent.functions for it in ended if it.spent)
        done = checked + sum(it.functions()[0] for it in running)
        total = checked + sum(it.functions()[1] for it in self.steps if it not in ended)
        gone = time.monotonic() - self.began
        now = ", ".join(it.name() for it in running)
        return (
            f"{len(ended)} of {len(self.steps)} steps, about {done} of {total} functions and edits, "
            f"{minutes(gone)} gone, "
            f"{self.left(running)}: {now}"
        )

    def left(self, running: list[Step]) -> str:
        """How long the rest is likely to take, by the measured costs and by this machine's pace."""
        if sum(it.cost.seconds for it in self.steps if it.spent) < LEAST_WORK:
            return "some time left"
        rest = [it for it in self.steps if it.status is None]
        work = sum(it.cost.seconds * (1 - share_of(it) * bool(it.process)) for it in rest)
        chain = max((it.behind for it in rest), default=0) / 2
        return f"about {minutes(pace(self.steps) * max(work / processors(), chain))} left"

    def say(self, text: Optional[str] = None) -> None:
        """Prints a line that stays, or how far the run is."""
        pause = ON_A_TERMINAL if self.is_terminal else ELSEWHERE
        if text is None and time.monotonic() - self.said < pause:
            return
        self.said = time.monotonic()
        if not self.is_terminal:
            print(text or self.line(), flush=True)
            return
        width = os.get_terminal_size().columns - 1
        print(f"\r\033[K{text}\n" if text else f"\r\033[K{self.line()[:width]}", end="", flush=True)


def share_of(step: Step) -> float:
    """Which part of a step seems to be done."""
    return step.functions()[0] / max(step.functions()[1], 1)


def minutes(seconds: float) -> str:
    return f"{seconds:.0f} s" if seconds < 100 else f"{seconds / 60:.0f} min"


def pace(steps: list[Step]) -> float:
    """How long this machine takes for what was measured in a second, by the steps that have ended."""
    spent = [(it.spent.seconds, it.cost.seconds) for it in steps if it.spent]
    measured = sum(it for _, it in spent)
    return sum(it for it, _ in spent) / measured if measured >= LEAST_WORK else 1


def processors() -> int:
    """How many processors there are to use."""
    return int(os.environ.get("RT_JOBS") or toolchain().processors())


def in_lanes(steps: list[Step], every: Sequence[str] = (), until: Optional[float] = None) -> list[Step]:
    """Does the steps side by side, each once those that it waits for are done, first those with the
    longest way to the end behind them, and those that have a turn after all others, in its order. Steps that
    an earlier run did are passed over, but for those of the kinds `every`. Of those that may be left none is
    begun that isn't likely to end when the clock is at `until`. Returns those that failed; what waits for one
    isn't done."""
    # A shell has what it starts in the background ignore SIGINT: here both end the run, and keep what was done.
    for it in (signal.SIGINT, signal.SIGTERM):
        signal.signal(it, signal.default_int_handler)
    LOGS.mkdir(parents=True, exist_ok=True)
    steps = [it for it in steps if it.kind in every or not it.is_done()]
    by_key = ordered(steps)
    progress = Progress(steps)
    running: list[Step] = []
    failed: list[Step] = []
    waiting = sorted(steps, key=lambda step: (step.turn, -step.behind))
    memory = 0.85 * toolchain().free() / 1e6

    def may_begin(step: Step) -> bool:
        return is_ready(step, by_key) and has_time(step, until, pace(steps))

    while running or any(may_begin(it) for it in waiting):
        start_ready(waiting, running, may_begin, memory)
        pause(running)
        for ended in [it for it in running if it.ended()]:
            running.remove(ended)
            if ended.status == -9 and ended.jobs > 1:  # most likely for memory: once more, by one process
                ended.status = None
                ended.start(1)
                running.append(ended)
                continue
            failed += [ended] * bool(ended.status)
            took = minutes(ended.spent.seconds if ended.spent else 0)
            progress.say(f"{ended.name()}: {'FAILED' if ended.status else 'done'} ({took})")
        progress.say()
    for ended in failed:
        print(f"\n{ended.text()[-4000:]}\n{ended.key} failed; {ended.log.relative_to(ROOT)} has all that it printed")
    return failed


def ordered(steps: list[Step]) -> dict[str, Step]:
    """Has each step wait for these steps alone, and know how much is behind it: the steps by their keys."""
    by_key = {it.key: it for it in steps}
    for step in steps:
        step.waits, step.behind = [key for key in step.waits if key in by_key], 0.0
    for step in reversed(steps):
        step.behind += step.cost.seconds
        for key in step.waits:
            by_key[key].behind = max(by_key[key].behind, step.behind)
    return by_key


def pause(running: list[Step]) -> None:
    """Waits a moment. Where the run is interrupted, ends what is running."""
    try:
        time.sleep(0.2)
    except KeyboardInterrupt:
        for lane in running:
            if lane.process:
                lane.process.terminate()
        sys.exit("interrupted: what was proved is kept, and the next run goes on from there")


def is_ready(step: Step, by_key: dict[str, Step]) -> bool:
    return step.process is None and all(by_key[it].status == 0 for it in step.waits)


def has_time(step: Step, until: Optional[float], pace: float) -> bool:
    """Whether a step must be done, or is likely to end before the clock is at `until`."""
    return until is None or not step.may_be_left or time.monotonic() + step.cost.seconds * pace < until


def start_ready(waiting: list[Step], running: list[Step], may_begin: Callable[[Step], bool], memory: float) -> None:
    """Starts what can be started: each step gets a lane, and those with the longest way behind them get
    the lanes that the others leave."""
    lanes = max(int(LANES_PER_PROCESSOR * processors()), 1)
    ready = [it for it in waiting if may_begin(it)]
    for at, step in enumerate(ready):
        idle = lanes - sum(other.jobs for other in running)
        room = memory - sum(memory_of(other, other.jobs) for other in running)
        if step.turn and any(not other.turn for other in waiting):
            return  # what goes first has not begun, or it may lack the room
        if idle < 1 or running and memory_of(step, 1) > room:
            continue
        jobs = max(idle - (len(ready) - 1 - at), 1)
        jobs = min(jobs, jobs_for(step), processors())
        while jobs > 1 and memory_of(step, jobs) > room:
            jobs -= 1
        step.start(jobs)
        waiting.remove(step)
        running.append(step)


def jobs_for(step: Step) -> int:
    """How many processes a step gains from."""
    if step.kind not in ("library", "tests"):
        return 1
    return min(1 + step.cost.functions // FUNCTIONS_A_JOB, MOST_JOBS)


def memory_of(step: Step, jobs: int) -> float:
    """The megabytes that a step takes by so many processes."""
    return step.cost.megabytes * (1 + MEMORY_OF_A_JOB * (jobs - 1))
