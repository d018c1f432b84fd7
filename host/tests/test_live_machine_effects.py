"""Tries all that the machine of bpfrec live does and says in a run, in its order: none is left out, and none is more."""

from collections.abc import Callable

import pytest
from live_events import FILES, ROTATING, SINGLE, at_once, begun, disk_is_full, recorder_dies, while_handing_over
from live_world import Plan, World
from support import judge

# What begins each run that has interfaces, and how the second recording takes over.
BEGIN = "start_recorder 1, start_capture 1, create 1, point_to 1"
SECOND = "create 2, start_recorder 2, end_lines 1, point_to 2, switch_capture 2"


def of_feeds() -> World:
    world = begun(FILES, at_once)
    world.settle()
    return world.end()


def handed_over() -> World:
    world = begun(ROTATING, while_handing_over)
    world.settle()
    return world.end()


def without_a_next() -> World:
    """The next recorder can't be started once, and is then."""
    world = begun(ROTATING)
    world.can_start = False
    world.wait(10)
    world.can_start = True
    return world.end()


def full_disk(plan: Plan) -> World:
    world = begun(plan)
    disk_is_full(world)
    world.settle()
    world.let_pass(1)
    return world.end()


def killed_recorder() -> World:
    world = begun(ROTATING)
    recorder_dies(world)
    world.let_pass(0)
    return world.end()


def capture_that_ends_alone() -> World:
    """Nobody told it to."""
    world = begun(ROTATING)
    world.end_capture(0)
    return world.finished()


def dead_capture() -> World:
    world = begun(SINGLE)
    world.end_capture(137)
    return world.finished()


def dead_capture_at_the_start() -> World:
    """The recorder waits for its pipes, which are opened in the capture's place."""
    world = begun(SINGLE, at_once)
    world.current().pipes_left = 1
    world.end_capture(137)
    return world.finished()


def refused_capture() -> World:
    world = begun(SINGLE, at_once)
    world.end_capture(3)
    return world.finished()


def refused_out() -> World:
    world = begun(SINGLE, at_once)
    world.has_space = False
    world.ready()
    return world.finished()


def hurried() -> World:
    """Nothing ends by itself, and a second signal comes two seconds later."""
    world = begun(SINGLE)
    world.is_hanging = True
    world.machine.told_to_end(world.time)
    world.settle()
    world.wait(2)
    return world.end()


def unprinted() -> World:
    """The report can't be printed."""
    world = begun(SINGLE)
    world.machine.printing_failed()
    return world.end()


WAS_KILLED = "was ended by signal 9"
CUT = "out_1 has the packets that were written until then, which salvage copies"
FULL = "bpfrec live: out_1 can't be written any more"
END = "end_capture {0}, end_lines {0}, print_report {0}, audit {0}, conclude {0}"
LAST, LAST_OF_TWO = END.format(1), END.format(2)
TOLD = "print_report 1, audit 1, conclude 1"
REST = f"end_lines 1, {TOLD}"
CAPTURE_ENDED = "bpfrec live: capture has ended, and its interfaces with it"
CAPTURE_DIED = f"bpfrec live: capture {WAS_KILLED}, and its interfaces with it"
RECORDER_DIED = f"bpfrec live: bpfrec record {WAS_KILLED}: {CUT}"
NEXT = f"{SECOND}, print_report 1, conclude 1, {LAST_OF_TWO}"
RUNS: dict[str, tuple[Callable[[], World], str, int]] = {
    "single": (lambda: begun(SINGLE).end(), f"{BEGIN}, {LAST}", 0),
    # They are ended once more with their recorder.
    "of_feeds": (of_feeds, f"create 1, start_recorder 1, end_lines 1, {REST}", 0),
    "handed_over": (handed_over, f"{BEGIN}, {SECOND}, {TOLD}, {LAST_OF_TWO}", 0),
    "without_a_next": (without_a_next, f"{BEGIN}, create 2, start_recorder 2, {LAST}", 0),
    "full_disk": (
        lambda: full_disk(ROTATING),
        f"{BEGIN}, {FULL}: the next recording begins once there is room, hold_capture 1, end_lines 1, "
        f"kill_recorder 1, forget_out 1, {NEXT}",
        1,
    ),
    "full_disk_of_one": (
        lambda: full_disk(SINGLE),
        f"{BEGIN}, {FULL}: the recording ends, end_capture 1, end_lines 1, print_report 1, conclude 1",
        1,
    ),
    "killed_recorder": (
        killed_recorder,
        f"{BEGIN}, {RECORDER_DIED}, bpfrec live: the next recording begins, hold_capture 1, end_lines 1, {NEXT}",
        137,
    ),
    "capture_that_ends_alone": (capture_that_ends_alone, f"{BEGIN}, {CAPTURE_ENDED}, {REST}", 1),
    "dead_capture": (dead_capture, f"{BEGIN}, {CAPTURE_DIED}, {REST}", 1),
    "dead_capture_at_the_start": (
        dead_capture_at_the_start,
        f"start_recorder 1, start_capture 1, {CAPTURE_DIED}, create 1, point_to 1, end_lines 1, open_pipes 1, {TOLD}",
        1,
    ),
    "refused_capture": (refused_capture, "start_recorder 1, start_capture 1, kill_recorder 1", 3),
    "refused_out": (refused_out, "start_recorder 1, start_capture 1, create 1, kill_capture 1, kill_recorder 1", 3),
    "hurried": (
        hurried,
        f"{BEGIN}, end_capture 1, end_capture 1, kill_capture 1, {CAPTURE_DIED}, end_lines 1, kill_recorder 1, "
        f"kill_audit 1, {RECORDER_DIED}, print_report 1, conclude 1",
        137,
    ),
    "unprinted": (unprinted, f"{BEGIN}, {LAST}", 3),
}


@pytest.mark.parametrize("name", RUNS)
def test_all_that_a_run_does_and_says_comes_in_this_order(name: str) -> None:
    run, wanted, status = RUNS[name]
    world = run()
    judge("all comes in its order", ", ".join(world.effects) == wanted, world.effects)
    judge("and the run has its status", world.machine.status(False) == status, world.machine.status(False))
