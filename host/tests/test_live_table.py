"""Tries the table of live's run: each of its rows is met, all else that is met changes nothing, and its picture."""

import itertools
import random
from collections.abc import Callable

from bpfrec_tools.live.run.table import ROWS, TIMERS, Event, State
from live_events import (
    EVENTS,
    FILES,
    ROTATING,
    SINGLE,
    at_once,
    signal_comes,
    while_going,
    while_handing_over,
    while_opening,
    while_overlapping,
)
from live_world import World
from support import ROOT, judge

PICTURE = ROOT / "docs/dev/LIVE.md"
S, E = State, Event
# What is met in a state and changes nothing in it.
UNCHANGED = {
    S.STARTING: {E.LAST_OUT_FAILED, E.OUT_FAILED},
    S.RETRYING: {E.BEFORE_DONE, E.OPENED, E.OUT_FAILED, E.RECORDER_ENDED},
    S.ENDING: {E.BEFORE_DONE, E.OPENED},
    S.DRAINING: {E.BEFORE_DONE, E.LAST_OUT_FAILED, E.OPENED, E.RECORDER_ENDED, E.SIGNAL},
    S.HURRIED: {E.BEFORE_DONE, E.OPENED},
    S.CONCLUDING: {E.LAST_OUT_FAILED, E.SIGNAL},
    S.REFUSED: {E.CAPTURE_ENDED, E.OPENED, E.UNOPENED},
    S.DONE: {E.ALL_ENDED, E.LATER_SIGNAL, E.SIGNAL},
}


def capture_refuses(world: World) -> None:
    """An interface can't be opened."""
    world.end_capture(3) if not world.is_capture_ready else None


def later_signal_comes(world: World) -> None:
    world.wait(1.2)
    signal_comes(world)


def time_goes_by(world: World) -> None:
    world.wait(4.1)


def out_fails_early(world: World) -> None:
    """The recorder tells of a full disk before live has seen that OUT is open."""
    world.machine.output_failed(world.current().recording, world.time)


def recorder_refuses(world: World) -> None:
    """A recorder can't open OUT."""
    world.end_recorder(world.current(), 3)


def hangs(world: World) -> None:
    """The capture and the recorder stand still from now on."""
    world.is_hanging = True


def nobody_reads(world: World) -> None:
    world.is_pipe = True


def disk_has_no_room(world: World) -> None:
    world.has_space = False


MORE: dict[str, Callable[[World], None]] = {
    **EVENTS,
    "an interface can't be opened": capture_refuses,
    "a later signal": later_signal_comes,
    "time": time_goes_by,
    "a disk that is full early": out_fails_early,
    "a recorder that can't open OUT": recorder_refuses,
    "all hangs": hangs,
    "nobody reads OUT": nobody_reads,
    "a disk without room": disk_has_no_room,
    "the interfaces are open": World.ready,
}
# Orders that lead far, and are drawn seldom.
FAR = [
    ("all hangs", "a signal", "a later signal", "an interface can't be opened"),
    ("all hangs", "a signal", "a later signal", "the interfaces are open"),
    ("all hangs", "a signal", "a later signal", "a disk without room", "the interfaces are open"),
    ("a signal", "the channels end", "the capture dies", "a later signal"),
    ("all hangs", "a signal", "the capture dies", "the recorder dies", "a later signal"),
]
MOMENTS = (at_once, while_opening, while_going, while_handing_over, while_overlapping)


def met_by(
    world: World, moment: Callable[[World], None], order: tuple[str, ...], is_late: bool
) -> set[tuple[State, Event]]:
    """What is met in which state, where this happens in this order."""
    world.machine.begin(world.time)
    moment(world)
    for name in order:
        MORE[name](world)
        if not is_late:
            world.settle()
    world.settle()
    world.ready()
    for _ in range(4):
        later_signal_comes(world)
        world.let_pass(4.1)
    return world.happened


def all_met() -> set[tuple[State, Event]]:
    """What is met in every order of two, in drawn orders of three and four, and in those that lead far."""
    drawn, found = random.Random(77), set()
    orders: list[tuple[str, ...]] = [*FAR, *itertools.permutations(MORE, 2)]
    orders += [tuple(drawn.sample(list(MORE), count)) for count in (3, 4) for _ in range(100)]
    for plan, moment, is_late in itertools.product((SINGLE, ROTATING, FILES), MOMENTS, (False, True)):
        for order in orders:
            found |= met_by(World(plan), moment, order, is_late)
    return found


def test_each_row_is_met_and_all_else_that_is_met_changes_nothing() -> None:
    met, rows = all_met(), {(state, event) for state, row in ROWS.items() for event in row}
    judge("each row is met", rows <= met, sorted((it.name, event.name) for it, event in rows - met))
    unchanged = {(state, event) for state, events in UNCHANGED.items() for event in events}
    others = {(it.name, event.name) for it, event in (met - rows) ^ unchanged}
    judge("all else is known to change nothing", not others, sorted(others))


def test_each_state_has_a_row_and_each_timer_a_state() -> None:
    judge("rows", set(ROWS) == set(State))
    judge("timers", all(TIMERS.values()) and set(TIMERS) <= set(State))


def picture() -> str:
    """The states and what leads from one to another, as Mermaid draws them."""
    arrows: dict[tuple[str, str], list[str]] = {}
    for state, row in ROWS.items():
        for event, (after, _) in row.items():
            if after is not state:
                arrows.setdefault((state.name, after.name), []).append(event.name)
    lines = ["```mermaid", "stateDiagram-v2", "    [*] --> STARTING"]
    lines += [f"    {one} --> {other}: {', '.join(events)}" for (one, other), events in arrows.items()]
    return "\n".join([*lines, "    DONE --> [*]", "```"])


def test_the_picture_in_the_documents_is_the_tables() -> None:
    judge(f"{PICTURE} has what follows", picture() in PICTURE.read_text(), f"\n{picture()}\n")
