"""What may happen to a run of bpfrec live that is played, and when."""

from collections.abc import Callable

from live_world import KILLED, Plan, World

SINGLE, ROTATING, FILES = Plan(True), Plan(True, every=10), Plan(False)
# More than a recorder ever opens, so that it never opens OUT.
MOST_PIPES = 1_000

# ---- what may happen


def channels_end(world: World) -> None:
    """Each channel has all its frames, so the recorder ends by itself."""
    played = world.current()
    world.end_recorder(played, 0) if played.has_opened else None


def capture_dies(world: World) -> None:
    world.end_capture(KILLED)


def recorder_dies(world: World) -> None:
    world.end_recorder(world.current(), KILLED)


def signal_comes(world: World) -> None:
    world.machine.told_to_end(world.time)


def disk_is_full(world: World) -> None:
    played = world.current()
    if played.is_running and played.has_opened:
        world.has_space = False
        world.machine.output_failed(played.recording, world.time)
        world.has_space = True


def disk_fails(world: World) -> None:
    world.machine.force_failed(world.current().recording, "Input/output error", world.time)


def due_but_cannot_follow(world: World) -> None:
    world.can_follow = False
    world.wait(11)


def due_but_cannot_start(world: World) -> None:
    world.can_follow, world.can_start = True, False
    world.wait(11)
    world.can_start = True


def due(world: World) -> None:
    world.can_follow = True
    world.wait(11)


EVENTS: dict[str, Callable[[World], None]] = {
    "the channels end": channels_end,
    "the capture dies": capture_dies,
    "the recorder dies": recorder_dies,
    "a signal": signal_comes,
    "a second signal": signal_comes,
    "a full disk": disk_is_full,
    "a disk that fails to write back": disk_fails,
    "a hand-over that can't begin": due_but_cannot_follow,
    "a hand-over whose recorder can't be started": due_but_cannot_start,
    "a hand-over": due,
}
HARMFUL = {"the capture dies", "the recorder dies", "a full disk", "a disk that fails to write back"}


# ---- when it happens


def at_once(_: World) -> None:
    """Before anything is open."""


def while_opening(world: World) -> None:
    """All interfaces are open, and the recorder isn't."""
    world.ready()


def while_going(world: World) -> None:
    world.ready()
    world.settle()


def while_handing_over(world: World) -> None:
    while_going(world)
    world.wait(11)


def while_overlapping(world: World) -> None:
    """The next recorder has opened OUT, and the one before hasn't ended."""
    while_handing_over(world)
    world.open(world.current())


def begun(plan: Plan, moment: Callable[[World], None] = while_going) -> World:
    """A run that has come to this moment."""
    world = World(plan)
    world.machine.begin(world.time)
    moment(world)
    return world
