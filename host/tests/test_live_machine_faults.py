"""Tries the machine of bpfrec live by itself, without a process: full and failing disks, and killed recorders."""

from live_events import ROTATING, SINGLE, begun, disk_fails, recorder_dies, while_handing_over
from live_world import KILLED, Phase, World
from support import judge, judge_quietly, present


def test_after_a_full_disk_the_next_recording_waits_for_room() -> None:
    """And longer after each failure."""
    world = begun(ROTATING)
    for turn in range(3):
        played = world.current()
        world.has_space = False
        world.machine.output_failed(played.recording, world.time)
        world.settle()
        pause = 0.5 * 2 ** (turn + 1)
        world.wait(pause - 0.01)
        judge_quietly("nothing follows at once", world.current() is played)
        world.wait(0.02)
        judge_quietly("nor without room", world.current() is played)
        world.has_space = True
        world.let_pass(1.0)
        judge_quietly("but then", world.current() is not played and world.current().recording.phase is Phase.GOING)
        judge_quietly("the failed one is told", played.concluded == [1] and played.audits == 0)
    world.let_pass(10)
    judge("a recording that is handed over ends the row", world.machine.retries.failures == 0)


def test_after_a_disk_that_fails_to_write_back_recordings_follow_later_and_later() -> None:
    world = begun(ROTATING._replace(every=1_000))
    for turn in range(9):
        played = world.current()
        for _ in range(2):
            disk_fails(world)
        pause = 0.5 * 2 ** min(turn + 1, 7)
        world.wait(pause - 0.01)
        judge_quietly("nothing follows at once", world.current() is played)
        world.let_pass(0.02)
        holds = world.current() is not played and played.concluded == [0] and played.audits == 1
        judge_quietly("but then", holds, turn)
    judge("each is told once", len(world.said) == len(set(world.said)) == 9, world.said)
    world.let_pass(1_000)
    judge("one that is handed over well ends the row", world.machine.retries.failures == 0)
    world.end()
    judge("the status is 1", world.machine.status(False) == 1)


def test_a_recording_that_cannot_be_forced_goes_on_where_no_other_can_begin() -> None:
    world = begun(ROTATING._replace(every=1_000))
    disk_fails(world)
    world.can_follow = False
    for _ in range(100):
        world.wait(present(world.machine.deadline(world.time)) - world.time)
    judge("it is tried later and later", world.time > 1_000, world.time)
    judge("and goes on", world.machine.current.number == 1 and world.current().is_running)


def test_a_recording_that_its_recorder_could_not_force_is_audited_all_the_same() -> None:
    world = begun(SINGLE)
    disk_fails(world)
    played = world.current()
    world.end_recorder(played, 3)
    world.finish()
    judge("it is audited, and has its recorder's status", (played.audits, played.concluded) == (1, [3]))
    judge("the status is 1", world.machine.status(False) == 1)


def test_a_recording_that_cannot_be_forced_goes_on_where_none_follows() -> None:
    world = begun(SINGLE)
    disk_fails(world)
    world.wait(100)
    judge("nothing ends", world.machine.deadline(world.time) is None and world.current().is_running)
    world.end()
    judge("but the status is 1", world.machine.status(False) == 1 and world.current().audits == 1)


def test_a_killed_recorder_is_followed_by_the_next_recording() -> None:
    world = begun(ROTATING)
    first = world.current()
    recorder_dies(world)
    judge("the capture keeps the frames", world.held == 1 and world.asked_to_end == 0)
    world.let_pass(0)
    judge("the next one goes on", world.current() is not first and world.current().recording.phase is Phase.GOING)
    judge("the cut one is told, and isn't audited", first.concluded == [KILLED] and first.audits == 0)
    second = world.current()
    world.wait(9.9)
    recorder_dies(world)
    judge("it isn't looked at all the time", world.machine.deadline(world.time + 0.2) == world.time + 0.5)
    world.wait(0.49)
    judge("a second one in a row isn't followed at once", world.current() is second)
    world.let_pass(0.02)
    judge("but soon", world.current() is not second and world.is_capturing)
    world.end()
    judge("the status says that one was killed", world.machine.status(False) == KILLED)


def killed(world: World, count: int, pause: float) -> None:
    """So many recorders are killed, each so long after it was begun."""
    for _ in range(count):
        world.let_pass(pause)
        recorder_dies(world)
        world.let_pass(1)


def test_ten_killed_recorders_in_a_row_within_a_minute_end_the_run() -> None:
    world = begun(ROTATING._replace(every=1_000))
    killed(world, 9, 1)
    judge("nine don't", world.machine.current.number == 10 and world.is_capturing)
    killed(world, 1, 1)
    world.finish()
    line = "bpfrec live: 10 recorders in a row were killed within a minute: the recording ends"
    judge("the tenth does, with a line", world.said[-1] == line and not world.is_left(), world.said)
    judge("the status is that of the first", world.machine.status(False) == KILLED)
    judge("each is told", all(it.concluded == [KILLED] for it in world.played.values()))


def test_ten_killed_recorders_in_more_than_a_minute_end_nothing() -> None:
    world = begun(ROTATING._replace(every=1_000))
    killed(world, 30, 6)
    judge("recordings go on", world.machine.current.number == 31 and world.is_capturing, world.said)


def test_a_recording_that_is_handed_over_well_ends_a_row_of_kills() -> None:
    world = begun(ROTATING._replace(every=3))
    for _ in range(30):
        killed(world, 1, 0.5)
        world.let_pass(3)
    judge("recordings go on", world.is_capturing and world.current().is_running, world.said)


def test_a_recorder_that_is_killed_while_it_opens_is_followed_too() -> None:
    """The one before goes on until another one takes its frames."""
    world = begun(ROTATING, while_handing_over)
    first, second = world.played[1], world.current()
    world.consequences.clear()
    recorder_dies(world)
    world.wait(0)
    third = world.current()
    judge("another one begins", third is not second and world.machine.before is first.recording and first.is_running)
    judge("the killed one is gone", second.is_discarded and second.concluded == [KILLED])
    world.settle()
    judge("and the one before has ended", first.concluded == [0] and third.recording.phase is Phase.GOING)
