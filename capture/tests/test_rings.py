"""The two rings of an interface, by turns (capture/src/rings.c and ring.c)."""

import pytest
from c_units import Script
from support import MILLISECOND

QUIET, BURST = 0, 1
SLOTS = 100
# It is a burst once so many frames come within less than so long, and none once fewer come in so long.
BURST_FRAMES, BURST_TIME = 64, 16 * MILLISECOND
QUIET_FRAMES, QUIET_TIME = 100, 100 * MILLISECOND


class Unit(Script):
    """An interface that has its rings since this moment, and whose frames have numbers."""

    PROGRAM = "rings"

    def begin(self) -> None:
        self.wait(0)
        assert self.ask("begin") == "1" and self.where() == (QUIET, QUIET)
        self.count = 0

    def come(self, count: int) -> None:
        self.ask("come", count)
        self.count += count

    def taken(self, call: str = "turn") -> list[int]:
        """The frames that are taken then."""
        return [int(it) for it in self.ask(call).split()]

    def turn(self, count: int, time: int) -> list[int]:
        """The frames that are taken, after so many came in so long."""
        self.come(count)
        self.wait(time)
        return self.taken()

    def where(self) -> tuple[int, int]:
        """The ring that frames are taken of, and the one that they go into."""
        in_use, filled = map(int, self.ask("where").split())
        return in_use, filled

    def on_its_way(self) -> int:
        """For how long a frame may be that isn't seen yet."""
        return int(self.ask("way"))

    def burst(self) -> None:
        """Many frames come."""
        self.turn(BURST_FRAMES, 0)
        assert self.where() == (BURST, BURST)


@pytest.mark.parametrize(
    "count, time, wanted",
    [
        (BURST_FRAMES - 1, 0, QUIET),
        (BURST_FRAMES, BURST_TIME, QUIET),
        (BURST_FRAMES, BURST_TIME - 1, BURST),
        (500, BURST_TIME, QUIET),
    ],
)
def test_frames_go_into_the_burst_ring_once_so_many_come_in_so_short_a_time(
    unit: Unit, count: int, time: int, wanted: int
) -> None:
    unit.begin()
    assert unit.turn(count, time) == list(range(count)) and unit.where() == (wanted, wanted)


@pytest.mark.parametrize(
    "count, time, wanted",
    [
        (QUIET_FRAMES - 1, QUIET_TIME, QUIET),
        (QUIET_FRAMES, QUIET_TIME, BURST),
        (0, QUIET_TIME - 1, BURST),
        (0, QUIET_TIME, QUIET),
    ],
)
def test_they_go_into_the_quiet_ring_again_once_fewer_come_in_a_longer_time(
    unit: Unit, count: int, time: int, wanted: int
) -> None:
    unit.begin()
    unit.burst()
    assert len(unit.turn(count, time)) == count and unit.where() == (wanted, wanted)


def test_over_a_thousand_bursts_each_frame_is_taken_once_and_in_order(unit: Unit) -> None:
    """Each time is counted anew: what came in bursts before keeps no ring, and frames that come singly make none."""
    unit.begin()
    found: list[int] = []
    for _ in range(1_000):
        found += unit.turn(BURST_FRAMES, 0)
        assert unit.where() == (BURST, BURST)
        found += unit.turn(30, QUIET_TIME)
        assert unit.where() == (QUIET, QUIET)
        for _ in range(3):
            found += unit.turn(30, QUIET_TIME)
            assert unit.where() == (QUIET, QUIET)
    assert found == list(range(unit.count))


def test_frames_that_come_while_none_are_taken_go_into_the_burst_ring_once_the_quiet_one_fills(unit: Unit) -> None:
    """Once more than three quarters of its slots are, or one had no room; all are taken in their order."""
    unit.begin()
    unit.come(SLOTS * 3 // 4)
    unit.ask("relieve")
    assert unit.where() == (QUIET, QUIET)
    unit.come(1)
    unit.ask("relieve")
    assert unit.where() == (QUIET, BURST)
    unit.come(300)
    assert unit.taken() == list(range(SLOTS * 3 // 4 + 1)) and unit.taken()[-1] == unit.count - 1


def test_a_quiet_ring_that_had_no_room_for_a_frame_gets_no_more(unit: Unit) -> None:
    unit.begin()
    unit.ask("drop", QUIET)
    unit.ask("relieve")
    assert unit.where() == (QUIET, BURST)


def test_rings_that_the_kernel_exchanged_are_exchanged_back(unit: Unit) -> None:
    """As it may while an interface is down; what came before is taken first, and none is left out."""
    unit.begin()
    unit.come(5)
    unit.ask("down")
    unit.come(5)
    found = unit.taken() + unit.taken("exchange")
    assert unit.where() == (BURST, BURST)
    found += unit.turn(20, QUIET_TIME) + unit.turn(20, QUIET_TIME)
    assert unit.where() == (QUIET, QUIET)
    assert found == list(range(unit.count))


def test_a_frame_may_be_on_its_way_for_20_ms_and_for_50_ms_where_a_block_has_some(unit: Unit) -> None:
    """Frames that the kernel dropped are in no block; those of a block may be there while the quiet ring is in use."""
    unit.begin()
    unit.come(1)
    assert unit.on_its_way() == 20 * MILLISECOND
    unit.burst()
    unit.ask("drop", BURST)
    assert unit.on_its_way() == 20 * MILLISECOND
    unit.come(1)
    assert unit.on_its_way() == 50 * MILLISECOND
    unit.turn(0, QUIET_TIME)
    assert unit.where() == (QUIET, QUIET) and unit.on_its_way() == 20 * MILLISECOND
    unit.ask("down")
    unit.come(1)
    assert unit.on_its_way() == 50 * MILLISECOND


@pytest.mark.parametrize("is_burst", [False, True], ids=["quiet", "burst"])
def test_at_the_end_both_rings_are_shut_and_emptied_the_one_in_use_first(unit: Unit, is_burst: bool) -> None:
    unit.begin()
    if is_burst:
        unit.burst()
    first = unit.count
    unit.come(SLOTS)
    unit.ask("relieve")
    unit.come(SLOTS)
    assert unit.taken("end") == list(range(first, unit.count))
    assert unit.ask("shut") == "1 1"
    unit.come(1)
    assert unit.taken("end") == []
