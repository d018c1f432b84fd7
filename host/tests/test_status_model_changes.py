"""Tries what the status knows of filters that change in a run, of pauses, and of marks.

Its moments are the script's, so nothing waits here.
"""

from pathlib import Path

import pytest
from scripted import Flight, Marked, Wire, channel_of, program, view_of
from support import judge

# ---- filters


def version_of(flight: Flight) -> int:
    return channel_of(flight, 1).version


def test_a_new_filter_is_told_at_once(work: Path) -> None:
    flight = Flight(work, {1: Wire("eth0")}).flown(1)
    judge("the first version is 0", version_of(flight) == 0)
    flight.status.filter_changed(1, 1, "udp")
    judge("one that was installed is told at once", version_of(flight) == 1)
    flight.status.filter_changed(1, 2, "arp")
    flight.append(program(1, 1, 7))
    flight.pass_second()
    judge("of several the last", version_of(flight) == 2)
    judge("the history has the version of each second", [it.version for it in channel_of(flight, 1).history] == [0, 2])
    flight.begin("next.ch11")
    flight.pass_second()
    judge("a recording that follows begins anew", version_of(flight) == 0)


def test_a_filter_has_its_name_and_its_changes_over_the_whole_run(work: Path) -> None:
    flight = Flight(work, {1: Wire("eth0", filter="wire.txt"), 2: Wire("eth1")}).flown()
    judge("as it was given", [it.filter for it in view_of(flight).channels] == [("wire.txt", 0), ("all", 0)])
    flight.status.filter_changed(1, 1, "udp port 5004")
    flight.status.filter_changed(1, 2, "arp")
    judge("each change counts", channel_of(flight, 1).filter == ("arp", 2))
    flight.end_recording()
    flight.wires[1].filter = "arp"
    flight.begin("next.ch11")
    judge("the count goes on in the next recording", channel_of(flight, 1).filter == ("arp", 2))
    judge("whose versions begin anew", version_of(flight) == 0)


# ---- pauses


def test_what_came_in_a_pause_is_spread_over_its_seconds(work: Path) -> None:
    """Of frames that came and frames that were kept, so that no second has the sum of all."""
    flight = Flight(work, {1: Wire("eth0", frames=400, kept=50)}).flown(20)
    flight.pause(12)
    flight.pass_seconds(5)
    history = channel_of(flight, 1).history
    came = [it.offered_frames for it in history]
    judge("each second has its own that came", came[2:] == pytest.approx([400.0] * (len(came) - 2)), came)
    kept = [it.kept_frames for it in history]
    judge("and its own that were kept", max(kept) <= 200.1, kept)
    judge("and none is missing", sum(kept) == pytest.approx(200 * 38), sum(kept))


def test_a_status_that_stood_still_itself_spreads_what_came(work: Path) -> None:
    """The lines of all these seconds come at once."""
    flight = Flight(work, {1: Wire("eth0", frames=400)}).flown(20)
    moments = flight.second
    for _ in range(15):
        flight.come()
        moments += 1
    flight.second = moments
    for _ in range(15):
        flight.count()
    flight.status.tick(flight.now())
    flight.pass_seconds(3)
    came = [it.offered_frames for it in channel_of(flight, 1).history]
    judge("each second has its own", came[2:] == pytest.approx([400.0] * (len(came) - 2)), came)


def test_the_last_marks_are_shown_with_their_age(work: Path) -> None:
    flight = Flight(work, {1: Wire("eth0")}).flown()
    for number in range(40):
        flight.status.marked(
            Marked(str(flight.path), number, "2025-12-01T12:00:00.0000000Z", f"m{number}"), flight.now()
        )
        flight.second += 1
    found = view_of(flight).marks
    judge("so many at most", [it.text for it in found] == [f"m{number}" for number in range(8, 40)])
    judge("the last with its age and its recording", found[-1][:2] == ("flight.ch11", 39) and found[-1].age == 1)
