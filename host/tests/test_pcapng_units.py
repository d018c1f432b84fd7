"""Tries parts of bpfrec export by themselves: many packets, many filters, and what no capture has."""

from pathlib import Path
from types import SimpleNamespace
from typing import cast

import pytest
from bpfrec.core.index import Index, Place
from bpfrec.core.recordings import Recording
from bpfrec.core.times import Times, places_in
from bpfrec.formats.body import Range
from bpfrec_tools.cli.streams import readable
from bpfrec_tools.export.merging import Interface, Slice
from frames import FRAMES, body_of, packet_of, program_packet
from support import judge

MANY = 3_000


@pytest.mark.parametrize("step_at", [1, 999, 1_000, MANY - 1])
def test_where_times_step_back_each_packet_is_looked_at(step_at: int) -> None:
    places = [Place(1, 10 * number - 20 * (number == step_at), number, 1, 0) for number in range(MANY)]
    judge("all are", places_in(places, [Range(50, 60)]) == places)


def test_of_times_that_rise_the_packets_of_a_range_are_looked_at_and_the_one_before() -> None:
    places = [Place(1, 10 * number, number, 1, 0) for number in range(MANY)]
    found = places_in(places, [Range(20_000, 20_011), Range(29_990, 2**48)])
    judge("these", found == [*places[1_999:2_002], *places[2_998:]], found)


@pytest.mark.parametrize("count", [1, 255, 256, 257, 1_024])
def test_a_packet_of_frames_has_the_filter_before_it_however_many_came(work: Path, count: int) -> None:
    frames = packet_of(1, body_of([(5, 0, bytes(60))]), 0, FRAMES, 5, True)
    programs = [program_packet(1, number) for number in range(count)]
    (work / "x.ch11").write_bytes(b"".join([*programs, frames]))
    index = Index(readable(str(work / "x.ch11")), print)
    index.read()
    (place,) = index.channels[1].packets
    judge("it is the last", place.program == count - 1 == index.channels[1].programs[-1].version)
    (frame,) = Slice(Recording(index, Times(None)), 1, [Range(0, 2**48)]).frames()
    judge("and so it is of its frames", frame.program == count - 1)
    index.file.file.close()


def test_frames_that_no_capture_has_are_counted_in_each_recording() -> None:
    parts = [SimpleNamespace(slice=SimpleNamespace(skipped=it)) for it in (1, 20, 300)]
    judge("together", Interface.skipped(cast(Interface, SimpleNamespace(parts=parts))) == 321)
