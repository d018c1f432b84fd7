"""The records of frames in a feed, and the counts of those that were skipped or found no room (capture/src/feed.c)."""

import fcntl
import os
import struct
import sys
import termios
import threading

import pytest
from c_units import Script
from frames import Record, records, with_check_sequence
from support import MILLISECOND, pipe_at, wait_for

HEAD_LEN, FCS_LEN = 9, 4
SET_PIPE_SIZE = 1031


def drawn(length: int) -> bytes:
    """The bytes of a frame without its check sequence, as the program draws them."""
    return bytes((at * 7 + length) % 256 for at in range(length))


class Unit(Script):
    """A feed into a file, or whatever its path names."""

    PROGRAM = "feed"

    def open(self, path: str = "") -> None:
        assert self.ask("open", path or self.path) == "1"

    def put(
        self, length: int, counter: int = 0, *, cut: bool = False, has_fcs: bool = False, marks: int = 0, wrong: int = 0
    ) -> int:
        """Puts a frame of this many bytes; `wrong` are the bits of its check sequence that are."""
        return int(self.ask("frame", counter, length, int(not cut), int(has_fcs), marks, wrong))

    def counts(self) -> list[int]:
        """The frames, their bytes, and the frames that were skipped."""
        return [int(it) for it in self.ask("counts").split()]

    def take_unwritten(self) -> int:
        return int(self.ask("unwritten"))

    def records(self) -> list[Record]:
        assert self.ask("flush") == "1"
        return records(self.path.read_bytes())


def test_a_frame_without_its_check_sequence_is_padded_to_60_bytes_and_gets_it(unit: Unit) -> None:
    unit.open()
    lengths = [1_000, 14, 15, 59, 60, 61, 1_514, 16_379]
    assert [unit.put(it) for it in lengths] == [1] * len(lengths)
    frames = [with_check_sequence(drawn(it).ljust(60, b"\0")) for it in lengths]
    assert [(it.marks, it.frame) for it in unit.records()] == [(0, it) for it in frames]
    assert unit.counts() == [len(frames), sum(map(len, frames)), 0]


def test_a_frame_with_its_check_sequence_stays_as_it_is_and_a_wrong_one_is_marked_beside_its_marks(unit: Unit) -> None:
    unit.open()
    wanted = []
    for length in (18, 60, 64, 1_518, 16_383):
        for marks, wrong in ((0, 0), (0, 1), (0, 1 << 31), (1, 0), (2, 0), (2, 1), (3, 1)):
            unit.put(length, has_fcs=True, marks=marks, wrong=wrong)
            # Its bytes are drawn by the length with the check sequence.
            frame = with_check_sequence(drawn(length)[:-FCS_LEN])
            last = int.from_bytes(frame[-FCS_LEN:], "little") ^ wrong
            wanted.append((marks | (wrong != 0), frame[:-FCS_LEN] + struct.pack("<I", last)))
    unit.put(60, marks=3)
    found = [(it.marks, it.frame) for it in unit.records()]
    assert found[:-1] == wanted and found[-1][0] == 3


def test_a_frame_that_is_cut_or_of_a_length_that_no_feed_takes_is_counted_as_skipped(unit: Unit) -> None:
    unit.open()
    put = [unit.put(it) for it in (0, 1, 13, 16_380, 16_384, 65_535)]
    put += [unit.put(it, has_fcs=True) for it in (0, 3, 4, 17, 16_384, 65_535)]
    put += [unit.put(it, cut=True, has_fcs=has_fcs) for it in (14, 60, 16_379) for has_fcs in (False, True)]
    assert (put, unit.records(), unit.counts()) == ([1] * 18, [], [0, 0, 18])


def test_records_have_the_48_bits_of_their_counters_and_are_in_order(unit: Unit) -> None:
    """Also of more bytes than are kept."""
    unit.open()
    counters = [0, 1, 255, 256, 2**32 - 1, 2**32, 0x0102_0304_0506, 2**48 - 1]
    wanted = [(it, 1_000 + at) for at, it in enumerate(counters * 25)]
    for counter, length in wanted:
        unit.put(length, counter)
    assert [(it.counter, len(it.frame) - FCS_LEN) for it in unit.records()] == wanted


def test_frames_that_a_full_disk_does_not_take_are_not_the_feeds(unit: Unit) -> None:
    """It keeps 16 MiB for another output, and those past it are lost."""
    unit.open("/dev/full")
    put = [unit.put(16_379, number) for number in range(1_100)]
    kept = (1 << 24) // (HEAD_LEN + 16_383)
    assert put[:8] == [1] * 7 + [0] and set(put[kept:]) == {0}
    assert unit.ask("flush") == "0" and unit.ask("fault") == "No space left on device"
    assert unit.counts() == [kept, kept * 16_383, 0] and kept < len(put)
    assert unit.take_unwritten() == len(put) and unit.counts() == [0, 0, 0] and unit.take_unwritten() == 0


MARK = "060504030201 00 0000"


def test_a_time_mark_is_written_at_once_behind_what_waits_and_is_in_no_count(unit: Unit) -> None:
    unit.open()
    unit.put(60, 7)
    assert unit.ask("mark", 0x0102_0304_0506) == unit.ask("mark", 0x0102_0304_0506) == "1"
    assert unit.path.read_bytes()[HEAD_LEN + 64 :] == bytes.fromhex(MARK * 2)
    assert unit.counts() == [1, 64, 0] and unit.take_unwritten() == 0 and unit.counts() == [1, 64, 0]


@pytest.mark.parametrize("last", [0, 7, 2**47, 2**48 - 1], ids=str)
def test_a_time_mark_below_the_last_record_is_left_out_also_where_counters_turn(unit: Unit, last: int) -> None:
    """A frame that was skipped has no counter."""
    unit.open()
    unit.put(60, last)
    unit.put(0, last + 2**46)
    steps = [-1, -1_000, -(2**47), 0, 1, 0, 1_000, 999, 2**47 + 1_000, 2**47 + 999]
    marks = [(last + it) % 2**48 for it in steps]
    assert [unit.ask("mark", it) for it in marks] == ["1"] * len(marks)
    assert [it.counter for it in unit.records()[1:]] == [marks[at] for at in (3, 4, 6, 9)]


def test_a_time_mark_that_a_full_pipe_has_no_room_for_is_left_out(unit: Unit) -> None:
    pipe = os.open(pipe_at(unit.work, unit.path.name), os.O_RDONLY | os.O_NONBLOCK)
    room = fcntl.fcntl(pipe, SET_PIPE_SIZE, 1)
    unit.open()
    unit.put(room - HEAD_LEN, has_fcs=True)
    assert unit.ask("flush") == "1"
    # A mark that waited would find that its reader has left.
    leaving = threading.Timer(0.2, os.close, [pipe])
    leaving.start()
    assert unit.ask("mark", 9) == "1"
    leaving.join()
    assert unit.ask("mark", 9) == "0" and unit.ask("fault") == "its reader has left"


def test_a_time_mark_for_a_reader_who_left_is_not_of_the_next_feed(unit: Unit) -> None:
    count, taken = fill(unit, 64)
    assert unit.ask("mark", 2**40) == "0"
    unit.path.unlink()
    assert unit.ask("switch") == "0"
    assert [it.counter for it in unit.records()] == list(range(taken, count)) and unit.counts()[0] == count


def leave_once_full(pipe: int, room: int) -> None:
    """As a reader does who reads nothing."""
    wait_for("it is", lambda: int.from_bytes(fcntl.ioctl(pipe, termios.FIONREAD, bytes(4)), sys.byteorder) >= room)
    os.close(pipe)


def fill(unit: Unit, length: int) -> tuple[int, int]:
    """Puts half as many frames again as a pipe takes whose reader leaves then: their count, and how many it has whole."""
    pipe = os.open(pipe_at(unit.work, unit.path.name), os.O_RDONLY | os.O_NONBLOCK)
    room = fcntl.fcntl(pipe, SET_PIPE_SIZE, 1)
    unit.open()
    count, taken = room * 3 // 2 // (HEAD_LEN + length), room // (HEAD_LEN + length)
    for number in range(count):
        unit.put(length, number, has_fcs=True)
    threading.Thread(target=leave_once_full, args=(pipe, room), daemon=True).start()
    assert unit.ask("flush") == "0" and unit.ask("fault") == "its reader has left"
    return count, taken


@pytest.mark.parametrize("length", [55, 64], ids=["at_a_records_end", "within_a_record"])
def test_frames_that_a_reader_who_leaves_has_not_taken_whole_are_not_the_feeds(unit: Unit, length: int) -> None:
    count, taken = fill(unit, length)
    assert unit.take_unwritten() == count - taken
    assert unit.counts() == [taken, taken * length, 0]


def test_after_a_reader_who_left_the_next_file_begins_with_the_first_record_not_taken_whole(unit: Unit) -> None:
    count, taken = fill(unit, 64)
    unit.path.unlink()
    assert unit.ask("switch") == "0"
    unit.put(60, count)
    assert [it.counter for it in unit.records()] == list(range(taken, count + 1))
    assert unit.counts() == [count + 1, (count + 1) * 64, 0] and unit.take_unwritten() == 0


def test_a_feed_goes_over_between_two_records_and_the_file_before_stays_as_it_is(unit: Unit) -> None:
    unit.open()
    unit.put(60, 1)
    old = unit.path.rename(unit.path.with_name("old"))
    assert unit.ask("switch") == "0"
    unit.put(60, 2)
    assert [it.counter for it in unit.records()] == [2]
    assert [it.counter for it in records(old.read_bytes())] == [1]


def test_a_file_that_is_there_is_emptied_before_a_feed_goes_over_to_it(unit: Unit) -> None:
    unit.open()
    unit.put(60, 1)
    unit.path.rename(unit.path.with_name("old"))
    unit.path.write_bytes(b"older and longer" * 1_000)
    assert unit.ask("switch") == "0"
    unit.put(60, 2)
    assert [it.counter for it in unit.records()] == [2]


def test_a_record_waits_for_a_millisecond_at_most_while_others_come(unit: Unit) -> None:
    """Since the first that waits came."""
    unit.wait(0)
    unit.open()
    for first in (1, 4):
        for number in range(first, first + 3):
            unit.put(60, number)
            unit.wait(MILLISECOND // 3)
        unit.wait(MILLISECOND - 3 * (MILLISECOND // 3))
        assert unit.ask("old") == "1" and len(records(unit.path.read_bytes())) == first - 1
        unit.wait(1)
        assert unit.ask("old") == "1" and len(records(unit.path.read_bytes())) == first + 2
