"""Tries the reader of whole Chapter 11 files: files of a second writer are right, and each kind of damage of what packets
hold is named alone, at its place. test_whole_file_index.py has the index and the bytes."""

import random
import struct
from typing import NamedTuple

import pytest
from drawn_recording import DrawnRecording
from support import judge, judge_quietly, judge_same
from whole_file import MOST_NAMED, Origin, Setup, whole_file
from whole_file_parts import (
    ORIGIN,
    SAMPLE_SETUP,
    SECOND,
    Change,
    Edit,
    byte_set,
    exchanged,
    faults_of,
    parts_of,
    place_of,
    rebuilt,
    recorded,
    replaced,
    sample,
    sample_recording,
    with_data,
    with_fields,
    without,
)

RECORD, SETUP, INDEX, TIME, FRAMES = 0x00, 0x01, 0x03, 0x11, 0x68
TEN_MS = 100_000


# ---- what is right


@pytest.mark.parametrize("seed", range(30))
def test_files_of_drawn_recordings_are_right(seed: int) -> None:
    """Whatever origins hold, and with few entries a node too, so that nodes and roots follow one another."""
    draw = random.Random(seed)
    channels = draw.sample(range(1, draw.choice([9, 65_536])), draw.choice([1, 2, 8]))
    start = draw.choice([0, draw.randrange(2**47), 2**48 - 40 * SECOND])
    made = recorded(draw, channels, start, draw.choice([1, 3, 30]))
    noted = [
        (start + draw.randrange(30 * SECOND), ORIGIN + draw.randrange(-(10**12), 10**12)) for _ in range(seed % 4)
    ]
    setup = Setup(
        (Origin(0, draw.choice([0, ORIGIN])), *(Origin(*it) for it in noted)),
        host=draw.choice(["a", "  a b" * 9, "\u00e9"]),
        is_external=draw.choice([False, True]),
        attributes=draw.choice([(), ("G\\SC:U", "G\\SC:")]),
        channels={channels[0]: ("a;b:c\\d [x] " * 4, 7)},
    )
    for most_named in (MOST_NAMED, 2, 5):
        found = faults_of(bytes(whole_file(bytes(made.data), setup, most_named).data), most_named)
        judge_quietly(f"{seed}: nodes of {most_named}", found == [], found)


@pytest.mark.parametrize(
    "name", ["r-1\\TK1-2", "R-1\\TK1-2 ", " R-1\\N", "R-1\\CDT-03", "R-1\\TK1-", "R-01\\N", "g\\pn"]
)
def test_a_line_that_some_reader_takes_for_a_channels_is_wrong(name: str) -> None:
    setup = SAMPLE_SETUP._replace(attributes=(f"{name}:9",))
    found = faults_of(bytes(whole_file(sample_recording(), setup).data))
    holds = [it.partition(" ")[2] for it in found] == [f"the setup record has {name} twice, or of no channel"]
    judge(name, holds, found)


def test_an_origin_that_begins_just_ahead_of_a_second_is_right() -> None:
    """Its first time packet stands over a second behind the one before, and frames between them."""
    for milliseconds in range(1, 10):
        made = DrawnRecording()
        begins = SECOND - milliseconds * 10_000 + 5
        made.add_frames(1, [(0, 0, 60)])
        for step in range(20):
            made.add_frames(1, [(begins + step * 10_000, 0, 60)])
        setup = Setup((Origin(0, 0), Origin(begins, 10**15 + 3_333_300)))
        judge_same(f"{milliseconds} ms ahead", faults_of(bytes(whole_file(bytes(made.data), setup).data)), [])


def test_the_sample_is_right() -> None:
    """With nodes of few entries too; by the usual numbers such nodes aren't full."""
    judge("the sample", faults_of(sample()) == [] and faults_of(sample(2), 2) == [])
    holds = faults_of(sample(2))[0].endswith("a packet behind the end of the index")
    judge("nodes that aren't full", holds, faults_of(sample(2)))


# ---- what is wrong with what packets hold


class Damage(NamedTuple):
    """A change of a file's packets, behind which sequence numbers and the index are made anew; what is wrong then, and
    the packet that is named: its type, and which of these it is."""

    change: Change
    fault: str
    kind: int
    which: int


def of_text(edit: Edit, fault: str) -> Damage:
    """A change of the setup record."""
    return Damage(with_data(SETUP, 0, edit), fault, SETUP, 0)


def of_setup(old: str, new: str, fault: str) -> Damage:
    return of_text(replaced(old, new), fault)


def of_time(which: int, edit: Edit, fault: str) -> Damage:
    return Damage(with_data(TIME, which, edit), fault, TIME, which)


def of_frames(which: int, edit: Edit, fault: str) -> Damage:
    return Damage(with_data(FRAMES, which, edit), fault, FRAMES, which)


def of_record(which: int, edit: Edit, fault: str) -> Damage:
    return Damage(with_data(RECORD, which, edit), fault, RECORD, which)


def counter_moved(at: int, ticks: int) -> Edit:
    """Moves a counter of eight bytes within data."""
    return lambda data: data[:at] + struct.pack("<Q", struct.unpack_from("<Q", data, at)[0] + ticks) + data[at + 8 :]


def line_twice(line: str) -> Edit:
    """Has a line of the setup record once more at its end."""
    return lambda data: data + f"{line};\r\n".encode()


def renamed(channel: str) -> Edit:
    """Has another channel in the place of channel 5, in the setup record alone."""
    return lambda data: replaced("DSI-2:eth5 5", f"DSI-2:eth5 {channel}")(replaced("TK1-2:5", f"TK1-2:{channel}")(data))


HAS = "the setup record has"
SETUP_DAMAGES = {
    "another edition": of_text(byte_set(0, 11), "the setup record isn't RCC 106-17 in ASCII"),
    "a character beyond ASCII": of_setup("wing", "w\u00efng", "the setup record is no ASCII at its character 600"),
    "a line without its carriage return": of_setup("STO;\r\n", "STO;\n", f"{HAS} no NAME:VALUE; at its character 73"),
    "one channel less": of_setup("R-1\\N:4", "R-1\\N:3", f"{HAS} more channels than it says"),
    "one channel more": of_setup("R-1\\N:4", "R-1\\N:5", f"{HAS} no R-1\\TK1-5"),
    "a count that is no number": of_setup("R-1\\N:4", "R-1\\N:four", "R-1\\N is no number"),
    "a channel of another type": of_setup("CDT-2:ETHIN", "CDT-2:PCMIN", f"{HAS} a channel of type PCMIN"),
    "a channel twice": of_setup("TK1-2:5", "TK1-2:9", f"{HAS} channel 9 twice"),
    "the channel 0": of_text(renamed("0"), f"{HAS} channel 0"),
    "channels that fall": of_text(renamed("10"), "channels of the setup record don't rise"),
    "a channel of the time that isn't the least": of_setup(
        "TK1-1:1", "TK1-1:2", "the time has channel 2, which isn't the least that is free"
    ),
    "two channels of the time": of_setup("CDT-2:ETHIN", "CDT-2:TIMEIN", "R-1\\CDT-2 is 'TIMEIN'"),
    "no host": of_setup("G\\DSI-1:bench 3;\r\n", "", f"{HAS} G\\DST-1 in the place of G\\DSI-1"),
    "another document": of_setup("G\\106:17", "G\\106:15", "G\\106 is '15'"),
    "another host": of_setup("R-1\\ID:bench 3", "R-1\\ID:bench 4", "R-1\\ID is 'bench 4'"),
    "a name that begins with a blank": of_setup("R-1\\R1:bpfrec", "R-1\\R1: bpfrec", "R-1\\R1 is ' bpfrec 0.1.0'"),
    "another time of the beginning": Damage(
        with_data(SETUP, 0, replaced("12-01-2025-12-00-00", "12-01-2025-12-00-01")),
        "the setup record says 12-01-2025-12-00-01, and the first time packet 12-01-2025-12-00-00",
        TIME,
        0,
    ),
    "another date": of_setup("RI4:12-01-2025", "RI4:12-02-2025", "R-1\\RI4 is '12-02-2025-12-00-00'"),
    "another number of a channel": of_setup("TK4-3:3", "TK4-3:4", "R-1\\TK4-3 is '4'"),
    "a channel that is off": of_setup("CHE-2:T", "CHE-2:F", "R-1\\CHE-2 is 'F'"),
    "a name of a data source": of_setup("DSI-2:eth5 5", "DSI-2:eth6 5", "R-1\\DSI-2 is 'eth6 5'"),
    "a network of over a byte": of_setup("ENBR-2-1:3", "ENBR-2-1:256", "R-1\\ENBR-2-1 is '256'"),
    "a name of over 32 letters": of_setup(
        "ENAM-4-1:channel", f"ENAM-4-1:channel{'l' * 26}", "R-1\\DSI-4 is 'channel 12'"
    ),
    "lines in another order": of_setup(
        "R-1\\NSB:0;\r\nR-1\\IDX\\E:T;",
        "R-1\\IDX\\E:T;\r\nR-1\\NSB:0;",
        f"{HAS} R-1\\IDX\\E in the place of R-1\\NSB",
    ),
    "a line less": of_setup("R-1\\EV\\E:F;\r\n", "", f"{HAS} R-1\\N in the place of R-1\\EV\\E"),
    "another comment": of_setup("R-1\\COM:Packets", "R-1\\COM:Boxes", "R-1\\COM is 'Boxes of type 0 on channel 0"),
    "a line twice": of_text(line_twice("G\\OD:12-01-2025"), f"{HAS} G\\OD twice, or of no channel"),
    "a line of a channel that isn't there": of_text(
        line_twice("R-1\\CHE-77:T"), f"{HAS} R-1\\CHE-77 twice, or of no channel"
    ),
    "an external clock": Damage(
        with_data(SETUP, 0, replaced("TSRC-1:I", "TSRC-1:E")),
        "the time packet has another source than the setup record",
        TIME,
        0,
    ),
    "another counter than the first time packet's": Damage(
        with_fields(SETUP, 0, counter=5), f"{HAS} another counter than the first time packet", TIME, 0
    ),
    "a second setup record": Damage(
        lambda parts: [*parts[:3], parts[0], *parts[3:]], "a setup record within the file", SETUP, 1
    ),
}
TIME_DAMAGES = {
    "a digit over 9": of_time(1, byte_set(4, 0x1A), "a digit of the time is over 9"),
    "the second 60": of_time(2, byte_set(5, 0x60), "a time packet has no such time"),
    "the hour 24": of_time(2, byte_set(7, 0x24), "a time packet has no such time"),
    "the month 13": of_time(2, byte_set(9, 0x13), "a time packet has no such date"),
    "the year 4000": of_time(2, byte_set(11, 0x40), "a time packet of the year 4025"),
    "a leap year": of_time(2, byte_set(1, 3), "the word of a time packet is 0x330"),
    "a format of another day": of_time(2, byte_set(0, 0x20), "the word of a time packet is 0x220"),
    "an outside source": of_time(2, byte_set(0, 0x31), "the time packet has another source than the one ahead of it"),
    "a time packet that is too long": of_time(2, lambda data: data + bytes(4), "a time packet hasn't 12 bytes of data"),
    "a time packet that stands still": Damage(with_fields(TIME, 1, counter=99_999), "time packets don't rise", TIME, 1),
    "no first time packet": Damage(
        without(TIME, 0), "a file begins with its setup record and a time packet", RECORD, 0
    ),
    "a second missing ahead of frames": Damage(without(TIME, 2), "a time packet is missing ahead of it", TIME, 2),
    "a second missing in a silence": Damage(without(TIME, 4), "a time packet is missing ahead of it", TIME, 4),
    "the last second missing": Damage(without(TIME, -1), "the last time packet lies over a second ahead", FRAMES, -2),
    "a time packet that nothing follows": Damage(
        lambda parts: [it for it in parts if it.counter < 6 * SECOND or it.kind == TIME],
        "nothing follows the last time packet",
        TIME,
        -1,
    ),
}
FRAMES_DAMAGES = {
    "a body without its word": of_frames(1, lambda _: b"", "a body of frames has no word"),
    "a frame too many": of_frames(1, byte_set(0, 3), "a frame is cut"),
    "bytes behind the last frame": of_frames(1, lambda data: data + bytes(12), "frames don't fill their packet"),
    "no frame": of_frames(1, lambda _: bytes(4), "frames don't fill their packet"),
    "bits of a body's word": of_frames(1, byte_set(2, 1), "the word of a body of frames is 0x10002"),
    "a bit of a frame's word": of_frames(1, byte_set(13, 0x40), "a frame has other bits than its word's"),
    "bytes behind a counter": of_frames(1, byte_set(10, 1), "a frame has other bits than its word's"),
    "filler of an odd frame": of_frames(1, lambda data: data[:-1] + b"\1", "a frame has other bits than its word's"),
    "a counter beside its header's": of_frames(1, counter_moved(4, 1), "the counter isn't the first frame's"),
    "frames that fall": of_frames(1, counter_moved(76, -501), "frames of a packet don't rise"),
    "frames that span 100 ms": of_frames(1, counter_moved(76, 999_500), "frames of a packet span 100 ms"),
    "a channel that isn't there": Damage(
        with_fields(FRAMES, 1, channel=4_000), "the setup record has no channel 4000 of type 0x68", FRAMES, 1
    ),
    "frames of the channel of the time": Damage(
        with_fields(FRAMES, 1, channel=1), "the setup record has no channel 1 of type 0x68", FRAMES, 1
    ),
    "another type of packet": Damage(
        with_fields(FRAMES, 1, kind=0x40), "the setup record has no channel 9 of type 0x40", 0x40, 0
    ),
    "frames out of their turn": Damage(exchanged(4, 5), "a packet ahead of it had to stand behind it", FRAMES, 1),
    "frames over a second too late": Damage(
        lambda parts: [*parts[:4], *parts[5:13], parts[4], *parts[13:]],
        "the counter lies over a second behind an earlier one",
        FRAMES,
        5,
    ),
}
RECORD_DAMAGES = {
    "no tag": of_record(1, byte_set(4, 0), "a record of a kind that isn't known"),
    "another kind of record": of_record(1, byte_set(8, 3), "a record of a kind that isn't known"),
    "an instruction too few": of_record(1, lambda data: data[:-8], "a record of 36 bytes"),
    "an end that is too long": of_record(3, lambda data: data + bytes(4), "a record of 32 bytes"),
    "a record of a channel that isn't there": of_record(
        1, byte_set(10, 6), "the setup record has no channel 6, which a record names"
    ),
    "an end that was offered nothing, and has a counter": Damage(
        with_fields(RECORD, -1, counter=6 * SECOND),
        "the counter of an end that was offered nothing isn't the greatest",
        RECORD,
        -1,
    ),
    "an end out of its turn": Damage(exchanged(-1, -2), "a packet ahead of it had to stand behind it", RECORD, -1),
}
CONTENTS = {**SETUP_DAMAGES, **TIME_DAMAGES, **FRAMES_DAMAGES, **RECORD_DAMAGES}
# How many faults are named of those of which another one follows.
FAULTS = {
    **dict.fromkeys(("the channel 0", "channels that fall"), 7),
    **dict.fromkeys(("a channel of the time that isn't the least", "two channels of the time"), 8),
    **dict.fromkeys(("another date", "a name of over 32 letters", "an outside source"), 2),
    **dict.fromkeys(("a time packet that stands still", "a second missing ahead of frames"), 2),
    **dict.fromkeys(("no first time packet", "frames over a second too late"), 3),
}


@pytest.mark.parametrize("what", CONTENTS)
def test_damage_of_what_packets_hold_is_named_at_its_place(what: str) -> None:
    """And it alone, but where another one follows from it."""
    damage = CONTENTS[what]
    parts = [it for it in parts_of(sample()) if it.kind != INDEX]
    changed = rebuilt(damage.change(parts))
    place = place_of(parts_of(changed), damage.kind, damage.which)
    found = faults_of(changed)
    is_named = found[:1] and found[0].startswith(f"{place} {damage.fault}")
    judge(what, is_named and len(found) == FAULTS.get(what, 1), (place, found))


def test_an_end_of_a_run_may_be_last_whose_channel_was_quiet_in_the_last_recording() -> None:
    """It has the counts of the run, and the greatest counter of all, since it has none of its own."""
    parts = [it for it in parts_of(sample()) if it.kind != INDEX]
    judge_same("behind that of a greater channel", faults_of(rebuilt(exchanged(-2, -3)(parts))), [])
    less = rebuilt([*parts[:-2], parts[-2]._replace(counter=parts[-2].counter - 1), parts[-1]])
    judge("at the greatest counter alone", len(faults_of(less)) == 1, faults_of(less))


def test_time_packets_behind_their_frames_are_named() -> None:
    parts = [it for it in parts_of(sample()) if it.kind != INDEX]
    late = rebuilt(exchanged(6, 7)(parts))
    place = place_of(parts_of(late), TIME, 1)
    holds = f"{place} the time packet stands behind a frame or a record of its time" in faults_of(late)
    judge("behind a frame", holds, faults_of(late))
    early = rebuilt(exchanged(5, 6)(parts))
    named = [f"{place_of(parts_of(early), FRAMES, 1)} a time packet stands ahead of what is earlier"]
    judge("ahead of an earlier frame", faults_of(early) == named, faults_of(early))


def test_a_first_time_packet_that_is_far_from_the_least_counter_is_named() -> None:
    """Over 10 ms ahead of all that follows."""
    parts = [it for it in parts_of(sample()) if it.kind != INDEX]
    moved = [it._replace(counter=it.counter + 2 * TEN_MS) if it.kind == RECORD else it for it in parts]
    for at in (4, 5):
        data = counter_moved(76, 2 * TEN_MS)(counter_moved(4, 2 * TEN_MS)(parts[at].data))
        moved[at] = parts[at]._replace(counter=parts[at].counter + 2 * TEN_MS, data=data)
    changed = rebuilt(moved)
    fault = f"{place_of(parts_of(changed), TIME, 0)} the first time packet is far from the least counter, 201000"
    judge("the first time packet", fault in faults_of(changed), faults_of(changed))
