"""Tries the table of the status on a terminal: a pseudo-terminal, whose screen is followed by a reading of its own."""

import contextlib
import fcntl
import os
import pty
import re
import struct
import termios
import time
from collections.abc import Iterator
from pathlib import Path

import pytest
from bpfrec.formats.clock_state import ClockState
from screen import Screen, columns_of
from scripted import Flight, Terminal, Wire, table, told_of, wires_of
from support import judge, judge_quietly, judge_same

KEEPS_NOTHING = ("KEEPS", "NOTHING", "all")


class Shown:
    """A terminal, and what it shows."""

    def __init__(self, columns: int = 100, lines: int = 30) -> None:
        self.outer, self.inner = pty.openpty()
        self.screen = Screen(columns, lines)
        self.resize(columns, lines)
        self.terminal = Terminal(self.inner)
        os.set_blocking(self.outer, False)

    def resize(self, columns: int, lines: int) -> None:
        self.screen.columns, self.screen.lines = columns, lines
        fcntl.ioctl(self.inner, termios.TIOCSWINSZ, struct.pack("HHHH", lines, columns, 0, 0))

    def read(self) -> str:
        found = b""
        with contextlib.suppress(BlockingIOError):
            while part := os.read(self.outer, 1 << 16):
                found += part
        self.screen.write(found.decode())
        self.came = found
        return self.screen.text()

    def close(self) -> None:
        self.terminal.close()
        os.close(self.outer)
        os.close(self.inner)


@pytest.fixture(autouse=True)
def term(monkeypatch: pytest.MonkeyPatch) -> None:
    monkeypatch.setenv("TERM", "xterm")


@pytest.fixture
def shown() -> Iterator[Shown]:
    made = Shown()
    yield made
    made.close()


def plain(lines: list[str]) -> list[str]:
    return [re.sub(r"\x1b\[[0-9;]*m", "", it) for it in lines]


# ---- its lines


def test_the_table_shows_the_run_the_disk_and_each_channel(work: Path) -> None:
    flight = Flight(work, {1: Wire("eth0", frames=400, kept=50), 22: Wire("eth1", frames=500, kept=0)}).flown(70)
    lines = table.lines_of(*told_of(flight), 120, 30)
    found = plain(lines)
    size = f"{flight.path.stat().st_size / 1e6:.1f} MB"
    judge("the first says whether all is well", found[0] == "RECORDING, 1 ALARM", found)
    judge("the recording", found[1].startswith(f"flight.ch11  1 min 10 s  {size}, "), found[1])
    judge("the disk, and the sync", re.fullmatch(r"disk .* free, full in .*  synced 0 s ago", found[2]), found[2])
    holds = found[3].startswith("channel 22 (eth1): the filter keeps nothing, or too little")
    judge("the alarm's sentence", holds, found[3])
    titles = ["channel", "came", "kept", "lost", "came/s", "kept/s", "last", "state,", "filter"]
    judge("a title", found[4].split() == titles, found[4])
    holds = found[5].split() == ["1", "eth0", "28,000", "14,000", "0", "400", "200", "0", "s", "all", "█" * 20]
    judge("a channel that is well", holds, found[5])
    holds = found[6].split() == ["22", "eth1", "35,000", "0", "0", "500", "0", "0", "s", *KEEPS_NOTHING, "█" * 16]
    judge("and one that isn't", holds, found[6])
    judge("in red", lines[6].startswith("\x1b[97;41m") and lines[6].endswith("\x1b[0m") and "\x1b" not in lines[5])
    narrow = plain(table.lines_of(*told_of(flight), 100, 30))
    judge("its bar has the room that there is", narrow[5].endswith("all".ljust(25) + "█" * 10), narrow[5])
    narrow = plain(table.lines_of(*told_of(flight), 79, 30))
    judge("a narrow table has the filter alone", narrow[5].endswith("0 s  all") and "█" not in narrow[5], narrow[5])
    judge("or what is wrong, whole", narrow[6].endswith("0 s  KEEPS NOTHING"), narrow[6])
    judge_report(flight, len(found))
    named = told_of(flight)[0].channels[0]._replace(name="bus A")
    judge("a name beside its interface", table.row(named, ()).text.split()[:4] == ["1", "bus", "A,", "eth0"], named)
    flight.end_recording()
    flight.status.ended(flight.now())
    found = plain(table.lines_of(*told_of(flight), 120, 30))
    judge("at the end", found[0] == "ENDED" and len(found) == 4, found)


def judge_report(flight: Flight, count: int) -> None:
    """What a line asks for has all of the table."""
    flight.status.filter_changed(22, 1, "udp port 5004 and not net 192.0.2.0/24")
    asked = flight.status.report(flight.now())
    words = "KEEPS NOTHING udp port 5004 and not net 192.0.2.0/24 (1 change)"
    judge("the whole filter", asked[-1].endswith(words), asked)
    judge("in all lines, without colours", len(asked) == count and "\x1b" not in "".join(asked), asked)


def test_a_clock_that_is_not_synchronised_stands_beside_the_recording(work: Path) -> None:
    flight = Flight(work, {1: Wire("eth0")}).flown(70)
    for state, is_told in ((ClockState(), False), (ClockState(True, 0.1), False), (ClockState(False, 0.1), True)):
        flight.status.clock_seen(state, None)
        line = plain(table.lines_of(*told_of(flight), 120, 30))[1]
        holds = line.endswith("  clock not synchronised") == is_told and line.startswith("flight.ch11")
        judge(f"{state}: {line}", holds)


def test_a_pipe_that_waits_is_a_warning_beside_the_graph(work: Path) -> None:
    flight = Flight(work, {1: Wire("eth0", waited=99), 2: Wire("eth1", waited=100)}).flown(70)
    lines = table.lines_of(*told_of(flight), 120, 30)
    found = plain(lines)
    judge("a warning and an alarm", found[0] == "RECORDING, 1 ALARM, 1 warning", found)
    ends = "PIPE WAITS " + "all".ljust(25) + "█" * 19
    judge("each with its filter and its graph", [it.endswith(ends) for it in found[6:8]] == [True] * 2, found)
    judge("in yellow and red", [it[:8] for it in lines[6:8]] == ["\x1b[30;43m", "\x1b[97;41m"], lines)
    narrow = plain(table.lines_of(*told_of(flight), 109, 30))[6]
    judge("in the room that there is", 0 < narrow.count("█") < 20 and len(narrow) == 109, narrow)


@pytest.fixture(scope="module")
def many(place: Path) -> Flight:
    """64 channels, of which one is silent and one has an odd name."""
    wires = wires_of(64)
    wires[40].end, wires[7].interface = 30, "\u202eshort\x1b[31m\u4e2d\u6587\u4e2d\u6587\u4e2d\u6587\u4e2d\u6587\u4e2d"
    return Flight(place, wires).flown(45)


@pytest.mark.parametrize("width", [1, 20, 40, 79, 200])
@pytest.mark.parametrize("height", [1, 3, 4, 5, 9, 24, 80])
def test_the_table_fits_each_width_and_height(many: Flight, width: int, height: int) -> None:
    flight = many
    found = plain(table.lines_of(*told_of(flight), width, height))
    widest = max(sum(map(columns_of, it)) for it in found)
    judge_quietly(f"{width} columns: the widest has {widest}", widest <= max(width, 20))
    judge_quietly(f"{height} lines", len(found) <= height)
    judge_quietly("no control is in it", all(it.isprintable() for it in found))
    channels = [it for it in found if re.match(r" +\d+ ", it)]
    if height >= 9:
        judge_quietly("a channel with an alarm is always there", any(it.split()[0] == "40" for it in channels), found)
        left = [it for it in found if it.startswith("and ")]
        holds = len(channels) == 64 or left == [table.cut(f"and {64 - len(channels)} more channels", max(width, 20))]
        judge_quietly("and the rest is counted", holds, found)


# ---- on a terminal


def test_the_table_is_written_in_its_place_with_lines_above_it(work: Path, shown: Shown) -> None:
    flight = Flight(work, {1: Wire("eth0"), 2: Wire("eth1")}).flown(5)
    for second in range(20):
        flight.pass_second()
        judge_quietly("it has room", shown.terminal.draw(*told_of(flight)))
        if second in (3, 9):
            shown.terminal.show([f"said in second {second}"])
        if second == 12:
            flight.wires[1].dropped = 3
        shown.read()
    rows = shown.read().rstrip("\n").split("\n")
    holds = rows == ["said in second 3", "said in second 9", *plain(table.lines_of(*told_of(flight), 99, 29))]
    judge("one table stands there, below what was said", holds, rows)


def test_what_is_typed_stays_below_the_table(work: Path, shown: Shown) -> None:
    flight = Flight(work, {1: Wire("eth0"), 2: Wire("eth1")}).flown(5)
    shown.terminal.draw(*told_of(flight))
    for typed in ("set ", "2 ", "file"):
        shown.read()
        shown.screen.write(typed)
        flight.pass_second()
        shown.terminal.draw(*told_of(flight))
    rows = shown.read().split("\n")
    judge_same("what is typed stays", rows, [*plain(table.lines_of(*told_of(flight), 99, 29)), "set 2 file"])
    for what in ("drawn", "said"):
        shown.screen.write("\n")
        shown.terminal.note_typed()
        if what == "said":
            shown.terminal.show(["installed 2 1 407"])
        flight.pass_second()
        shown.terminal.draw(*told_of(flight))
        judge_quietly(f"one table stands there: {what}", shown.read().count("RECORDING") == 1, shown.read())
    rows = shown.read().rstrip("\n").split("\n")
    wanted = plain(table.lines_of(*told_of(flight), 99, 29))
    judge("and one table is there afterwards", rows == ["installed 2 1 407", *wanted], rows)


def test_lines_of_the_same_terminal_go_through_the_table(shown: Shown) -> None:
    read, write = os.pipe()
    other = Shown()
    found = [shown.terminal.is_of(it) for it in (shown.inner, other.inner, write, 999)]
    judge("lines of that terminal go through it", found == [True, False, False, False], found)
    other.close()
    os.close(read)
    os.close(write)


def test_a_terminal_that_becomes_narrower_is_written_anew(work: Path, shown: Shown) -> None:
    flight = Flight(work, {1: Wire("eth0"), 2: Wire("eth1")}).flown(5)
    shown.terminal.draw(*told_of(flight))
    shown.read()
    before = shown.screen.rows
    shown.resize(40, 30)
    shown.screen.rows, shown.screen.row = [], 0
    for line in before[:-1]:
        shown.screen.rows += [line[at : at + 40] for at in range(0, max(len(line), 1), 40)]
    shown.screen.rows.append("")
    shown.screen.row, shown.screen.column = len(shown.screen.rows) - 1, 0
    shown.terminal.draw(*told_of(flight))
    rows = shown.read().rstrip("\n").split("\n")
    judge("it is erased whole", rows == plain(table.lines_of(*told_of(flight), 39, 29)), rows)


def test_a_terminal_that_nobody_reads_holds_up_nothing(work: Path, shown: Shown) -> None:
    flight = Flight(work, wires_of(20)).flown(5)
    begin, drawn = time.monotonic(), 0
    for _ in range(500):
        drawn += shown.terminal.draw(*told_of(flight))
    took = time.monotonic() - begin
    judge(f"500 tables in {took:.1f} s, {drawn} of them written", took < 5 and drawn < 400, drawn)
    judge("little is held back", len(shown.terminal.rest) < 20_000, len(shown.terminal.rest))
    for _ in range(3):
        shown.read()
        flight.pass_second()
        shown.terminal.draw(*told_of(flight))
    rows = shown.read().rstrip("\n").split("\n")
    judge("then one table stands there", rows == plain(table.lines_of(*told_of(flight), 99, 29)), rows)


def test_the_stream_stays_blocking_for_other_programs(shown: Shown) -> None:
    judge("standard error still waits", os.get_blocking(shown.inner) and not os.get_blocking(shown.terminal.descriptor))


def test_a_terminal_that_is_gone_raises_nothing(work: Path) -> None:
    gone = Shown()
    flight = Flight(work, {1: Wire("eth0")}).flown(5)
    os.close(gone.outer)
    judge("nothing is raised", gone.terminal.draw(*told_of(flight)) in (True, False))
    gone.terminal.close()
    os.close(gone.inner)


@pytest.mark.parametrize("case", ["quiet", "dumb", "pipe", "file", "closed"])
def test_without_a_terminal_nothing_is_written(
    work: Path, case: str, shown: Shown, monkeypatch: pytest.MonkeyPatch
) -> None:
    if case == "dumb":
        monkeypatch.setenv("TERM", "dumb")
    read, write = os.pipe()
    with open(work / "file", "wb") as file:
        streams = {"quiet": shown.inner, "dumb": shown.inner, "pipe": write, "file": file.fileno(), "closed": 999}
        made = Terminal(streams[case], case == "quiet")
        flight = Flight(work, {1: Wire("eth0")}, terminal=made).flown(5)
        told = (made.is_shown(), made.draw(*told_of(flight)), made.show(["x"]))
    os.close(write)
    judge(f"{case}: it says that there is none", told == (False, False, False), told)
    holds = os.read(read, 9) == b"" and (work / "file").stat().st_size == 0 and shown.read() == ""
    judge("and nothing is written", holds)
    os.close(read)


def test_each_tick_of_a_run_draws_the_table(work: Path, shown: Shown) -> None:
    flight = Flight(work, {1: Wire("eth0")}, terminal=shown.terminal).flown(3)
    judge("each tick draws", shown.read().startswith("RECORDING\nflight.ch11  3 s  "), shown.read())
    shown.terminal.show(["said before the end"])
    shown.read()
    flight.status.ended(flight.now())
    judge("at the end what was said stays alone", shown.read() == "said before the end\n", shown.screen.rows)
    judge("and no other table came", b"ENDED" not in shown.came, shown.came)
    flight.status.close()
    judge("and nothing is shown any more", not shown.terminal.is_shown())
