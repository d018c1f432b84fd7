"""Tries that what follows, publishes, receives and salvages recordings calls its parts: what a run would show late or seldom, if
one of these calls were missing."""

import argparse
import json
import os
import socket
import time
from collections.abc import Callable, Iterator
from pathlib import Path
from typing import Any, NamedTuple, cast

import pytest
from bpfrec.formats.packet import Header, header_or_fault
from bpfrec.formats.transfer import Datagram, Part
from bpfrec_tools.cli.addresses import udp_address
from bpfrec_tools.follow import command as follow
from bpfrec_tools.follow import growing, view
from bpfrec_tools.follow.growing import FACTS_PATIENCE, Growing
from bpfrec_tools.publish import command as publish
from bpfrec_tools.publish import sending
from bpfrec_tools.publish.recording import Recording
from bpfrec_tools.receive import command as receive
from bpfrec_tools.receive import source
from bpfrec_tools.receive.command import Receiver
from bpfrec_tools.receive.output import Files
from bpfrec_tools.receive.shown import Shown
from bpfrec_tools.salvage import command as salvage
from expected_facts import facts_of_run
from frames import end_packet, program_packet
from pcapng_blocks import COMMENT, INTERFACE, blocks_in, lines_at_frames
from reading import packets_of
from small_recordings import ONE_ORIGIN, packet, recording
from support import judge

WIRE = [{"interface": "eth0", "channel": 1}]


class Played:
    """Notes what is called on it, in its order; each call gives what it was given for that name."""

    def __init__(self, calls: list[str], **given: Any) -> None:
        vars(self).update(_calls=calls, _given=given)

    def __getattr__(self, name: str) -> Any:
        if name in self._given and not callable(self._given[name]):
            return self._given[name]

        def call(*words: Any, **_: Any) -> Any:
            self._calls.append(name)
            return self._given[name](*words) if name in self._given else None

        return call


def head_of(data: bytes) -> Header:
    found = header_or_fault(data[:24])
    assert isinstance(found, Header)
    return found


# ---- follow


@pytest.mark.parametrize("has_more", [True, False])
def test_late_marks_of_a_recording_before_are_looked_for_while_the_next_goes_on(
    has_more: bool, monkeypatch: pytest.MonkeyPatch
) -> None:
    """And where nothing has come it waits a little, else what has come is seen at once."""
    calls: list[str] = []
    monkeypatch.setattr(time, "sleep", lambda _: calls.append("sleep"))
    shown = Played(calls, out=Played(calls))
    follow.show_more(cast(Any, Played(calls, view=shown, read_on=lambda: has_more)))
    judge("calls", calls == ["look_back", "read_on", "flush" if has_more else "sleep"], calls)


class Unknown(Growing):
    """A recording without facts that somebody writes."""

    def __init__(self) -> None:
        self.known, self.looks = None, 0

    def look_at_facts(self) -> None:
        self.looks += 1

    def has_ended(self) -> bool:
        return False

    def begins_whole(self) -> bool:
        return False


def test_facts_are_waited_for_without_a_loop_that_is_busy(monkeypatch: pytest.MonkeyPatch) -> None:
    now, waiting = [0.0], Unknown()

    def tick(seconds: float) -> float:
        now[0] += seconds
        return now[0]

    monkeypatch.setattr(growing, "time", argparse.Namespace(monotonic=lambda: tick(1e-4), sleep=tick))
    waiting.wait_for_facts()
    most = FACTS_PATIENCE / growing.PAUSE + 2
    judge("it looks now and then, to the end of its patience", most / 2 < waiting.looks <= most, waiting.looks)


def test_a_channel_that_has_a_program_alone_has_to_end_too(work: Path) -> None:
    """Though no facts name it: else a run that goes on would be taken for one that has ended."""
    path = work / "x.ch11"
    path.write_bytes(program_packet(1, 0) + program_packet(2, 0, sequence=1) + end_packet(1, 0, 2))
    Path(f"{path}.json").write_text(json.dumps({**facts_of_run(ONE_ORIGIN), "interfaces": WIRE}))
    with open(os.devnull, "wb") as out:
        found = view.Recording(str(path), view.View("follow", out, []), lambda _: None)
        found.look_at_facts()
        while found.read_on():
            pass
        judge("it is waited for", (found.ended, found.has_all_ends()) == ({1}, False), found.ended)
        with open(path, "ab") as more:
            more.write(end_packet(2, 0, 3))
        while found.read_on():
            pass
        judge("until it ends", found.has_all_ends(), found.ended)
        found.close()


# ---- publish


def given_to_publish(**more: Any) -> argparse.Namespace:
    words = ["x.ch11", "127.0.0.1:9", *(f"--{name}={value}" for name, value in more.items())]
    return publish.parser().parse_args(words)


def test_while_publish_waits_it_shows_that_it_is_there(monkeypatch: pytest.MonkeyPatch) -> None:
    calls: list[str] = []
    made = publish.Publisher(given_to_publish())
    made.datagrams = cast(Any, Played(calls, number=3))
    made.counting = cast(Any, Played(calls))
    made.sending.end()
    judge("it goes on", not made.is_given_up())
    judge("to the ground and to whoever began it", calls == ["beat", "tell"], calls)
    made.is_ending = True
    judge("until it ends", made.is_given_up())


def test_at_its_end_publish_says_what_was_lost_and_counts(capsys: pytest.CaptureFixture[str]) -> None:
    made = publish.Publisher(given_to_publish())
    made.sending.end()
    calls: list[str] = []
    made.sending = cast(Any, Played(calls, end=lambda: publish.err("lost"), lost_in_all=lambda: 2))
    made.datagrams, made.late = cast(Any, Played([], number=7, packets=5)), 1
    made.counting = cast(Any, Played(calls))
    made.end()
    judge("in this order", [it for it in calls if it != "lost_in_all"] == ["end", "tell"], calls)
    lines = ["bpfrec publish: lost", "published packets 5 datagrams 7 lost 2 late 1"]
    judge("lines", capsys.readouterr().err.splitlines() == lines)


def test_counts_go_to_a_pipe_that_is_not_waited_for() -> None:
    reader, writer = os.pipe()
    counting = publish.Counting(writer)
    judge("it isn't waited for", not os.get_blocking(writer))
    for number in range(3):
        counting.tell(number, 0, 0, is_last=number == 2)
    os.close(writer)
    with open(reader) as lines:
        found = lines.read().splitlines()
    judge("the first, and the last", found == [f"datagrams {it} lost 0 late 0" for it in (0, 2)], found)
    publish.Counting(None).tell(1, 2, 3)


def test_a_packet_of_which_the_ground_has_a_part_is_finished(monkeypatch: pytest.MonkeyPatch) -> None:
    """Also where the rest is left out, so that the stream isn't broken."""
    calls: list[str] = []
    made = publish.Publisher(given_to_publish())
    made.sending.end()
    made.is_ending, made.is_replay = True, True
    monkeypatch.setattr(
        publish, "Streaming", lambda *_: Played(calls, late=0, others=0, recording=Played([], path="x"))
    )
    monkeypatch.setattr(publish, "next_of", lambda *_: None)
    read = Played(calls, file=Played([], size_now=lambda: 9), waiting=[1], follower=Played([]), leave_rest=lambda: 0)
    made.publish(cast(Any, read))
    judge("ahead of what is left", calls[-3:] == ["finish_packet", "leave_rest", "end"], calls)


def test_ends_of_channels_are_noted_by_publish(work: Path) -> None:
    path = work / "x.ch11"
    path.write_bytes(recording() + end_packet(2, 4, 3))
    words = given_to_publish(origin=5)
    found = Recording(str(path), lambda _: None, publish.Publisher(words).asked)
    while found.read_on():
        pass
    judge("ends", (found.ended, found.named) == ({1, 2}, {1, 2}), (found.ended, found.named))
    found.close()


# ---- salvage


@pytest.mark.parametrize("gaps", [(), (2,), (1, 3)], ids=["none", "one", "two"])
def test_salvage_names_each_gap_of_numbers(work: Path, gaps: tuple[int, ...]) -> None:
    """Though no byte is damaged, it isn't whole."""
    parts = [packet(1, [10 * it], it) for it in range(5) if it not in gaps]
    lines: list[str] = []
    with open(work / "out", "w+b") as out:
        is_whole = salvage.copy(
            packets_of(program_packet(1, 0) + b"".join(parts) + end_packet(1, 5)), out, lines.append
        )
    named = [it.split()[:6] for it in lines if it.startswith("missing ")]
    judge("each", (is_whole, named) == (not gaps, [["missing", "1", "of", "1", "from", str(it)] for it in gaps]), lines)


# ---- receive


def sends(port: int) -> socket.socket:
    return sending.opened(sending.Route(udp_address(f"127.0.0.1:{port}"), 1, None))


def receives(port: int) -> socket.socket:
    return source.opened(udp_address(f"127.0.0.1:{port}"), None)


@pytest.mark.parametrize("is_forced", [True, False])
@pytest.mark.parametrize("module, opened, buffer", [(sending, sends, "SNDBUF"), (source, receives, "RCVBUF")])
def test_a_socket_has_more_room_than_others(
    is_forced: bool, module: Any, opened: Callable[[int], socket.socket], buffer: str, monkeypatch: pytest.MonkeyPatch
) -> None:
    """As much as the system allows, also where nobody may have more."""
    if not is_forced:
        monkeypatch.setattr(module, f"SO_{buffer}FORCE", 32_000)
    option = getattr(socket, f"SO_{buffer}")
    with socket.socket(socket.AF_INET, socket.SOCK_DGRAM) as plain:
        usual = plain.getsockopt(socket.SOL_SOCKET, option)
        plain.bind(("127.0.0.1", 0))
        port = plain.getsockname()[1]
    with opened(port) as made:
        found = made.getsockopt(socket.SOL_SOCKET, option)
        judge("more, and it isn't waited for", found > usual and not made.getblocking(), (found, usual))
        is_to_all = made.getsockopt(socket.SOL_SOCKET, socket.SO_BROADCAST) == 1
        judge("what sends may send broadcasts", is_to_all or module is source)


def test_two_may_listen_to_a_group_and_not_to_an_address() -> None:
    with socket.socket(socket.AF_INET, socket.SOCK_DGRAM) as plain:
        plain.bind(("127.0.0.1", 0))
        port = plain.getsockname()[1]
    group, own = udp_address(f"239.1.2.3:{port}"), udp_address(f"127.0.0.1:{port}")
    with source.opened(group, "lo") as one, source.opened(group, "lo") as two:
        judge("a group", one.getsockname() == two.getsockname())
    with source.opened(own, None), pytest.raises(OSError, match="Address already in use"):
        source.opened(own, None)


def test_at_the_end_of_receive_what_waits_for_a_setup_record_is_counted(work: Path) -> None:
    files = Files(str(work / "x.ch10"), is_forced=False)
    data = packet(1, [10])
    for _ in range(3):
        files.take(head_of(data), data)
    files.end()
    judge("three are skipped", (files.skipped, files.packets, len(files.kept)) == (3, 0, 0), files.skipped)
    judge("and OUT is closed", not [it for it in Path("/proc/self/fd").iterdir() if leads_to(it, work / "x.ch10")])


@pytest.fixture
def receiver(work: Path) -> Iterator[Receiver]:
    """One into a file, with a socket of its own, at which nothing comes."""
    given = receive.parser().parse_args(["127.0.0.1:9", str(work / "r.ch10")])
    with socket.socket(socket.AF_INET, socket.SOCK_DGRAM) as through:
        yield Receiver(given, through, cast(Any, argparse.Namespace(is_due=False)))


def test_receive_counts_at_its_end_what_was_kept(receiver: Receiver, capsys: pytest.CaptureFixture[str]) -> None:
    data = packet(1, [10])
    for _ in range(3):
        receiver.take(head_of(data), data)
    found = receiver.end(), capsys.readouterr().out
    line = "received packets 0 datagrams 0 lost 0 doubled 0 damaged 0 skipped 3 foreign 0\n"
    judge("it counts them, and there is no recording", found == (1, line), found)


def test_a_packet_is_not_put_together_of_parts_of_two_streams(receiver: Receiver) -> None:
    data = packet(1, [10])
    place = Part(1, data[13], 0)
    cases: list[tuple[Callable[[], object], int]] = [(tuple, 1), (receiver.restart, 0), (lambda: receiver.gap(1, 2), 0)]
    for breaks, kept in cases:
        receiver.files.kept.clear()
        receiver.assembling.add(Datagram(0, place, data[:32]))
        breaks()
        receiver.assembling.add(Datagram(1, place._replace(at=32), data[32:]))
        judge(f"{kept} are taken", (len(receiver.files.kept), receiver.assembling.damaged) == (kept, 0))


def test_a_packet_whose_parts_are_longer_is_damaged_once(receiver: Receiver) -> None:
    data = packet(1, [10])
    place = Part(1, data[13], 0)
    receiver.assembling.add(Datagram(0, place, data[:32]))
    receiver.assembling.add(Datagram(1, place._replace(at=32), data[32:] + bytes(4)))
    judge("it is damaged", (receiver.assembling.damaged, receiver.assembling.due) == (1, None))
    receiver.assembling.add(Datagram(2, place, data))
    judge("and the next is taken", (receiver.assembling.damaged, len(receiver.files.kept)) == (1, 1))


def leads_to(link: Path, path: Path) -> bool:
    try:
        return os.readlink(link) == str(path)
    except OSError:
        return False


def test_a_capture_whose_reader_leaves_is_shown_no_more() -> None:
    """Which is seen when what was written is flushed."""
    reader, writer = os.pipe()
    data = packet(1, [10])
    with os.fdopen(writer, "wb") as out:
        shown = Shown("receive", out)
        os.close(reader)
        shown.take(head_of(data), data)
        judge("it is written", (shown.has_reader, shown.view.frames) == (True, 1), shown.view.frames)
        shown.flush()
        judge("it has left", not shown.has_reader)
        shown.take(head_of(data), data)
        judge("and nothing more is shown", shown.view.frames == 1)


class Captured(NamedTuple):
    """A capture that was shown."""

    comments: list[str]
    at_frames: list[str]


def captured(path: Path, parts: list[bytes]) -> Captured:
    with open(path, "wb") as out:
        shown = Shown("receive", out)
        for data in parts:
            shown.take(head_of(data), data)
        shown.flush()
    data = path.read_bytes()
    return Captured([it.text(COMMENT) for it in blocks_in(data) if it.kind == INTERFACE], lines_at_frames(data))


def test_a_capture_of_what_is_received_has_the_filters(work: Path, capsys: pytest.CaptureFixture[str]) -> None:
    parts = [program_packet(1, 0), packet(1, [10]), program_packet(1, 1, (6, 0, 0, 7)), packet(1, [20, 30])]
    found = captured(work / "x.pcapng", parts)
    # As text, or as its listing where no program is built that prints it.
    judge("the first", len(found.comments) == 1 and found.comments[0].startswith("filter version 0, 1 inst"), found)
    judge("and the next at its first frame", found.at_frames[:1] == ["filter version 1, 1 instructions"], found)
    judge("without a time packet a line says so once", capsys.readouterr().err.count("no time packet ahead") == 1)
