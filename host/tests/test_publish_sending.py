"""Tries what bpfrec publish does where its socket refuses datagrams, which is played, and addresses as users write
them."""

import argparse
import errno
import os
import re
import select
import socket
import time
from pathlib import Path
from typing import Any, Optional

import pytest
from bpfrec_tools.cli.addresses import udp_address
from bpfrec_tools.publish import sending
from bpfrec_tools.publish.sending import Route, Sending, opened
from support import LIVE, TOOLS, judge, judge_quietly, judge_same, outcome

ADDRESS = udp_address("127.0.0.1:50000")


class Played:
    """A socket that refuses as it is asked to: an error for each call of `send`, or None."""

    def __init__(self, *errors: Optional[int]) -> None:
        self.errors = list(errors)
        self.sent: list[bytes] = []
        self.is_closed = False

    def send(self, data: bytes) -> int:
        error = self.errors.pop(0) if self.errors else None
        if error:
            raise OSError(error, os.strerror(error))
        self.sent.append(data)
        return len(data)

    def close(self) -> None:
        self.is_closed = True


class World:
    """A Sending with a clock and sockets that are played."""

    def __init__(self, patch: pytest.MonkeyPatch, *sockets: Any) -> None:
        self.now = 100.0
        self.waited: list[float] = []
        self.sockets = list(sockets)
        patch.setattr(sending, "opened", self.open)
        patch.setattr(time, "monotonic", lambda: self.now)
        patch.setattr(select, "select", lambda *given: self.waited.append(given[-1]))
        self.lines: list[str] = []
        self.sending = Sending(Route(ADDRESS), self.lines.append)

    def open(self, _: Route) -> Any:
        found = self.sockets.pop(0)
        if isinstance(found, int):
            raise OSError(found, os.strerror(found))
        return found

    def send(self, *data: bytes) -> None:
        for each in data:
            self.sending.send(each)

    def counts(self) -> tuple[int, int]:
        return self.sending.sent, self.sending.lost_in_all()


def test_a_full_socket_is_not_waited_for(monkeypatch: pytest.MonkeyPatch) -> None:
    played = Played(None, errno.EAGAIN, errno.ENOBUFS, None)
    world = World(monkeypatch, played)
    world.send(b"a", b"b", b"c", b"d")
    judge("the rest is sent", (played.sent, world.counts()) == ([b"a", b"d"], (2, 2)), played.sent)
    judge("nothing is waited for", world.waited == [])
    judge("a line at first", world.lines == ["socket full: datagrams lost: 1"], world.lines)
    world.sending.end()
    judge("and at the end", world.lines[1:] == ["socket full: datagrams lost: 1"], world.lines)


def test_what_was_there_already_waits_for_room_once(monkeypatch: pytest.MonkeyPatch) -> None:
    full = errno.EAGAIN
    played = Played(full, None, full, full, full, full, None, full, None)
    world = World(monkeypatch, played)
    world.sending.waits = True
    world.send(b"a", b"b", b"c", b"d", b"e", b"f")
    judge("room comes, or doesn't", played.sent == [b"a", b"e", b"f"], played.sent)
    judge("where none came, none is waited for until a datagram is sent", len(world.waited) == 3, world.waited)
    judge("what got none is lost", world.counts() == (3, 3), world.counts())


def test_a_datagram_is_sent_again_where_one_before_was_refused(monkeypatch: pytest.MonkeyPatch) -> None:
    """The system reports with a later datagram that nobody listens."""
    refused = errno.ECONNREFUSED
    played = Played(None, refused, None, refused, refused, None)
    world = World(monkeypatch, played)
    world.send(b"a", b"b", b"c", b"d")
    judge("b is sent, and c isn't", played.sent == [b"a", b"b", b"d"], played.sent)
    judge("counts", world.counts() == (3, 3), world.counts())
    judge("a line", world.lines[0] == "connection refused: datagrams lost: 1", world.lines)


def test_another_route_is_found_once_there_is_one(monkeypatch: pytest.MonkeyPatch) -> None:
    one, two = Played(None, errno.ENETUNREACH), Played()
    world = World(monkeypatch, errno.ENETUNREACH, one, errno.ENODEV, two)
    world.send(b"a", b"b")
    world.now += 0.3
    world.send(b"c", b"d", b"e")
    judge("the socket is closed", (one.sent, one.is_closed) == ([b"c"], True), one.sent)
    world.now += 0.3
    world.send(b"f")
    world.now += 0.3
    world.send(b"g")
    judge("another one is opened", two.sent == [b"g"] and world.counts() == (2, 5), world.counts())


def test_a_line_of_a_reason_comes_each_five_seconds_at_most(monkeypatch: pytest.MonkeyPatch) -> None:
    world = World(monkeypatch, Played(*[errno.EAGAIN] * 100, errno.EPERM))
    for _ in range(100):
        world.now += 0.1
        world.send(b"x")
    judge("of 10 s two", len(world.lines) == 2, world.lines)
    world.send(b"y")
    judge("another reason has its own", world.lines[2:] == ["operation not permitted: datagrams lost: 1"], world.lines)
    world.sending.end()
    judge("all are said", sum(int(it.split()[-1]) for it in world.lines) == 101, world.lines)


@pytest.mark.parametrize("word", ["192.0.2.1:50000", "[::1]:5", "[fe80::1%eth0]:50000", "239.1.2.3:65535"])
def test_addresses_are_read(word: str) -> None:
    found = udp_address(word)
    judge(word, str(found) == word and found.is_multicast() == word.startswith("239"))


NO_ADDRESSES = "192.0.2.1 192.0.2.1:0 192.0.2.1:65536 host:5 ::1:5 [::1] [192.0.2.1]:5x 256.0.0.1:5 1:2"


@pytest.mark.parametrize("word", ["", *NO_ADDRESSES.split()])
def test_other_words_are_no_addresses(word: str) -> None:
    why = "no name is looked up, so it needs" if word == "host:5" else f"{re.escape(word)}: needs"
    with pytest.raises(argparse.ArgumentTypeError, match=f"{why} ADDRESS:PORT"):
        udp_address(word)


def test_a_group_gets_its_hops_and_its_interface() -> None:
    with opened(Route(udp_address("239.1.2.3:50000"), 7, "lo")) as made:
        judge_same("hops", made.getsockopt(socket.IPPROTO_IP, socket.IP_MULTICAST_TTL), 7)
        judge_quietly("an interface", len(made.getsockopt(socket.IPPROTO_IP, socket.IP_MULTICAST_IF, 12)) >= 4)
        judge("a buffer", made.getsockopt(socket.SOL_SOCKET, socket.SO_SNDBUF) >= 212_992)
    with pytest.raises(OSError):
        opened(Route(udp_address("239.1.2.3:50000"), 1, "none0"))
    with opened(Route(ADDRESS, 7)) as made:
        judge("a host's stay the system's", made.getsockopt(socket.IPPROTO_IP, socket.IP_TTL) != 7)


def test_an_interface_that_is_not_here_is_refused_at_once(work: Path) -> None:
    line = "239.1.2.3:9: no such interface: no0"
    judge("by its name", udp_address("239.1.2.3:9").lacks("no0") == line)
    judge("by its address", udp_address("[ff02::1%no0]:9").lacks(None) == "[ff02::1%no0]:9: no such interface: no0")
    judge("one that is here", not udp_address("239.1.2.3:9").lacks("lo") and not udp_address("239.1.2.3:9").lacks(None))
    done = outcome(TOOLS / "publish", "--interface", "no0", work / "f.ch11", "239.1.2.3:9")
    judge("by publish", done.returncode == 2 and done.stderr.endswith(f"error: {line}\n"), done)
    programs = {**os.environ, "BPFREC": "/bin/true", "CAPTURE": "/bin/true"}
    done = outcome(LIVE, "--publish", "239.1.2.3:9,interface=no0", work / "o.ch11", "lo", env=programs)
    judge("by live", (done.returncode, done.stderr) == (3, f"bpfrec live: --publish {line}\n"), done)
