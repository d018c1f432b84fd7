"""Tries parts of bpfrec live by themselves, without root: operands, names, files and what is kept safe."""

import contextlib
import errno
import functools
import os
import re
import time
from collections.abc import Callable, Iterator
from pathlib import Path

import pytest
from bpfrec.formats.limits import CHANNEL_KEYS
from bpfrec.formats.names import Names
from bpfrec_tools import completing
from bpfrec_tools.live import arguments, capture_options, operands
from bpfrec_tools.live.help import MORE
from bpfrec_tools.live.kept import names
from bpfrec_tools.live.kept.keeper import Keeper
from bpfrec_tools.live.kept.names import Files, Refusal
from bpfrec_tools.live.parts import expressions
from bpfrec_tools.live.reports import notify
from service import Manager
from support import ROOT, judge, judge_quietly, judge_same, wait_for

# ---- the command line


def refused(call: Callable[[], object]) -> tuple[int, str]:
    with pytest.raises(Refusal) as caught:
        call()
    return caught.value.status, caught.value.line


AHEAD = "a channel stands ahead of an expression"
ONE = "an expression is one argument, with its interface"


def test_interfaces_and_their_filters_are_taken_apart(work: Path) -> None:
    (work / "settings").write_text("limit = 65536\n")
    (work / "old.ch11").write_bytes(b"\x25\xeb\0\0")
    (work / "empty.ch11").write_bytes(b"")
    settings, old = str(work / "settings"), str(work / "old.ch11")
    for given, wanted in [
        (["s.toml", "out", "eth0=1"], ("s.toml", "out", [("eth0", 1, None)])),
        ([settings, "out", "eth0=1"], (settings, "out", [("eth0", 1, None)])),
        ([old, "eth0=7"], (None, old, [("eth0", 7, None)])),
        ([str(work / "empty.ch11"), "lo"], (None, str(work / "empty.ch11"), [("lo", 1, None)])),
        (["new.ch11", "eht0"], (None, "new.ch11", [("eht0", 1, None)])),
        (["s.toml", "-x"], ("s.toml", "./-x", [])),
        (["out", "eth0:label=2"], (None, "out", [("eth0:label", 2, None)])),
        (["flight=3", "lo"], (None, "flight=3", [("lo", 1, None)])),
        (
            ["new.ch11", "lo", "e=3:tcp[0] = 5", "f=1"],
            (None, "new.ch11", [("lo", 2, None), ("e", 3, "tcp[0] = 5"), ("f", 1, None)]),
        ),
        (["s.toml", "dir/a=1", "eth0=1"], ("s.toml", "dir/a=1", [("eth0", 1, None)])),
    ]:
        found = operands.operands_of(given)
        routes = [tuple(it) for it in found.routes]
        judge_quietly(f"{given}: {found}", (found.settings, found.out, routes) == wanted)
    for given, line in [
        (["s.toml", "out", "eth0=65536x"], "bpfrec live: eth0=65536x: a channel ID is 1 to 65535"),
        (["s.toml", "out", "eth0=0"], "bpfrec live: eth0=0: a channel ID is 1 to 65535"),
        (["s.toml", "out", "=1"], "bpfrec live: no INTERFACE=CHANNEL: =1"),
        (["s.toml", "out", "a=1", "b=1"], "bpfrec live: channel 1 has two interfaces"),
        (["o", "eth0:udp port 53"], f"bpfrec live: eth0:udp port 53: {AHEAD}: eth0=1:'udp port 53'"),
        (["o", "eth0:arp"], f"bpfrec live: eth0:arp: {AHEAD}: eth0=1:'arp'"),
        (["s.toml", "o", "eth0=udp port 53"], f"bpfrec live: eth0=udp port 53: {AHEAD}: eth0=1:'udp port 53'"),
        (["o", "lo", "udp", "port", "53"], f"bpfrec live: udp: {ONE}: lo=1:'udp port 53'"),
        (["s.toml", "o", "lo=2:udp", "port", "53"], f"bpfrec live: port: {ONE}: lo=2:'udp port 53'"),
        (["o", "lo", "lo"], "bpfrec live: lo is given twice"),
        (["s.toml", "lo"], "bpfrec live: OUT is missing: it stands between s.toml and lo"),
    ]:
        judge_quietly(f"{given}", refused(functools.partial(operands.operands_of, given)) == (2, line))


def test_help_says_which_keys_a_channel_of_a_flight_must_have() -> None:
    """Those of record that have no value where they are missing, but for the feed."""
    must = [key for key, numbers in CHANNEL_KEYS.items() if numbers is None or numbers.default is None]
    found = re.search(r"A \[\[channel\]\] must have ([^,]*),", MORE)
    judge("each", found and re.findall("`(.*?)`", found[1]) == [it for it in must if it != "feed"], (must, found))


FIRST = "OUT stands first, then interfaces, as flight.ch11 eth0"


def test_options_of_the_capture_keep_their_order() -> None:
    given = arguments.read(["--buffer=4", "--quiet", "--clock", "adapter", "--every", "5", "--", "s.toml", "o", "lo=1"])
    holds = given.options == ["--buffer", "4", "--quiet", "--clock", "adapter"] and given.clock() == "adapter"
    judge("options of the capture are kept in their order", holds)
    judge("and the rest is read", (given.every, given.sync, given.is_rotating()) == (5, 1, True))
    for words_given, line in [
        (["--origin"], "bpfrec live: --origin needs a value"),
        (["--every"], "bpfrec live: --every needs a value"),
        (["--size", "0"], "bpfrec live: --size needs a number from 1 on, in bytes, or as 2G"),
        (["--direction", "sideways", "o", "lo"], "bpfrec live: --direction needs one of both, in, out"),
        (["--clock=hst", "o", "lo"], "bpfrec live: --clock needs one of host, adapter"),
        (["--nonsense", "x", "y"], "bpfrec live: no such option: --nonsense"),
        (["-i", "eth0", "-w", "o"], f"bpfrec live: no such option: -i: {FIRST}"),
        (["-x", "a", "b"], "bpfrec live: no such option: -x"),
        (["--eve", "3"], "bpfrec live: no such option: --eve: did you mean --every?"),
    ]:
        judge_quietly(f"{words_given}", refused(functools.partial(arguments.read, words_given)) == (2, line))
    offers = completing.offers_for(["live", "--check-sequence", ""])
    judge("choices are offered", offers == ["adapter", "given", "missing"], offers)
    source = (ROOT / "capture/src/arguments.c").read_text()
    for choices in filter(None, capture_options.VALUED.values()):
        words = ", ".join(f'"{it}"' for it in choices)
        judge_quietly(f"the capture has {words}", f"{{{words}, NULL}}" in source)


def test_names_of_recordings_that_are_taken_are_passed(work: Path) -> None:
    (work / "a_00001.ch11").write_bytes(b"")
    (work / "a_00002.ch11.json").write_bytes(b"")
    (work / "a_00003.ch11").symlink_to("nowhere")
    found = Names(str(work / "a.ch11"))
    judge("names that are taken are passed", found.next() == (4, f"{work}/a_00004.ch11"))
    found.give_back(4)
    judge("one that is given back comes again", found.next()[0] == 4)
    for out, wanted in [("x", "x_00001"), (".x", ".x_00001"), ("d.d/x", "d.d/x_00001"), ("x.y.z", "x.y_00001.z")]:
        judge_quietly(f"{out}", Names(out).next()[1] == wanted)


def test_force_opens_what_is_there_and_empties_nothing(work: Path) -> None:
    path = work / "there"
    path.write_bytes(b"kept")
    with pytest.raises(FileExistsError):
        Files().create(str(path))
    descriptor = Files(is_forced=True).create(str(path))
    judge("--force opens what is there, and empties nothing", os.read(descriptor, 9) == b"kept")
    os.close(descriptor)
    (work / "link").symlink_to(path)
    for files in (Files(), Files(is_forced=True)):
        with pytest.raises(OSError):
            files.create(str(work / "link"))
    os.mkfifo(work / "pipe")
    with pytest.raises(OSError):
        Files(is_forced=True).create(str(work / "pipe"))
    judge("a folder isn't OUT", refused(lambda: Files(is_forced=True).refuse_overwriting(str(work)))[0] == 3)
    holds = refused(lambda: names.refuse_folder(str(work / "no/x"))) == (3, f"bpfrec live: {work}/no/x: no such folder")
    judge("nor has it one", holds)


def test_settings_are_made_where_none_are_given() -> None:
    text = expressions.settings_text([operands.Route("eth0", 3, "udp\nport 5"), operands.Route("eth1", 4)])
    judge("settings of none", text.count("[[channel]]") == 2 and "# udp port 5\n" in text and "# all frames\n" in text)


# ---- what is noted and kept


def forced(done: list[str], real: Callable[[int], None], descriptor: int) -> None:
    """Forces a file, and notes it."""
    done.append("forced")
    real(descriptor)


class Heard:
    """What a keeper tells."""

    def __init__(self) -> None:
        self.moments: list[float] = []
        self.faults: list[str] = []
        self.unwritten = 0
        self.synced, self.sync_failed = self.moments.append, self.faults.append

    def writing_failed(self) -> None:
        self.unwritten += 1


@contextlib.contextmanager
def kept(work: Path, told: Heard, seconds: float = 1, folder: str = "") -> Iterator[Keeper]:
    """A keeper of a file, which has ended behind it."""
    descriptor = os.open(work / "out", os.O_RDWR | os.O_CREAT)
    keeper = Keeper(descriptor, str(work / folder), seconds, told)
    keeper.start()
    try:
        yield keeper
    finally:
        keeper.end()
        keeper.join(5)
        os.close(descriptor)


def test_a_file_is_forced_to_its_disk_each_second_with_its_facts(work: Path, monkeypatch: pytest.MonkeyPatch) -> None:
    told = Heard()
    done: list[int] = []

    def full() -> None:
        raise OSError(errno.ENOSPC, "full")

    with kept(work, told) as keeper:
        wait_for("it was forced", lambda: told.moments, 3)
        keeper.write(lambda: done.append(1))
        wait_for("facts are written", lambda: done == [1], 3)
        for number in (2, 3, 4):
            keeper.write(functools.partial(done.append, number))
        judge("others wait a second", done == [1])
        wait_for("the newest come", lambda: done == [1, 4], 3)
        keeper.write(full)
    judge("facts that can't be written are told, at the end at once", told.unwritten == 1 and not keeper.is_alive())
    times = told.moments
    judge("the times of what is safe rise", times == sorted(times) and len(times) >= 3 and not told.faults, times)


def test_a_file_is_on_its_disk_up_to_the_moment_before_it_is_forced(
    work: Path, monkeypatch: pytest.MonkeyPatch
) -> None:
    """What comes while that goes on may not be there."""
    begun: list[float] = []

    def takes_long(_: int) -> None:
        begun.append(time.monotonic())
        time.sleep(0.05)

    told = Heard()
    monkeypatch.setattr(os, "fdatasync", takes_long)
    with kept(work, told):
        wait_for("it was forced", lambda: told.moments, 3)
    pairs = list(zip(told.moments, begun))
    judge("that is what is told", len(pairs) == 2 and all(moment <= it for moment, it in pairs), pairs)


def test_a_folder_that_cannot_be_forced_stops_nothing(work: Path) -> None:
    told = Heard()
    with kept(work, told, folder="none"):
        wait_for("the file was forced", lambda: told.moments, 3)


def test_the_first_reason_of_a_failing_disk_stays(work: Path, monkeypatch: pytest.MonkeyPatch) -> None:
    reasons = iter([errno.EIO, errno.ENOSPC])

    def fails(_: int) -> None:
        number = next(reasons, errno.ENOSPC)
        raise OSError(number, os.strerror(number))

    told = Heard()
    monkeypatch.setattr(os, "fdatasync", fails)
    with kept(work, told) as keeper:
        wait_for("it is told twice", lambda: len(told.faults) == 2, 3)
        keeper.release()
        wait_for("it is let go", lambda: keeper.descriptor == -1, 3)
    reason = os.strerror(errno.EIO)
    judge("with its first reason", told.faults == [reason] * 2 and keeper.sync_fault == reason, told.faults)
    judge("nothing else is told", not told.moments and not told.unwritten and not keeper.is_alive())


@pytest.mark.parametrize("is_released", [False, True])
def test_a_file_is_forced_a_last_time_ahead_of_the_last_facts_unless_it_was_let_go(
    work: Path, monkeypatch: pytest.MonkeyPatch, is_released: bool
) -> None:
    done: list[str] = []
    real = os.fdatasync
    monkeypatch.setattr(os, "fdatasync", lambda descriptor: forced(done, real, descriptor))
    with kept(work, Heard(), 1_000) as keeper:
        wait_for("it is forced once", lambda: done == ["forced"], 3)
        if is_released:
            keeper.release()
            wait_for("it is let go", lambda: keeper.descriptor == -1, 3)
        keeper.write(lambda: done.append("facts"))
        keeper.end()
        # What was ended isn't let go any more, and gets no other facts.
        keeper.release()
        keeper.write(lambda: done.append("late facts"))
    judge("in this order", done == ["forced", *(["facts"] if is_released else ["forced", "facts"])], done)


def test_a_disk_that_takes_no_forcing_is_none_that_fails(work: Path, monkeypatch: pytest.MonkeyPatch) -> None:
    def refuses(_: int) -> None:
        raise OSError(errno.EINVAL, os.strerror(errno.EINVAL))

    told = Heard()
    monkeypatch.setattr(os, "fdatasync", refuses)
    with kept(work, told) as keeper:
        time.sleep(0.2)
    judge("nothing is told", not told.faults and not told.moments and keeper.sync_fault is None)


# ---- the service manager


def test_more_time_is_asked_of_systemd_for_audits_alone(work: Path, monkeypatch: pytest.MonkeyPatch) -> None:
    """More time is asked for audits alone: a recorder that is stuck has what the unit gives."""
    manager = Manager(str(work / "notify"))
    monkeypatch.setenv("NOTIFY_SOCKET", manager.adds["NOTIFY_SOCKET"])
    notifier = notify.Notifier()
    for now, is_auditing in ((0.0, False), (30.0, False), (31.0, True), (32.0, True), (42.0, True)):
        notifier.stopping(now, is_auditing)
        notifier.tick(now)
        notifier.send(f"X={now}")
    wait_for("all is told", lambda: manager.times("X=42.0"))
    told = [line for _, lines in manager.told for line in lines if not line.startswith("STATUS")]
    plea = "EXTEND_TIMEOUT_USEC=60000000"
    judge_same("each ten seconds", told, ["STOPPING=1", "X=0.0", "X=30.0", plea, "X=31.0", "X=32.0", plea, "X=42.0"])
