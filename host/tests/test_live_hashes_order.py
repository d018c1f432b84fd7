"""Tries in which order recordings are hashed, what becomes of those that have to go, of signatures that fail, and what
the end of a run waits for."""

import hashlib
import os
import threading
import time
from functools import partial
from pathlib import Path
from types import SimpleNamespace
from typing import cast

import pytest
from bpfrec_tools.cli.signatures import Unsigned
from bpfrec_tools.live.kept.ended import FIRST, PAUSE, EndProgress
from bpfrec_tools.live.kept.hashes import NICE, PIECE, RESTING, SIGN_PAUSE
from bpfrec_tools.live.kept.signer import Overdue, Signer
from played_hashes import FACTS, Played, facts_of, made
from support import judge, wait_for

# ---- in which order


def test_a_recording_is_hashed_behind_those_that_began_before_it(work: Path) -> None:
    """Also where its facts are finished before theirs, as where a disk forces a long recording late."""
    played = Played()
    first, second = made(work / "a", b"a"), made(work / "b", b"b")
    played.hashes.begin(1)
    played.hashes.begin(2)
    played.hashes.add(2, second, FACTS, played.finished.append)
    judge("it waits", not played.hashes.thread and not Path(f"{second.out}.json").exists())
    played.hashes.add(1, first, FACTS, played.finished.append)
    played.finish()
    judge("the first has none before", facts_of(first)["before"] is None, facts_of(first))
    judge("the second names it", facts_of(second)["before"] == {"recording": "a", "sha256": facts_of(first)["sha256"]})


def test_at_the_end_of_a_run_nobody_waits_for_a_recorder_that_left_nothing(work: Path) -> None:
    played = Played()
    played.hashes.begin(1)
    ended = made(work / "b", b"b")
    played.hashes.add(2, ended, FACTS, played.finished.append)
    played.finish()
    judge("it has its hash", facts_of(ended)["sha256"] == hashlib.sha256(b"b").hexdigest())


# ---- what has to go


class Slow:
    """A hash that waits in its first piece."""

    def __init__(self) -> None:
        self.is_reading, self.let = threading.Event(), threading.Event()

    def update(self, _: memoryview) -> None:
        self.is_reading.set()
        self.let.wait(60)

    def hexdigest(self) -> str:
        return "0" * 64


def test_what_has_to_go_goes_unhashed_and_the_next_one_names_it_without_a_hash(
    work: Path, monkeypatch: pytest.MonkeyPatch
) -> None:
    """One in work goes once it isn't read any more, and one that waits at once."""
    slow = Slow()
    monkeypatch.setattr(hashlib, "sha256", lambda *_: slow)
    played, gone = Played(), list[str]()
    first, second, third = (made(work / name, name.encode() * PIECE) for name in ("a", "b", "c"))
    for ended in (first, second, third):
        played.add(ended)
    judge("it starts", slow.is_reading.wait(60))
    wait = f"the hash of {first.out}, of which 0 of {PIECE:,} bytes are read, and of 2 more"
    judge("what is awaited is said", played.hashes.awaited() == wait, played.hashes.awaited())
    for ended in (second, first):
        played.hashes.let_go(ended.out, "why", partial(gone.append, ended.out))
    judge("one that waits goes at once", gone == [second.out], gone)
    slow.let.set()
    played.finish()
    judge("and the other after that", gone == [second.out, first.out] and played.hashes.awaited() == "", gone)
    lines = [f"bpfrec live: {it.out} has no hash in its facts: why" for it in (second, first)]
    judge("each is said, and an alarm", played.err == lines, played.err)
    judge("of its own", played.unhashed == [(second.out, "why"), (first.out, "why")], played.unhashed)
    judge("the third names the second", facts_of(third)["before"] == {"recording": "b", "sha256": None})
    judge("the run is no worse", played.hashes.status == 0 and not Path(f"{first.out}.json").exists())
    played.hashes.let_go("another", "why", lambda: gone.append("another"))
    judge("what was hashed goes at once", gone[-1] == "another")


def test_what_has_to_go_while_it_is_signed_ends_that(work: Path) -> None:
    let, gone = threading.Event(), list[str]()

    def sign(_: bytes) -> bytes:
        let.wait(60)
        raise Unsigned("it was ended by signal 9")

    played = Played(sign)
    played.hashes.signer = cast(Signer, SimpleNamespace(sign=sign, kill=let.set, stop=let.set))
    ended = made(work / "a", b"a")
    played.add(ended)
    wait_for("it is signed", (work / "a.json").exists)
    played.hashes.let_go(ended.out, "why", lambda: gone.append(ended.out))
    played.finish()
    judge("it goes", gone == [ended.out] and played.err == [] and played.hashes.status == 0, played.err)


# ---- signatures that fail


def test_after_a_signature_that_took_too_long_none_is_tried_for_a_minute(
    work: Path, monkeypatch: pytest.MonkeyPatch
) -> None:
    """At the end of the run each is tried once more, until one fails."""
    tries, now = list[bytes](), [1_000.0]
    monkeypatch.setattr(time, "monotonic", lambda: now[0])

    def sign(data: bytes) -> bytes:
        tries.append(data)
        raise Overdue("ssh-keygen took over 30 s")

    played = Played(sign)
    for name, later in (("a", 0.0), ("b", SIGN_PAUSE - 1), ("c", 1.0)):
        now[0] += later
        played.add(made(work / name, name.encode()))
        played.turn()
    judge("two are tried", len(tries) == 2, len(tries))
    told = [line.split("isn't signed: ")[1] for line in played.err]
    judge("each is said", told == ["ssh-keygen took over 30 s", RESTING, "ssh-keygen took over 30 s"], told)
    played.finish()
    judge("and one at the end", len(tries) == 3 and played.hashes.status == 1, len(tries))


def test_facts_that_could_not_be_signed_are_signed_at_the_end(work: Path) -> None:
    """But those that were changed since: their signature would be of another's words."""
    signed: list[bytes] = []

    def sign(data: bytes) -> bytes:
        if not played.is_ready:
            raise Unsigned("why")
        signed.append(data)
        return b"signature"

    played = Ready(sign)
    first, second = made(work / "a", b"a"), made(work / "b", b"b")
    for ended in (first, second):
        played.add(ended)
        played.turn()
    played.is_ready = True
    Path(f"{first.out}.json").write_text("{}")
    played.finish()
    judge("one is", signed == [Path(f"{second.out}.json").read_bytes()] and (work / "b.json.sig").exists(), signed)
    judge("the other stays without", not (work / "a.json.sig").exists() and played.hashes.status == 1)


class Ready(Played):
    """Signs once it is ready."""

    is_ready = False


def test_the_thread_has_a_low_priority(work: Path) -> None:
    found: list[int] = []

    def sign(_: bytes) -> bytes:
        found.append(os.getpriority(os.PRIO_PROCESS, threading.get_native_id()))
        return b"signature"

    played = Played(sign)
    played.add(made(work / "a", b"a"))
    played.finish()
    judge("what records goes ahead", found == [NICE] and os.getpriority(os.PRIO_PROCESS, 0) != NICE, found)


# ---- at the end of a run


def test_what_the_end_waits_for_is_said_again_and_again(work: Path) -> None:
    err: list[str] = []
    awaited = {"hash": "a", "file": ""}
    progress = EndProgress((lambda: awaited["hash"], lambda: awaited["file"]), err.append)
    judge("not at once", progress.deadline(5.0) == 5.0 + FIRST)
    for now in (5.0, 5.0 + FIRST - 0.1, 5.0 + FIRST, 5.0 + FIRST + 1):
        progress.tick(now)
    judge("after a moment", err == ["bpfrec live: waits for a"], err)
    awaited["file"] = "b"
    progress.tick(5.0 + FIRST + PAUSE)
    judge("and again", err[1:] == ["bpfrec live: waits for a", "bpfrec live: waits for b"], err)
