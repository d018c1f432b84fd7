"""Tries hashes of recordings that have ended, without a run: what is hashed, in which facts, and what is signed."""

import contextlib
import hashlib
import json
import os
import threading
from collections.abc import Callable, Iterator
from pathlib import Path
from types import SimpleNamespace
from typing import Optional, cast

import pytest
from bpfrec_tools.cli.signatures import Unsigned
from bpfrec_tools.live.kept import hashes
from bpfrec_tools.live.kept.hashes import CHANGED, GIVEN_UP, GONE, NO_FACTS, NO_HASH, PIECE, Ended, Unhashed
from bpfrec_tools.live.kept.signer import Signer
from played_hashes import FACTS, Played, facts_of, job_of, made
from support import judge, judge_quietly, wait_for

# ---- what is hashed


@pytest.mark.parametrize("length", [0, 1, PIECE - 1, PIECE, PIECE + 1, 2 * PIECE + 3])
def test_the_hash_is_that_of_all_bytes(work: Path, length: int) -> None:
    data = os.urandom(length)
    found = Played().hashes.digest_of(job_of(made(work / "out", data)))
    judge(f"{length} bytes", found == hashlib.sha256(data).hexdigest(), found)


def why_unhashed(ended: Ended, played: Optional[Played] = None) -> str:
    with pytest.raises(Unhashed) as refused:
        (played or Played()).hashes.digest_of(job_of(ended))
    return str(refused.value)


def change_bytes(path: Path) -> None:
    path.write_bytes(b"other")


def shorten(path: Path) -> None:
    os.truncate(path, 4)


def change_time(path: Path) -> None:
    os.utime(path, (2, 2))


@pytest.mark.parametrize("change", [change_bytes, shorten, change_time])
def test_a_file_that_was_changed_since_it_ended_has_none(work: Path, change: Callable[[Path], None]) -> None:
    """Also where its length is the same, and where only its time is another."""
    ended = made(work / "out", b"bytes")
    change(work / "out")
    judge("it is said", why_unhashed(ended) == CHANGED)


def test_a_file_that_changes_while_it_is_read_has_none(work: Path, monkeypatch: pytest.MonkeyPatch) -> None:
    ended = made(work / "out", b"bytes")

    class Changing:
        """A hash that changes what it is of."""

        def update(self, _: memoryview) -> None:
            (work / "out").write_bytes(b"BYTES")

    monkeypatch.setattr(hashlib, "sha256", Changing)
    judge("it is said", why_unhashed(ended) == CHANGED)


@contextlib.contextmanager
def opened_late(pipe: Path) -> Iterator[threading.Event]:
    """Opens a pipe after 20 seconds, so that nobody waits for a writer longer: whether it did."""
    is_opened = threading.Event()

    def open_it() -> None:
        is_opened.set()
        os.close(os.open(pipe, os.O_RDWR))

    timer = threading.Timer(20, open_it)
    timer.start()
    try:
        yield is_opened
    finally:
        timer.cancel()


def test_a_file_that_has_gone_has_none(work: Path) -> None:
    """Also where another file, a link to it or a pipe has its name, for whose writer nobody waits."""
    path = work / "out"
    ended = made(path, b"bytes")
    path.rename(work / "moved")
    judge("it is moved", why_unhashed(ended) == GONE)
    made(path, b"bytes")
    judge("another has its name", why_unhashed(ended) == GONE)
    path.unlink()
    os.mkfifo(path)
    with opened_late(path) as is_opened:
        judge("a pipe has", why_unhashed(ended) == GONE and not is_opened.is_set())
    path.unlink()
    path.symlink_to(work / "moved")
    with pytest.raises(OSError):
        Played().hashes.digest_of(job_of(ended))
    judge("it was never there", why_unhashed(Ended(str(path), None)) == GONE)


# ---- in which facts


def test_each_recording_names_the_one_before(work: Path) -> None:
    """One that was discarded isn't before another, and one without a hash is named without."""
    played, before = Played(), None
    for name in ("a", "b"):
        ended = made(work / name, name.encode())
        played.add(None)
        played.add(ended)
        played.finish()
        found = facts_of(ended)
        digest = hashlib.sha256(name.encode()).hexdigest()
        judge(name, found == {**FACTS, "sha256": digest, "bytes": 1, "before": before}, found)
        before = {"recording": name, "sha256": digest}
    gone = Ended(str(work / "gone"), None)
    played.add(gone)
    ended = made(work / "c", b"c")
    played.add(ended)
    played.finish()
    judge("without a hash", facts_of(ended)["before"] == {"recording": "gone", "sha256": None}, facts_of(ended))
    judge("it has no facts", not Path(f"{gone.out}.json").exists())
    judge("it is said", played.err == [f"bpfrec live: {gone.out} has no hash in its facts: {GONE}"], played.err)
    judge("all are finished", len(played.finished) == 6 and played.hashes.status == 0, played.finished)


def test_a_recording_without_facts_is_not_hashed(work: Path) -> None:
    """Its facts couldn't be written, which was said, or there are none; only where they are signed it is a fault."""
    for sign in (None, lambda _: b"signature"):
        played, ended = Played(sign), made(work / "out", b"bytes")
        played.hashes.add(1, ended, None, played.finished.append)
        played.finish()
        line = f"bpfrec live: {ended.out}.json isn't signed: {NO_FACTS}"
        found = (played.err, played.unsigned, played.hashes.status)
        judge("it is said", found == (([line], [(f"{ended.out}.json", NO_FACTS)], 1) if sign else ([], [], 0)), found)
        judge("nothing is there", sorted(it.name for it in work.iterdir()) == ["out", "private"])


def test_facts_that_can_not_be_written_have_no_signature(work: Path, monkeypatch: pytest.MonkeyPatch) -> None:
    def full(*_: object) -> None:
        raise OSError(28, "No space left on device")

    monkeypatch.setattr(hashes, "replace", full)
    played, ended = Played(lambda _: b"signature"), made(work / "out", b"bytes")
    played.add(ended)
    played.finish()
    lines = [f"bpfrec live: {ended.out} has no hash in its facts: No space left on device"]
    lines += [f"bpfrec live: {ended.out}.json isn't signed: {NO_HASH}"]
    judge("both are said", (played.err, played.hashes.status, played.finished) == (lines, 1, [()]), played.err)


# ---- what is signed


def test_the_bytes_of_the_facts_are_signed_once_they_are_in_their_place(work: Path) -> None:
    """With hash and the one before; the signature goes with the recording."""
    signed: list[bytes] = []

    def sign(data: bytes) -> bytes:
        judge_quietly("they are there", data == (work / "out.json").read_bytes() and not signature.exists())
        signed.append(data)
        return b"signature"

    signature = work / "out.json.sig"
    played, ended = Played(sign), made(work / "out", b"bytes")
    played.add(ended)
    played.finish()
    judge("once", len(signed) == 1 and json.loads(signed[0])["sha256"] and signature.read_bytes() == b"signature")
    judge("it goes with it", (played.finished, played.err) == ([(str(signature),)], []), played.finished)
    judge("as the facts", signature.stat().st_mode == (work / "out.json").stat().st_mode)


def test_what_is_not_signed_is_said(work: Path) -> None:
    def sign(_: bytes) -> bytes:
        raise Unsigned("why")

    played, ended = Played(sign), made(work / "out", b"bytes")
    played.add(ended)
    played.finish()
    found = (played.err, played.unsigned, played.hashes.status, played.finished)
    facts = f"{ended.out}.json"
    judge("it is", found == ([f"bpfrec live: {facts} isn't signed: why"], [(facts, "why")], 1, [()]), found)
    judge("the hash stays", facts_of(ended)["sha256"] == hashlib.sha256(b"bytes").hexdigest())


def test_one_recording_is_in_work_at_a_time_and_all_are_waited_for(work: Path) -> None:
    going, most = [0], [0]
    let = threading.Event()

    def sign(_: bytes) -> bytes:
        going[0] += 1
        most[0] = max(most[0], going[0])
        let.wait(30)
        going[0] -= 1
        return b"signature"

    played = Played(sign)
    for name in ("a", "b", "c"):
        played.add(made(work / name, name.encode()))
    wait_for("the first is signed", lambda: going == [1])
    judge("adding waits for nothing", len(played.hashes.waiting) == 2 and played.finished == [])
    let.set()
    played.finish()
    judge("all are", most == [1] and [len(it) for it in played.finished] == [1, 1, 1], (most, played.finished))


def test_a_run_that_is_given_up_hashes_and_signs_no_more(work: Path) -> None:
    """What is being signed is ended."""
    let = threading.Event()

    def sign(_: bytes) -> bytes:
        let.wait(300)
        raise Unsigned("it was ended by signal 9")

    played = Played(sign)
    played.hashes.signer = cast(Signer, SimpleNamespace(sign=sign, kill=let.set, stop=let.set))
    for name in ("a", "b"):
        played.add(made(work / name, name.encode()))
    wait_for("the first is signed", (work / "a.json").exists)
    played.is_given_up = True
    played.finish()
    lines = [f"bpfrec live: {work}/a.json isn't signed: {GIVEN_UP}"]
    lines += [
        f"bpfrec live: {work}/b has no hash in its facts: {GIVEN_UP}",
        f"bpfrec live: {work}/b.json isn't signed: {NO_HASH}",
    ]
    judge("each is said", played.err == lines and played.hashes.status == 1, played.err)
    judge("nothing is signed", not list(work.glob("*.sig")) and not (work / "b.json").exists())
