"""The SHA-256 of each recording that has ended, brought into its facts with that of the one before; then the facts are
signed, where a key is given. One recording is in work at a time, in the order in which they began, by a thread of low
priority, so that nothing else waits."""

from __future__ import annotations

import contextlib
import hashlib
import os
import threading
import time
from dataclasses import dataclass, field
from typing import Callable, NamedTuple, Optional

from bpfrec.formats.names import facts_path, signature_path
from bpfrec_tools.cli.signatures import Unsigned
from bpfrec_tools.live.kept.facts import Entry, encoded, replace
from bpfrec_tools.live.kept.names import Files
from bpfrec_tools.live.kept.signer import Overdue, Signer
from bpfrec_tools.live.parts.loop import Loop
from bpfrec_tools.live.parts.recorder import Recorder
from bpfrec_tools.live.said import said

# How many bytes are read at once.
PIECE = 1 << 20
# The priority of the thread: what records goes ahead of it.
NICE = 10
# After a signature that took too long none is tried for so many seconds.
SIGN_PAUSE = 60.0
# The status of a run with facts that couldn't be signed.
UNSIGNED_STATUS = 1
GIVEN_UP = "the run was ended"
NO_FACTS, NO_HASH = "it has no facts", "its recording has no hash"
GONE = "it was removed or moved, or another file has its name"
CHANGED = "it was changed when it had ended"
RESTING = f"the one before took too long, after which none is tried for {SIGN_PAUSE:.0f} s"


class Unhashed(Exception):
    """Why a recording has no hash."""


class File(NamedTuple):
    """Which file a recording is, how long it is, and when it was changed last, in nanoseconds."""

    device: int
    number: int
    length: int
    changed: int

    @classmethod
    def of(cls, found: os.stat_result) -> File:
        """The file that was looked at."""
        return cls(found.st_dev, found.st_ino, found.st_size, found.st_mtime_ns)

    def is_same(self, other: File) -> bool:
        """Whether another look met the same file, however it was changed."""
        return (self.device, self.number) == (other.device, other.number)


class Ended(NamedTuple):
    """A recording that has ended, with its file; None of one that isn't there."""

    out: str
    file: Optional[File]


@dataclass
class Job:
    """A recording whose facts are to be finished; None where none could be written. `finished` is called at the end,
    with the files that were made beside it. One that has to go has the reason, and what removes it."""

    ended: Ended
    facts: Optional[Entry]
    finished: Callable[[tuple[str, ...]], None]
    has_to_go: str = ""
    remove: Callable[[], None] = field(default=lambda: None)


class Outcome(NamedTuple):
    """What came of a job: the hash, why there is none, and why there is no signature."""

    digest: Optional[str] = None
    why_unhashed: Optional[str] = None
    why_unsigned: Optional[str] = None


def ended_of(recorder: Recorder) -> Optional[Ended]:
    """A recording that has ended; None of one that is no file of its own, or was discarded."""
    if not recorder.is_created:
        return None
    try:
        found = os.stat(recorder.about.out if recorder.descriptor is None else recorder.descriptor)
    except OSError:
        return Ended(recorder.about.out, None)
    return Ended(recorder.about.out, File.of(found))


class Unsigneds:
    """Facts that couldn't be signed, each with the SHA-256 of its bytes, and what signs them once more."""

    def __init__(self) -> None:
        self.digests: dict[str, bytes] = {}

    def add(self, path: str, facts: bytes) -> None:
        """These facts have no signature."""
        self.digests[path] = hashlib.sha256(facts).digest()

    def sign(self, sign: Callable[[str, bytes], Optional[str]]) -> None:
        """Tries each once more that nobody has changed, until one fails."""
        for path, digest in list(self.digests.items()):
            facts = b""
            with contextlib.suppress(OSError), open(path, "rb", opener=opened) as file:
                facts = file.read()
            if hashlib.sha256(facts).digest() != digest:
                continue
            if sign(path, facts) is not None:
                return
            del self.digests[path]


class Hashes:
    """Finishes the facts of recordings. `unsigned` takes the facts that couldn't be signed and why, `unhashed` the
    recording that has no hash and why, and `err` a line for who watches."""

    def __init__(
        self,
        loop: Loop,
        files: Files,
        signer: Optional[Signer],
        unsigned: Callable[[str, str], None],
        unhashed: Callable[[str, str], None],
        err: Callable[[str], None],
    ) -> None:
        self.loop, self.files, self.signer, self.err = loop, files, signer, err
        self.unsigned, self.unhashed = unsigned, unhashed
        # The numbers of recordings that go on, or aren't on their disk; and what waits, by its number.
        self.open: set[int] = set()
        self.waiting: dict[int, Job] = {}
        self.job: Optional[Job] = None
        self.thread: Optional[threading.Thread] = None
        self.is_given_up = False
        # How many bytes of the recording in work were read.
        self.read = 0
        # The recording before, as the facts of the next one name it.
        self.before: Optional[Entry] = None
        # No signature is tried before this moment; the facts without one, and whether there is nothing to sign of others.
        self.sign_at, self.without, self.lacks_facts = 0.0, Unsigneds(), False

    @property
    def status(self) -> int:
        """That of the run: whether there are facts that couldn't be signed."""
        return UNSIGNED_STATUS if self.lacks_facts or self.without.digests else 0

    def begin(self, number: int) -> None:
        """A recorder was started. Recordings with greater numbers wait for it."""
        self.open.add(number)

    def add(
        self, number: int, ended: Optional[Ended], facts: Optional[Entry], finished: Callable[[tuple[str, ...]], None]
    ) -> None:
        """A recording has ended, and its facts were written as far as they are known."""
        self.open.discard(number)
        if ended is None:
            finished(())
        else:
            self.waiting[number] = Job(ended, facts, finished)
        self.begin_next()

    def begin_next(self) -> None:
        """Starts with the recording that began first, where none is in work, and none before it is still open."""
        while self.waiting and not self.thread:
            number = min(self.waiting)
            if any(it < number for it in self.open):
                return
            self.start(self.waiting.pop(number))

    def start(self, job: Job) -> None:
        """Starts with a recording; one that has gone is named by the next one alone."""
        if job.has_to_go:
            self.before = before_of(job, None)
            return
        self.job, self.read = job, 0
        self.thread = threading.Thread(target=self.work, args=(job, self.before), name="hashes", daemon=True)
        try:
            self.thread.start()
        except RuntimeError as error:
            self.end(job, Outcome(None, str(error), NO_HASH))

    def end(self, job: Job, outcome: Outcome) -> None:
        """All is done for a recording that can be done."""
        self.thread = self.job = None
        out = job.ended.out
        self.before = before_of(job, outcome.digest)
        if outcome.why_unhashed is not None:
            self.tell_unhashed(out, outcome.why_unhashed)
        if self.signer and outcome.why_unsigned is not None and not job.has_to_go:
            self.lacks_facts = self.lacks_facts or facts_path(out) not in self.without.digests
            self.err(said(f"{facts_path(out)} isn't signed: {outcome.why_unsigned}"))
            self.unsigned(facts_path(out), outcome.why_unsigned)
        is_signed = self.signer is not None and outcome.why_unsigned is None
        job.finished((signature_path(facts_path(out)),) if is_signed else ())
        job.remove()
        self.begin_next()

    def tell_unhashed(self, out: str, why: str) -> None:
        """Tells that a recording has no hash."""
        self.err(said(f"{out} has no hash in its facts: {why}"))
        self.unhashed(out, why)

    def let_go(self, out: str, why: str, remove: Callable[[], None]) -> None:
        """A recording has to go, hashed or not: it is removed once it isn't in work."""
        job = next((it for it in (self.job, *self.waiting.values()) if it and it.ended.out == out), None)
        if job is None:
            remove()
        elif job is self.job:
            job.remove, job.has_to_go = remove, why
            if self.signer:
                self.signer.stop()
        else:
            job.has_to_go = why
            self.tell_unhashed(out, why)
            remove()

    def awaited(self) -> str:
        """What isn't finished yet, and how far it is: nothing where all is."""
        if not self.job or not self.job.ended.file:
            return ""
        more = f", and of {len(self.waiting)} more" if self.waiting else ""
        return f"the hash of {self.job.ended.out}, of which {self.read:,} of {self.job.ended.file.length:,} bytes are read{more}"

    def finish(self, turn: Callable[[], None], is_given_up: Callable[[], bool]) -> None:
        """Waits until all is done, unless nobody waits for that any more. What wasn't signed is tried once more."""
        self.open.clear()
        self.begin_next()
        self.wait(turn, is_given_up)
        if self.signer and self.without.digests and not self.is_given_up:
            self.thread = threading.Thread(target=self.sign_again, name="signatures", daemon=True)
            self.thread.start()
            self.wait(turn, is_given_up)

    def wait(self, turn: Callable[[], None], is_given_up: Callable[[], bool]) -> None:
        """Waits until nothing is in work."""
        while self.thread:
            if is_given_up() and not self.is_given_up:
                self.is_given_up = True
                if self.signer:
                    self.signer.kill()
            turn()

    def all_signed(self) -> None:
        """What wasn't signed was tried once more."""
        self.thread = None

    # ---- in the thread

    def work(self, job: Job, before: Optional[Entry]) -> None:
        """Does a job, in the thread."""
        outcome = Outcome(None, "it ended with a fault", NO_HASH)
        with contextlib.suppress(OSError):
            os.setpriority(os.PRIO_PROCESS, threading.get_native_id(), NICE)
        try:
            outcome = self.outcome_of(job, before)
        finally:
            self.loop.call_soon(lambda: self.end(job, outcome))

    def outcome_of(self, job: Job, before: Optional[Entry]) -> Outcome:
        """Finishes the facts of a recording, and signs them: what came of it."""
        if job.facts is None:
            return Outcome(None, None, NO_FACTS)
        digest = None
        try:
            digest = self.digest_of(job)
            length = job.ended.file.length if job.ended.file else 0
            facts = encoded({**job.facts, "sha256": digest, "bytes": length, "before": before})
            replace(facts_path(job.ended.out), self.files, facts)
        except (Unhashed, OSError, MemoryError) as why:
            return Outcome(digest, reason_of(why), NO_HASH)
        why_unsigned = self.why_unsigned(facts_path(job.ended.out), facts)
        if why_unsigned is not None and self.signer and not job.has_to_go:
            self.without.add(facts_path(job.ended.out), facts)
        return Outcome(digest, None, why_unsigned)

    def sign_again(self) -> None:
        """Signs what wasn't signed, in the thread."""
        self.sign_at = 0.0
        try:
            self.without.sign(self.why_unsigned)
        finally:
            self.loop.call_soon(self.all_signed)

    def digest_of(self, job: Job) -> str:
        """The SHA-256 of a recording, as it was when it ended; an Unhashed says why there is none."""
        ended = job.ended
        if ended.file is None:
            raise Unhashed(GONE)
        digest, piece = hashlib.sha256(), bytearray(PIECE)
        try:
            file = open(ended.out, "rb", buffering=0, opener=opened)
        except FileNotFoundError:
            raise Unhashed(GONE) from None
        with file:
            self.judge(file.fileno(), ended.file)
            while count := file.readinto(piece):
                digest.update(memoryview(piece)[:count])
                self.read += count
                if self.is_given_up or job.has_to_go:
                    raise Unhashed(job.has_to_go or GIVEN_UP)
            self.judge(file.fileno(), ended.file)
        return digest.hexdigest()

    def judge(self, descriptor: int, ended: File) -> None:
        """Refuses a file that isn't the one that has ended, or was changed since."""
        found = File.of(os.fstat(descriptor))
        if not found.is_same(ended):
            raise Unhashed(GONE)
        if found != ended:
            raise Unhashed(CHANGED)

    def why_unsigned(self, path: str, facts: bytes) -> Optional[str]:
        """Signs facts: why there is no signature; None where there is one, or nobody asks for it."""
        if not self.signer:
            return None
        if self.is_given_up:
            return GIVEN_UP
        if time.monotonic() < self.sign_at:
            return RESTING
        try:
            replace(signature_path(path), self.files, self.signer.sign(facts))
        except Overdue as why:
            self.sign_at = time.monotonic() + SIGN_PAUSE
            return str(why)
        except (Unsigned, OSError, MemoryError) as why:
            return GIVEN_UP if self.is_given_up else reason_of(why)
        return None


def before_of(job: Job, digest: Optional[str]) -> Entry:
    """A recording, as the facts of the next one name it."""
    return {"recording": os.path.basename(job.ended.out), "sha256": digest}


def opened(path: str, flags: int) -> int:
    """Opens a file that is no link, and waits for no writer of a pipe."""
    return os.open(path, flags | os.O_NOFOLLOW | os.O_NONBLOCK | os.O_CLOEXEC)


def reason_of(why: Exception) -> str:
    """Why something failed, in words."""
    if isinstance(why, OSError):
        return why.strerror or str(why)
    return str(why) or "out of memory"
