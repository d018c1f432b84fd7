"""What tests of hashes share: hashes without a run, on a loop and a key that are played."""

import json
import os
from collections import deque
from collections.abc import Callable
from pathlib import Path
from types import SimpleNamespace
from typing import Any, Optional, cast

from bpfrec_tools.live.kept.hashes import Ended, File, Hashes, Job
from bpfrec_tools.live.kept.names import Files
from bpfrec_tools.live.kept.signer import Signer
from bpfrec_tools.live.parts.loop import Loop
from support import wait_for

FACTS = {"facts": 1, "sha256": None, "bytes": None, "before": None}


def made(path: Path, data: bytes) -> Ended:
    """A recording that has ended, a while ago."""
    path.write_bytes(data)
    os.utime(path, (1, 1))
    return Ended(str(path), File.of(path.stat()))


def job_of(ended: Ended) -> Job:
    """A recording that is in work."""
    return Job(ended, FACTS, lambda _: None)


class Played:
    """What hashes stand on: a loop, and a key that signs by `sign`."""

    def __init__(self, sign: Optional[Callable[[bytes], bytes]] = None) -> None:
        self.calls: deque[Callable[[], None]] = deque()
        self.err: list[str] = []
        self.unsigned: list[tuple[str, str]] = []
        self.unhashed: list[tuple[str, str]] = []
        self.finished: list[tuple[str, ...]] = []
        self.kills = 0
        self.is_given_up = False
        loop = cast(Loop, SimpleNamespace(call_soon=self.calls.append))
        signer = cast(Signer, SimpleNamespace(sign=sign, kill=self.kill, stop=self.kill)) if sign else None
        self.hashes = Hashes(loop, Files(), signer, self.take_unsigned, self.take_unhashed, self.err.append)
        self.count = 0

    def take_unsigned(self, path: str, why: str) -> None:
        self.unsigned.append((path, why))

    def take_unhashed(self, path: str, why: str) -> None:
        self.unhashed.append((path, why))

    def kill(self) -> None:
        self.kills += 1

    def add(self, ended: Optional[Ended], facts: Optional[dict[str, Any]] = None) -> None:
        self.count += 1
        self.hashes.add(self.count, ended, FACTS if facts is None else facts, self.finished.append)

    def turn(self) -> None:
        wait_for("something is done", lambda: self.calls)
        while self.calls:
            self.calls.popleft()()

    def finish(self) -> None:
        self.hashes.finish(self.turn, lambda: self.is_given_up)


def facts_of(ended: Ended) -> dict[str, Any]:
    return json.loads(Path(f"{ended.out}.json").read_bytes())
