"""Disks of a trial's own."""

import contextlib
from collections.abc import Iterator
from pathlib import Path

import pytest
from support import outcome


@contextlib.contextmanager
def mounted(words: list, place: Path) -> Iterator[Path]:
    """A mount while it lasts; a trial is left out where it can't be made."""
    place.mkdir(exist_ok=True)
    done = outcome("mount", *words, place)
    if done.returncode:
        pytest.skip(f"mount {' '.join(map(str, words))}: {done.stderr.strip()}")
    try:
        yield place
    finally:
        outcome("umount", "-l", place)


def memory_disk(place: Path, options: str = "size=2m") -> contextlib.AbstractContextManager[Path]:
    """A disk in memory."""
    return mounted(["-t", "tmpfs", "-o", options, "none"], place)
