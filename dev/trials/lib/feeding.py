"""Feeds that are written into the pipes of a recording while it runs."""

import contextlib
import errno
import os
import resource
import subprocess
import time
from pathlib import Path
from typing import BinaryIO

from frames import counted_feed


def frames_of(count: int, first: int = 0) -> bytes:
    """The feed of so many frames of 64 bytes, whose counters are their numbers."""
    return counted_feed([bytes(range(64))] * count, first)


def seconds_of_children() -> float:
    """The seconds of a processor that the programs took which have ended."""
    used = resource.getrusage(resource.RUSAGE_CHILDREN)
    return used.ru_utime + used.ru_stime


def pipe_to(running: subprocess.Popen, path: Path) -> BinaryIO:
    """Opens a pipe as soon as a recording reads it; an error where the recording ends before."""
    while True:
        try:
            pipe = os.open(path, os.O_WRONLY | os.O_NONBLOCK)
            os.set_blocking(pipe, True)
            return os.fdopen(pipe, "wb")
        except OSError as error:
            if error.errno != errno.ENXIO or running.poll() is not None:
                raise
        time.sleep(0.001)


def feed_once(path: Path, frames: bytes) -> None:
    """Writes these frames into a pipe, as far as its reader takes them."""
    with contextlib.suppress(BrokenPipeError), open(path, "wb") as pipe:
        pipe.write(frames)


def feed_on(path: Path) -> None:
    """Writes frames into a pipe until its reader has closed it."""
    frames = frames_of(100)
    try:
        with open(path, "wb", buffering=0) as pipe:
            while True:
                pipe.write(frames)
    except BrokenPipeError:
        pass
