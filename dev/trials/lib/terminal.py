"""An interactive bash with job control at a pseudo-terminal, in which trials type."""

import contextlib
import fcntl
import os
import pty
import subprocess
import termios
import threading
from pathlib import Path

from recordings import RUN
from support import wait_for

READ_BYTES = 4_096


class Terminal:
    """The bash, in a folder, with what it shows. What runs in it is known by the recording that it is to make."""

    def __init__(self, work: Path, out: Path) -> None:
        self.master, slave = pty.openpty()
        self.shell = subprocess.Popen(
            ["bash", "--norc", "--noprofile", "-i"],
            stdin=slave,
            stdout=slave,
            stderr=slave,
            start_new_session=True,
            cwd=work,
            env={**os.environ, "TMPDIR": str(work / "private"), RUN: str(out)},
            preexec_fn=lambda: fcntl.ioctl(0, termios.TIOCSCTTY, 0),
        )
        os.close(slave)
        self.shown = b""
        threading.Thread(target=self.read, daemon=True).start()

    def read(self) -> None:
        with contextlib.suppress(OSError):
            while part := os.read(self.master, READ_BYTES):
                self.shown += part

    def type_in(self, line: str) -> None:
        self.press(line.encode() + b"\n")

    def press(self, key: bytes) -> None:
        os.write(self.master, key)

    def wait_until_shown(self, what: bytes, seconds: float = 10) -> None:
        wait_for(lambda: f"{what!r} is shown: {self.shown!r}", lambda: what in self.shown, seconds)

    def end(self) -> None:
        self.shell.kill()
        self.shell.wait()
        os.close(self.master)
