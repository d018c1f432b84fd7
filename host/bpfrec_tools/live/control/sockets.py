"""Lines by a Unix socket: each client's lines are taken as those of standard input are, one by one, and answered to it.

An answer is a line `done` or `refused`, lines that say what, and an empty line. A mark is answered at once, also ahead of
filters that came before: a client that has to know which is which waits for each.
"""

from __future__ import annotations

import os
import socket
import stat
import time
from functools import partial
from typing import Callable, Optional

from bpfrec_tools.live.control.changes import MAX_LINE_LEN
from bpfrec_tools.live.control.line_buffer import READ_LEN, LineBuffer
from bpfrec_tools.live.control.words import Answering
from bpfrec_tools.live.kept.names import Refusal, refused
from bpfrec_tools.live.parts.loop import Loop
from bpfrec_tools.live.said import said

# The longest path that a Unix socket can have, in bytes.
MAX_PATH_LEN = 107
MOST_CLIENTS = 16
# Of a client that waits for so many answers no further line is taken; one with so many bytes of them to read is let go.
MOST_ASKED = 128
MAX_UNREAD = 1 << 20
OWNERS = 0o600
Take = Callable[[bytes, Answering], None]


def text_of(text: str, is_done: bool) -> bytes:
    """An answer as a client gets it."""
    lines = [it for it in text.split("\n") if it]
    return os.fsencode("\n".join(["done" if is_done else "refused", *lines]) + "\n\n")


class Heard(Refusal):
    """Somebody listens there."""


class Client:
    """Who sends lines: those that it has sent in part, and the answers that it hasn't read."""

    def __init__(self, connection: socket.socket) -> None:
        self.connection, self.buffer, self.unread = connection, LineBuffer(), bytearray()
        self.asked, self.has_ended, self.is_closed = 0, False, False
        self.active_at = time.monotonic()

    def read(self) -> None:
        """Reads what came; the last line has no end where it sends no more."""
        try:
            part = self.connection.recv(READ_LEN)
        except BlockingIOError:
            return
        except OSError:
            part = b""
        self.buffer.put(part)
        if not part:
            self.has_ended = True
            self.buffer.end_line()

    def is_idle(self) -> bool:
        """Whether nothing is to be done for it."""
        return self.asked <= 0 and not self.buffer.lines and not self.unread

    def is_too_much(self) -> bool:
        """Whether it asks for more than it reads, or a line has no end."""
        return len(self.unread) > MAX_UNREAD or len(self.buffer.rest) > MAX_LINE_LEN

    def send(self) -> None:
        """Sends what there is room for; to one that has left nothing more."""
        try:
            while self.unread:
                del self.unread[: self.connection.send(self.unread)]
        except BlockingIOError:
            pass
        except OSError:
            self.unread.clear()
            self.has_ended = True


class ControlSocket:
    """The socket at a path, which the owner alone may open, and its clients. `take` takes each line with who asked, where
    `may_take` says so."""

    def __init__(self, path: str, loop: Loop, may_take: Callable[[], bool], take: Take) -> None:
        self.path, self.loop, self.may_take, self.take = path, loop, may_take, take
        self.clients: list[Client] = []
        self.listener = listening_at(path)
        found = os.stat(path)
        self.identity = (found.st_dev, found.st_ino)

    def read(self) -> None:
        """Has more read of those whose lines are taken."""
        self.loop.on_read(self.listener.fileno(), self.accept)
        for client in self.clients:
            wants = not client.buffer.lines and not client.has_ended
            self.loop.on_read(client.connection.fileno(), partial(self.read_from, client) if wants else None)

    def accept(self) -> None:
        """Takes another client, in the place of the one that has been idle for longest where there are many."""
        try:
            connection, _ = self.listener.accept()
        except OSError:
            return
        if len(self.clients) >= MOST_CLIENTS:
            idle = min((it for it in self.clients if it.is_idle()), key=lambda it: it.active_at, default=None)
            if idle is None:
                connection.close()
                return
            self.let_go(idle)
        connection.setblocking(False)
        self.clients.append(Client(connection))

    def read_from(self, client: Client) -> None:
        """Reads lines of a client, which are taken in their turns."""
        client.read()
        self.look_at(client)

    def take_next(self) -> bool:
        """Takes a line of each client that has one which may be taken: whether one did."""
        has_taken = False
        # The next turn begins with another one.
        self.clients = self.clients[1:] + self.clients[:1]
        for client in list(self.clients):
            line = client.buffer.take(self.may_take) if client.asked < MOST_ASKED else None
            if line is not None:
                has_taken = True
                self.take_of(client, line)
        return has_taken

    def take_of(self, client: Client, line: bytes) -> None:
        """Takes a line of a client."""
        client.asked += 1
        client.active_at = time.monotonic()
        self.take(line, lambda text, is_done: self.answer(client, text, is_done))
        self.look_at(client)

    def answer(self, client: Client, text: str, is_done: bool) -> None:
        """Answers a client, if it is still there."""
        client.asked -= 1
        if not client.is_closed:
            client.unread += text_of(text, is_done)
            self.look_at(client)

    def look_at(self, client: Client) -> None:
        """Sends a client what it has room for, and lets it go where it has all, or asks for too much."""
        client.send()
        if client.is_closed:
            return
        if client.is_too_much() or (client.has_ended and client.is_idle()):
            self.let_go(client)
        else:
            self.loop.on_room(client.connection.fileno(), (lambda: self.look_at(client)) if client.unread else None)

    def let_go(self, client: Client) -> None:
        """Closes a client's connection; of its lines no further one is taken."""
        client.buffer.clear()
        descriptor = client.connection.fileno()
        self.loop.on_read(descriptor, None)
        self.loop.on_room(descriptor, None)
        client.connection.close()
        client.is_closed = True
        self.clients.remove(client)

    def close(self) -> None:
        """Ends all: the path is removed, if it is this socket's still."""
        for client in list(self.clients):
            client.send()
            self.let_go(client)
        self.loop.on_read(self.listener.fileno(), None)
        self.listener.close()
        try:
            found = os.stat(self.path, follow_symlinks=False)
            if (found.st_dev, found.st_ino) == self.identity:
                os.unlink(self.path)
        except OSError:
            pass


def listening_at(path: str) -> socket.socket:
    """A socket that listens at a path. One that nobody listens at any more is replaced, and nothing else is."""
    if is_left(path):
        os.unlink(path)
    made = socket.socket(socket.AF_UNIX, socket.SOCK_STREAM | socket.SOCK_NONBLOCK | socket.SOCK_CLOEXEC)
    before = os.umask(0o777 & ~OWNERS)
    try:
        made.bind(path)
    except OSError as error:
        made.close()
        raise refused(3, f"--control {path}: {error.strerror}") from None
    finally:
        os.umask(before)
    made.listen(MOST_CLIENTS)
    return made


def has_socket(path: str) -> bool:
    """Whether a socket stands at a path; one at which none can be made is refused."""
    if len(os.fsencode(path)) > MAX_PATH_LEN:
        raise refused(2, f"--control {path}: a socket's path has at most {MAX_PATH_LEN} bytes")
    found = kind_of(path)
    if found is None and os.path.islink(path):
        raise refused(3, f"--control {path}: it is a link that leads nowhere")
    if found is not None and not stat.S_ISSOCK(found):
        raise refused(3, f"--control {path}: it exists, and is no socket")
    folder = os.path.dirname(path) or "."
    if not os.path.isdir(folder):
        raise refused(3, f"--control {path}: there is no folder {folder}")
    return found is not None


def is_left(path: str) -> bool:
    """Whether the socket of a run that was killed stands at a path; one at which none can be made is refused."""
    if not has_socket(path):
        return False
    with socket.socket(socket.AF_UNIX, socket.SOCK_STREAM) as asked:
        # Where its queue is full somebody listens too, who takes no connection now.
        asked.setblocking(False)
        try:
            asked.connect(path)
        except ConnectionRefusedError:
            return True
        except BlockingIOError:
            pass
        except OSError as error:
            raise refused(3, f"--control {path}: {error.strerror}") from None
    raise Heard(3, said(f"{path}: another run takes lines there: give OUT another name, or --control"))


def kind_of(path: str) -> Optional[int]:
    """What stands at a path; None where nothing does."""
    try:
        return os.stat(path).st_mode
    except FileNotFoundError:
        return None
    except OSError as error:
        raise refused(3, f"--control {path}: {error.strerror}") from None
