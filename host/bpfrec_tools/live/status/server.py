"""The server of the status: the page, its data as JSON and the metrics, for who asks by HTTP.

It stands beside the run and can't hold it up: it has threads of its own, at most a few connections, each for a few
seconds, and no answer is made but of a `View` that doesn't change. Nothing that a client sends gets into an answer's
head, into a file, or on standard error.
"""

from __future__ import annotations

import base64
import errno
import hashlib
import io
import pkgutil
import re
import signal
import socket
import socketserver
import threading
import time
from collections.abc import Callable
from http.server import BaseHTTPRequestHandler
from typing import Any, NamedTuple, Optional

from bpfrec_tools.live.status import as_json, metrics
from bpfrec_tools.live.status.alarms import Alarm
from bpfrec_tools.live.status.endpoint import Endpoint, NoServer
from bpfrec_tools.live.status.view import View


def content() -> bytes:
    """The page's bytes, also where the tools are one file."""
    found = pkgutil.get_data(__package__, "page.html")
    if found is None:
        raise FileNotFoundError(2, "No such file or directory", "page.html")
    return found


def sources(page: bytes, tag: bytes) -> str:
    """What a policy lets run or style: each part of the page between this tag's ends, by its digest."""
    parts = re.findall(b"<" + tag + b">(.*?)</" + tag + b">", page, re.DOTALL)
    return " ".join(f"'sha256-{base64.b64encode(hashlib.sha256(it).digest()).decode()}'" for it in parts)


PAGE = content()
# What stands in the page itself, and its data from where it came; nothing else.
CONTENT_POLICY = (
    f"default-src 'none'; script-src {sources(PAGE, b'script')}; style-src {sources(PAGE, b'style')}; "
    "connect-src 'self'; img-src data:; base-uri 'none'; form-action 'none'; frame-ancestors 'none'"
)


# How many connections may be open, how long each may take to ask and to be answered, and how long a request may be.
MOST_CONNECTIONS, MOST_SECONDS, MOST_HEAD_LEN = 32, 5.0, 8_192
# How long a new connection waits for the end of the oldest, where there are too many.
MAKING_ROOM_SECONDS = 0.2
# How long it waits where the system has no more descriptors or memory for a connection.
SHORTAGE_SECONDS = 0.1
# How many may wait to be taken, and how often it is looked whether all ends.
BACKLOG, POLL_SECONDS = 128, 0.25
# The names of this machine's loopback by which a browser may ask: through a tunnel, with another port.
LOCAL = re.compile(r"localhost|127(?:\.[0-9]{1,3}){3}|\[::1\]")
# What a header Host has: an address in brackets or a name, and a port.
HOST = re.compile(r"(\[[0-9a-f:.]+\]|[^\[\]:]+?)\.?(?::[0-9]{1,5})?")
HEADERS = (
    ("Cache-Control", "no-store"),
    ("Content-Security-Policy", CONTENT_POLICY),
    ("Cross-Origin-Resource-Policy", "same-origin"),
    ("Referrer-Policy", "no-referrer"),
    ("X-Content-Type-Options", "nosniff"),
    ("Connection", "close"),
)


class Stock(NamedTuple):
    """What is told until the next one."""

    view: View
    alarms: tuple[Alarm, ...]


class Answer(NamedTuple):
    """An answer: its status, its type and its bytes."""

    status: int
    kind: str
    body: bytes


class Answers:
    """What is answered, of the last stock; its texts are made once, when the first asks for them."""

    def __init__(self, clock: Callable[[], float]) -> None:
        self.clock = clock
        self.stock: Optional[Stock] = None
        self.made: dict[str, tuple[Stock, str]] = {}
        self.lock = threading.Lock()

    def take(self, view: View, alarms: tuple[Alarm, ...]) -> None:
        """Has these told from now on."""
        self.stock = Stock(view, alarms)

    def text_of(self, path: str, stock: Stock) -> str:
        """The text of this path, without its age."""
        with self.lock:
            known = self.made.get(path)
            if known is None or known[0] is not stock:
                make = as_json.text_of if path == "/status.json" else metrics.text_of
                known = self.made[path] = stock, make(stock.view, stock.alarms)
            return known[1]

    def answer(self, path: str) -> Answer:
        """What a path is answered."""
        if path == "/":
            return Answer(200, "text/html; charset=utf-8", PAGE)
        stock = self.stock
        if path not in ("/status.json", "/metrics"):
            return plain(404, "There is /, /status.json and /metrics.")
        if stock is None:
            return plain(503, "Nothing is known yet.")
        age, text = self.clock() - stock.view.now, self.text_of(path, stock)
        if path == "/metrics":
            return Answer(200, metrics.CONTENT_TYPE, metrics.with_age(text, age).encode())
        return Answer(200, "application/json", as_json.with_age(text, age).encode())


def plain(status: int, text: str) -> Answer:
    """An answer in words."""
    return Answer(status, "text/plain; charset=utf-8", f"{text}\n".encode())


class Handler(BaseHTTPRequestHandler):
    """A connection: one request and its answer."""

    server: Server
    server_version, sys_version = "bpfrec", ""
    # Without a name and a version of HTTP a request has no head to answer in.
    default_request_version = "HTTP/1.0"
    protocol_version = "HTTP/1.1"

    def handle(self) -> None:
        """Reads the request within its time, and answers it."""
        end = time.monotonic() + MOST_SECONDS
        head = self.head_until(end)
        if head is None:
            return
        self.rfile = io.BytesIO(head)
        self.raw_requestline = self.rfile.readline()
        self.command = ""
        answer = self.answer_to_request()
        self.connection.settimeout(max(end - time.monotonic(), 0.001))
        self.send(answer)

    def head_until(self, end: float) -> Optional[bytes]:
        """The request up to its empty line, or as much as is too long; None where it doesn't come in time."""
        head = b""
        while not (head.endswith(b"\n\r\n") or b"\n\r\n" in head or b"\n\n" in head) and len(head) <= MOST_HEAD_LEN:
            left = end - time.monotonic()
            if left <= 0:
                return None
            self.connection.settimeout(left)
            part = self.connection.recv(MOST_HEAD_LEN)
            if not part:
                return None
            head += part
        return head

    def answer_to_request(self) -> Answer:
        """What is answered."""
        if self.rfile.seek(0, io.SEEK_END) > MOST_HEAD_LEN:
            return plain(431, f"A request has {MOST_HEAD_LEN} bytes at most.")
        self.rfile.seek(len(self.raw_requestline))
        if not self.parse_request():
            return plain(400, "This is no request of HTTP.")
        if self.command not in ("GET", "HEAD"):
            return plain(405, "There is GET and HEAD.")
        refused = self.judge_host()
        return refused or self.server.answers.answer(self.path.partition("?")[0])

    def judge_host(self) -> Optional[Answer]:
        """Refuses a request under another machine's name: a page of the web may have its name lead to this machine, so
        that a browser here hands it what is answered."""
        names = self.headers.get_all("Host") or []
        if len(names) > 1 or not names and self.request_version == "HTTP/1.1":
            return plain(400, "There is no header Host, or more than one.")
        if names and not self.is_here(names[0]):
            return plain(421, "The header Host names neither this address nor a name of --status-name.")
        return None

    def is_here(self, host: str) -> bool:
        """Whether a header Host names the loopback, the address at which it came, or a name that was given; with any
        port or none."""
        found = HOST.fullmatch(host.strip().lower())
        if not found:
            return False
        name, here = found[1], self.connection.getsockname()[0].partition("%")[0]
        return LOCAL.fullmatch(name) is not None or name in (here, f"[{here}]") or name in self.server.names

    def send(self, answer: Answer) -> None:
        """Sends an answer, of which who asked by HEAD gets the head alone."""
        self.request_version = "HTTP/1.1"
        self.send_response_only(answer.status)
        for name, value in HEADERS:
            self.send_header(name, value)
        if answer.status == 405:
            self.send_header("Allow", "GET, HEAD")
        self.send_header("Content-Type", answer.kind)
        self.send_header("Content-Length", str(len(answer.body)))
        self.end_headers()
        if self.command != "HEAD":
            self.wfile.write(answer.body)

    def handle_expect_100(self) -> bool:
        """Asks nobody to go on: no request has more than its head."""
        return True

    def send_error(self, code: int, message: Optional[str] = None, explain: Optional[str] = None) -> None:
        """Says nothing: what is wrong with a request is answered without its words."""


class Server(socketserver.ThreadingMixIn, socketserver.TCPServer):
    """Serves until it is closed, under its address and these names. At most so many connections are open; where there
    are more, the oldest is closed."""

    allow_reuse_address, daemon_threads, request_queue_size = True, True, BACKLOG

    def __init__(self, endpoint: Endpoint, clock: Callable[[], float] = time.monotonic) -> None:
        self.address_family = socket.AF_INET6 if endpoint.address.version == 6 else socket.AF_INET
        self.names, self.answers = endpoint.names, Answers(clock)
        self.places = threading.BoundedSemaphore(MOST_CONNECTIONS)
        self.lock = threading.Lock()
        # Those that are open, the oldest first.
        self.open: dict[socket.socket, None] = {}
        try:
            super().__init__((str(endpoint.address), endpoint.port), Handler)
        except OSError as error:
            raise NoServer(f"--status {endpoint}: {error.strerror or error}") from None
        self.endpoint = endpoint._replace(port=self.server_address[1])
        self.thread = threading.Thread(target=self.serve_forever, args=(POLL_SECONDS,), name="status", daemon=True)

    def server_bind(self) -> None:
        """Takes the address, and of IPv6 it alone."""
        if self.address_family == socket.AF_INET6:
            self.socket.setsockopt(socket.IPPROTO_IPV6, socket.IPV6_V6ONLY, 1)
        super().server_bind()

    def start(self) -> None:
        """Begins to serve. No signal comes to its threads, so that each is the run's."""
        before = signal.pthread_sigmask(signal.SIG_BLOCK, signal.valid_signals())
        try:
            self.thread.start()
        finally:
            signal.pthread_sigmask(signal.SIG_SETMASK, before)

    def stop(self) -> None:
        """Ends; what is being answered is cut."""
        if self.thread.is_alive():
            self.shutdown()
        self.server_close()
        with self.lock:
            for client in self.open:
                close_ways(client)

    def get_request(self) -> tuple[socket.socket, Any]:
        """The next connection. Where the system is short of something it isn't asked at once again."""
        try:
            return super().get_request()
        except OSError as error:
            if error.errno in (errno.EMFILE, errno.ENFILE, errno.ENOBUFS, errno.ENOMEM):
                time.sleep(SHORTAGE_SECONDS)
            raise

    def verify_request(self, request: Any, client_address: Any) -> bool:
        """Whether there is a place for a connection, for which the oldest may have to go."""
        if not self.places.acquire(blocking=False):
            self.end_oldest()
            if not self.places.acquire(timeout=MAKING_ROOM_SECONDS):
                return False
        with self.lock:
            self.open[request] = None
        return True

    def end_oldest(self) -> None:
        """Ends the oldest connection: one that asks and is answered at once is never the oldest for long."""
        with self.lock:
            oldest = next(iter(self.open), None)
            if oldest is not None:
                del self.open[oldest]
                self.open[oldest] = None
                close_ways(oldest)

    def close_request(self, request: Any) -> None:
        """Closes a connection, and gives its place to another."""
        with self.lock:
            had_place = request in self.open
            self.open.pop(request, None)
            request.close()
        if had_place:
            self.places.release()

    def handle_error(self, request: Any, client_address: Any) -> None:
        """Says nothing of a connection that broke."""


def close_ways(connection: socket.socket) -> None:
    """Ends a connection both ways; its thread closes it."""
    try:
        connection.shutdown(socket.SHUT_RDWR)
    except OSError:
        return
