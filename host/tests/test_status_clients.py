"""Tries that no client can stop the server of the status, or slow the run: slow ones, hostile ones, and many."""

import contextlib
import resource
import socket
import subprocess
import sys
import threading
import time
from pathlib import Path

import pytest
from asking import asked, connection, place_of, raw
from scripted import Flight, endpoint_in, server, wires_of
from support import ROOT, judge, judge_quietly, present, run, wait_for

PATHS = ("/", "/status.json", "/metrics")
pytestmark = pytest.mark.timed


def test_half_a_request_is_closed_without_an_answer_in_time(flight: Flight, monkeypatch: pytest.MonkeyPatch) -> None:
    monkeypatch.setattr(server, "MOST_SECONDS", 0.5)
    with connection(flight) as client:
        client.sendall(b"GET / HT")
        begin = time.monotonic()
        judge("it is closed without an answer", client.recv(100) == b"")
        judge("in its time", 0.3 < time.monotonic() - begin < 3)


def test_a_request_of_a_byte_at_a_time_is_closed(flight: Flight, monkeypatch: pytest.MonkeyPatch) -> None:
    """Each byte comes in time, but not the whole."""
    monkeypatch.setattr(server, "MOST_SECONDS", 0.5)
    begin = time.monotonic()
    with connection(flight) as client, contextlib.suppress(OSError):
        client.settimeout(0.05)
        while time.monotonic() - begin < 5:
            client.sendall(b"x")
            with contextlib.suppress(TimeoutError):
                if not client.recv(1):
                    break
    judge("all of a request has one time", time.monotonic() - begin < 3)


def test_a_client_that_reads_nothing_holds_up_no_other(work: Path, monkeypatch: pytest.MonkeyPatch) -> None:
    monkeypatch.setattr(server, "MOST_SECONDS", 0.5)
    flight = Flight(work, wires_of(64), endpoint=endpoint_in("0")).flown(60)
    with contextlib.ExitStack() as stack:
        for _ in range(20):
            client = socket.socket()
            client.setsockopt(socket.SOL_SOCKET, socket.SO_RCVBUF, 2_048)
            stack.enter_context(client)
            client.connect(place_of(flight))
            client.sendall(b"GET /status.json HTTP/1.1\r\nHost: localhost\r\n\r\n")
        judge("others are answered meanwhile", asked(flight)[0] == 200)
        wait_for("their connections end", lambda: not present(flight.status.server).open, 10)
    flight.status.close()


def test_asking_and_being_answered_have_one_time_together(work: Path, monkeypatch: pytest.MonkeyPatch) -> None:
    monkeypatch.setattr(server, "MOST_SECONDS", 2.0)
    flight = Flight(work, wires_of(64), endpoint=endpoint_in("0"))
    present(flight.status.server).socket.setsockopt(socket.SOL_SOCKET, socket.SO_SNDBUF, 4_096)
    flight.begin()
    flight.pass_seconds(60)
    with socket.socket() as client:
        client.setsockopt(socket.SOL_SOCKET, socket.SO_RCVBUF, 2_048)
        client.connect(place_of(flight))
        begin = time.monotonic()
        time.sleep(1.5)
        client.sendall(b"GET /status.json HTTP/1.1\r\nHost: localhost\r\n\r\n")
        time.sleep(0.2)
        judge_quietly("its answer waits", present(flight.status.server).open)
        wait_for("it ends", lambda: not present(flight.status.server).open, 10)
        took = time.monotonic() - begin
    flight.status.close()
    judge("it ends in its time", took < 3, took)


def test_a_head_without_an_end_is_cut_where_it_is_too_long(flight: Flight) -> None:
    begin, sent = time.monotonic(), 0
    with connection(flight) as client, contextlib.suppress(ConnectionError):
        client.sendall(b"GET / HTTP/1.1\r\nX: ")
        while time.monotonic() - begin < 4:
            sent += client.send(b"x" * 65_536)
    judge(f"it took {sent} bytes", time.monotonic() - begin < 2, time.monotonic() - begin)


def threads() -> int:
    return sum(it.name.startswith("Thread-") for it in threading.enumerate())


def test_two_hundred_silent_connections_hold_up_no_request(flight: Flight) -> None:
    before = threads()
    with contextlib.ExitStack() as stack:
        for at in range(200):
            stack.enter_context(connection(flight))
            if at % 40 == 39:
                begin = time.monotonic()
                judge_quietly("one that asks is answered", asked(flight)[0] == 200)
                judge_quietly("soon", time.monotonic() - begin < 3)
        judge("there are as many threads as may be", threads() - before <= server.MOST_CONNECTIONS, threads())
        judge("and as many connections", len(present(flight.status.server).open) <= server.MOST_CONNECTIONS)
    wait_for("all places are free again", lambda: not present(flight.status.server).open, 10)
    holds = all(present(flight.status.server).places.acquire(blocking=False) for _ in range(server.MOST_CONNECTIONS))
    judge("and nothing is lost of them", holds)


def test_the_run_is_not_slowed(flight: Flight) -> None:
    """Calls take their time while clients ask as fast as they can, or hang."""
    ends = threading.Event()

    def ask() -> None:
        while not ends.is_set():
            with contextlib.suppress(OSError):
                asked(flight)

    asking = [threading.Thread(target=ask, daemon=True) for _ in range(4)]
    with contextlib.ExitStack() as stack:
        for _ in range(40):
            stack.enter_context(connection(flight))
        for thread in asking:
            thread.start()
        took = []
        for _ in range(50):
            begin = time.monotonic()
            flight.pass_second()
            took.append(time.monotonic() - begin)
            time.sleep(0.01)
        ends.set()
        for thread in asking:
            thread.join(20)
    judge(f"the longest of 50 calls took {max(took) * 1e3:.0f} ms", sorted(took)[45] < 0.3, took)


def test_a_thousand_requests_leave_no_memory_behind(flight: Flight) -> None:
    def turn(count: int) -> None:
        for at in range(count):
            raw(
                flight,
                (b"GET /%d HTTP/1.1\r\nHost: localhost\r\nX: %s\r\n\r\n" % (at, b"z" * 4_000), b"x\r\n\r\n")[at % 2],
            )
            asked(flight, PATHS[at % 3])

    turn(100)
    before = resource.getrusage(resource.RUSAGE_SELF).ru_maxrss
    turn(500)
    grown = resource.getrusage(resource.RUSAGE_SELF).ru_maxrss - before
    judge(f"memory grew by {grown} KiB", grown < 4_096)
    wait_for("no connection is left", lambda: not present(flight.status.server).open)


def test_without_descriptors_the_server_waits_and_goes_on(work: Path) -> None:
    """Where no connection can be taken, nothing turns in circles, and it goes on once it can."""
    script = f"""
import resource, socket, sys, time
sys.path.insert(0, {str(ROOT / "host")!r})
from bpfrec_tools.live import status
it = status.Status(endpoint=status.endpoint_in("0"))
it.start()
place = (str(it.server.endpoint.address), it.server.endpoint.port)
one = socket.socket()
taken = [open("/dev/null") for _ in range(5)]
resource.setrlimit(resource.RLIMIT_NOFILE, (max(t.fileno() for t in taken) + 1, 1024))
one.connect(place)
one.sendall(b"GET / HTTP/1.0\\r\\n\\r\\n")
begin = time.process_time()
time.sleep(1)
print(time.process_time() - begin < 0.3)
for t in taken: t.close()
one.settimeout(5)
print(one.recv(12) == b"HTTP/1.1 200")
it.close()
"""
    told = run(sys.executable, "-c", script)
    judge("it waits, and then answers", told.split() == ["True", "True"], told)


def test_clients_write_nothing_on_standard_error(work: Path) -> None:
    """Whatever clients do, the terminal is the run's."""
    script = f"""
import socket, struct, sys, time
sys.path.insert(0, {str(ROOT / "host")!r})
from bpfrec_tools.live import status
it = status.Status(endpoint=status.endpoint_in("0"))
it.start()
it.tick(time.monotonic())
for line in (b"x", b"GET / HTTP/1.1", b"POST / HTTP/1.0", b"GET /status.json HTTP/1.0", None):
    request = b"half" if line is None else line + b"\\r\\n\\r\\n"
    one = socket.create_connection((str(it.server.endpoint.address), it.server.endpoint.port))
    one.setsockopt(socket.SOL_SOCKET, socket.SO_LINGER, struct.pack("ii", 1, 0))
    one.sendall(request)
    time.sleep(0.1)
    one.close()
time.sleep(0.2)
it.close()
"""
    done = subprocess.run([sys.executable, "-W", "error", "-c", script], capture_output=True, text=True, timeout=30)
    judge("nothing is said", (done.returncode, done.stdout, done.stderr) == (0, "", ""), done)
