"""Tries lines that come by a Unix socket, beside those of standard input."""

import contextlib
import os
import random
import re
import signal
import socket
import stat
import subprocess
import threading
from pathlib import Path
from typing import Any

import pytest
from frames import numbers_in, records
from namespace import send_numbered
from recordings import YES, begin, extracted, facts_of, write_settings
from support import LIVE, PREFLIGHT, SECONDS, TOOLS, Running, judge, judge_quietly, outcome, present

pytestmark = pytest.mark.wanted("bin/bpfrec", "bin/capture", "ip", "tcpdump")
CONTROL = TOOLS / "tell"


@pytest.fixture(name="run")
def run_with_a_socket(work: Path, namespace: None) -> Running:
    """A recording of one interface that takes lines by a socket alone."""
    return begin(work, work / "flight.ch11", "--quiet", "--control", work / "control")


def ask(work: Path, *words: object, **more: Any) -> subprocess.CompletedProcess:
    return outcome(CONTROL, "--wait", 20, work / "control", *words, **more)


def test_each_line_is_answered(work: Path, run: Running) -> None:
    judge("the owner's alone", stat.S_IMODE((work / "control").stat().st_mode) == 0o600)
    done = ask(work, "set", "1", "udp", "port", "5004")
    judge("a filter", (done.returncode, done.stdout, done.stderr) == (0, "installed 1 1 0\n", ""), done)
    done = ask(work, "set", "1", "all")
    judge("all frames", (done.returncode, done.stdout, done.stderr) == (0, "installed 1 2 0\n", ""), done)
    done = ask(work, "mark", "gear up")
    judge("a mark", done.returncode == 0 and done.stdout.startswith("marked "), done)
    done = ask(work, "status")
    judge("the status", done.returncode == 0 and "rx0" in done.stdout, done)
    judge("help", ask(work, "help").stdout.startswith("set CHANNEL FILTER"))
    done = ask(work, "set", "9", "udp")
    judge("no such channel", done.returncode == 1 and not done.stdout and "9" in done.stderr, done)
    done = ask(work, "next")
    judge("next, without rotation", done.returncode == 1 and "--every" in done.stderr, done)
    done = ask(work, "set", "1", "no such expression")
    judge("no expression", done.returncode == 1 and "no such expression" in done.stderr, done)
    done = ask(work, input="mark a\nset 1 tcp\nmark b\n")
    judge("lines, one after the other", done.returncode == 0 and len(done.stdout.splitlines()) == 3, done)
    done = ask(work, "stop")
    judge("stop", (done.returncode, done.stdout) == (0, "the recording ends\n"), done)
    status, printed = run.ended()
    judge("it ends well", status == 0 and printed.endswith(f"{YES}\n"), run.told())
    judge("and has the marks", [it["text"] for it in facts_of(work / "flight.ch11")["marks"]] == ["gear up", "a", "b"])
    judge("the socket has gone", not (work / "control").exists())
    done = ask(work, "status")
    judge("nobody listens", done.returncode == 3 and "nobody listens" in done.stderr, done)


def test_clients_that_leave_or_do_not_read_change_nothing(work: Path, run: Running) -> None:
    """Sixteen are taken at once; each frame is recorded whatever they do."""
    path = str(work / "control")
    clients = [socket.socket(socket.AF_UNIX) for _ in range(18)]
    for each in clients:
        each.connect(path)
        each.setblocking(False)
    for each in clients[:8]:
        try:
            while each.send(b"status\n" * 1_000):
                pass
        except OSError:
            pass
    for each in clients[8:12]:
        each.close()
    send_numbered("tx0", 0, 500)
    for each in clients[12:]:
        each.close()
    for each in clients[:8]:
        each.close()
    judge("a line is still answered", ask(work, "mark", "still").returncode == 0)
    run.interrupt()
    status, printed = run.ended()
    judge("it ends well", status == 0 and printed.endswith(f"{YES}\n"), run.told())
    judge("all frames", numbers_in([records(extracted(work, work / "flight.ch11", 1))]) == list(range(500)))


def drawn_lines(count: int) -> list[bytes]:
    """Lines of any bytes but line feeds and what ends the run, some of which are nearly right."""
    draw = random.Random(64)
    lines: list[bytes] = []
    while len(lines) < count:
        text = bytes(draw.choice((0, 0, 9, 13, 32, 39, 47, 92, 127, 255, draw.randrange(256))) for _ in range(9))
        ahead = draw.choice(
            (b"", b"set 1 ", b"set 9 ", b"set 1 udp ", b"set 1 /", b"set 99999999999 ", b"mark ", b"next")
        )
        lines.append(ahead + text.replace(b"\n", b"x"))
    return lines


def answers_in(data: bytes) -> int:
    return len(re.findall(rb"^(?:done|refused)\n", data, re.MULTILINE))


def test_lines_of_any_bytes_are_answered_and_end_nothing(work: Path, namespace: None) -> None:
    """Also filters of SETTINGS."""
    words, lines = ("--quiet", "--control", work / "control"), drawn_lines(60)
    run = begin(work, work / "flight.ch11", *words, stdin=subprocess.PIPE)
    with socket.socket(socket.AF_UNIX) as client:
        client.connect(str(work / "control"))
        client.settimeout(20)
        client.sendall(b"".join(it + b"\n" for it in lines))
        client.shutdown(socket.SHUT_WR)
        data = b"".join(iter(lambda: client.recv(1 << 16), b""))
    judge("each line by the socket is answered", answers_in(data) == len(lines), data)
    os.write(present(run.process.stdin).fileno(), b"".join(it + b"\n" for it in lines) + b"mark all came\n")
    judge("a line behind those of standard input too", ask(work, "mark", "and here").returncode == 0)
    send_numbered("tx0", 0, 100)
    run.type_in("stop")
    status, told = run.ended()[0], (work / "told").read_bytes()
    judge("it ends well", status == 0 and b"Traceback" not in told, told)
    marks = [it["text"] for it in facts_of(work / "flight.ch11")["marks"]]
    judge("with its marks", {"all came", "and here"} <= set(marks), marks)
    settings = write_settings(work, 'id = 1\nfilter = "a\\u0000b"')
    for tool, ahead in ((LIVE, ""), (PREFLIGHT, "--live")):
        done = outcome(*filter(None, (tool, ahead)), settings, work / "other.ch11", "rx0=1")
        judge(f"{tool.name} refuses one", done.returncode in (1, 3) and "Traceback" not in done.stderr, done)


def processes_that(word: str) -> int:
    """How many processes have this word in their command lines."""
    count = 0
    for entry in Path("/proc").glob("[0-9]*/cmdline"):
        with contextlib.suppress(OSError):
            count += word.encode() in entry.read_bytes()
    return count


class Client:
    """Sends many lines by the socket and reads their answers, so that it isn't let go."""

    def __init__(self, path: Path, lines: list[bytes]) -> None:
        self.connection = socket.socket(socket.AF_UNIX)
        self.connection.connect(str(path))
        self.answered = 0
        threading.Thread(target=self.read, daemon=True).start()
        self.connection.sendall(b"".join(it + b"\n" for it in lines))

    def read(self) -> None:
        with contextlib.suppress(OSError):
            while data := self.connection.recv(1 << 16):
                self.answered += data.count(b"\n\n")


def answer_by(path: Path, line: bytes) -> bytes:
    """The answer to one line by a connection of its own."""
    with socket.socket(socket.AF_UNIX) as client:
        client.connect(str(path))
        client.settimeout(SECONDS)
        client.sendall(line + b"\n")
        client.shutdown(socket.SHUT_WR)
        return b"".join(iter(lambda: client.recv(1 << 16), b""))


def test_a_client_that_sends_many_lines_holds_nobody_up(work: Path, run: Running) -> None:
    """Another one is answered ahead of theirs, few programs run at once, and a signal ends the run ahead of them too."""
    many = Client(work / "control", [b"status"] * 9_000)
    sets = Client(work / "control", [b"set 1 udp port 61234"] * 600)
    most = 0
    for number in range(20):
        judge_quietly("another one is answered", answer_by(work / "control", b"mark %d" % number).startswith(b"done\n"))
        most = max(most, processes_that("udp port 61234"))
    before = (many.answered, sets.answered)
    judge(f"twenty of another are answered ahead of most: {before}", sum(before) < 4_800)
    # Each has the program and what ends it in time.
    judge(f"{most} processes make filters", most <= 2 * 4)
    run.process.send_signal(signal.SIGTERM)
    status, _ = run.ended()
    judge(f"it ends ahead of {many.answered} and {sets.answered}", status == 0 and many.answered < 9_000, run.told())
    judge("it has the marks", len(facts_of(work / "flight.ch11")["marks"]) == 20)


def test_the_oldest_idle_client_makes_room_for_another(work: Path, run: Running) -> None:
    clients = [socket.socket(socket.AF_UNIX) for _ in range(17)]
    for each in clients:
        each.connect(str(work / "control"))
        each.settimeout(10)
    judge("the first two are let go", ask(work, "mark", "still").returncode == 0)
    judge("and no other", [it.recv(1) for it in clients[:2]] == [b"", b""])
    for each in clients[2:]:
        each.sendall(b"mark mine\n")
        judge_quietly("it is answered", each.recv(100).startswith(b"done\nmarked"))
    run.end_well()


def test_a_line_feed_in_a_line_is_refused(work: Path, run: Running) -> None:
    done = ask(work, "mark", "gear up\nstop")
    judge("it is more than one", done.returncode == 2 and "line feed" in done.stderr and not done.stdout, done)
    judge("and none was sent", ask(work, "status").returncode == 0)
    run.interrupt()
    judge("it ends well", run.ended()[0] == 0 and facts_of(work / "flight.ch11")["marks"] == [], run.told())


def test_a_line_longer_than_any_lets_its_client_go(work: Path, run: Running) -> None:
    with socket.socket(socket.AF_UNIX) as client:
        client.connect(str(work / "control"))
        client.settimeout(10)
        try:
            client.sendall(b"x" * (3 << 20))
            ended = client.recv(1) == b""
        except ConnectionError:
            ended = True
        except TimeoutError:
            ended = False
    judge("it is let go", ended)
    run.end_well()


def test_a_run_of_interfaces_is_told_by_its_name(work: Path, namespace: None) -> None:
    """By the socket beside it, without --control; a second run of that name is refused while it goes on."""
    first = begin(work, work / "flight.ch11", "--quiet", "--every", "1h")
    judge("it is the owner's alone", stat.S_IMODE((work / "flight.control").stat().st_mode) == 0o600)
    for name in ("flight.ch11", "flight", "flight.control", "flight_00001.ch11"):
        done = outcome(CONTROL, "--wait", 20, name, "mark", "gear up", cwd=work)
        judge(f"by {name}", done.returncode == 0 and done.stdout.startswith("marked "), done)
    words, what = ("--every", "1h", work / "flight.ch11", "rx0=1"), "flight.control: another run takes lines there"
    for done in (outcome(LIVE, *words), outcome(PREFLIGHT, "--live", *words)):
        judge("a second run", done.returncode in (1, 3) and what in done.stdout + done.stderr, done)
    first.end_well()
    judge("the socket goes with the run", not (work / "flight.control").exists())
    done = outcome(CONTROL, "flight.ch11", "status", cwd=work)
    ended = "the run has ended, and flight_00001.ch11 is its last recording"
    line = f"bpfrec tell: flight.ch11: nobody listens there, or at flight.control: {ended}\n"
    judge("nobody listens", (done.returncode, done.stderr) == (3, line), done)


def test_a_run_without_its_usual_socket_goes_on(work: Path, namespace: None) -> None:
    """What stands in its place is left, and a line says so; captures and devices have none."""
    (work / "flight.control").write_text("a file")
    run = begin(work, work / "flight.ch11", "--quiet")
    what = f"warning: bpfrec tell finds no socket: --control {work}/flight.control: it exists, and is no socket"
    judge("it says so", what in run.told(), run.told())
    run.end_well()
    judge("the file is left", (work / "flight.control").read_text() == "a file")
    run = begin(work, "/dev/null", "--quiet")
    judge("a device has none", not Path("/dev/null.control").exists() and "no socket" not in run.told(), run.told())
    run.end_well()


def test_what_stands_at_the_path(work: Path, run: Running) -> None:
    """A socket that somebody listens at, or another file, is left; one that nobody listens at is replaced."""
    words = ("--quiet", "--control", work / "control")
    second = begin(work, work / "second.ch11", *words)
    status, _ = second.ended()
    judge(
        "another run listens", status == 3 and "control: another run takes lines there" in second.told(), second.told()
    )
    os.kill(run.process.pid, signal.SIGKILL)
    run.process.wait()
    judge_quietly("it is left by a run that was killed", (work / "control").exists())
    third = begin(work, work / "third.ch11", *words)
    judge("and replaced", ask(work, "mark", "again").returncode == 0, third.told())
    third.end_well()
    (work / "control").write_text("a file")
    fourth = begin(work, work / "fourth.ch11", *words)
    judge("a file is left", fourth.ended()[0] == 3 and (work / "control").read_text() == "a file", fourth.told())
    preflight = outcome(PREFLIGHT, "--live", "--control", work / "control", work / "none.ch11", "rx0=1")
    judge("preflight says so", "it exists, and is no socket" in preflight.stdout + preflight.stderr, preflight)
    with socket.socket(socket.AF_UNIX) as full, socket.socket(socket.AF_UNIX) as queued:
        full.bind(str(work / "full"))
        full.listen(0)
        queued.connect(str(work / "full"))
        done = outcome(LIVE, "--control", work / "full", work / "none.ch11", "rx0=1")
    judge("one that takes no connection listens too", done.returncode == 3 and "another run takes" in done.stderr, done)
    (work / "link").symlink_to(work / "nowhere")
    done = outcome(LIVE, "--control", work / "link", work / "none.ch11", "rx0=1")
    judge("a link that leads nowhere", done.returncode == 3 and "leads nowhere" in done.stderr, done)
    fifth = begin(work, work / "fifth.ch11", "--quiet", "--control", work / ("x" * 120))
    judge("too long a path", fifth.ended()[0] == 2 and "107 bytes" in fifth.told(), fifth.told())
