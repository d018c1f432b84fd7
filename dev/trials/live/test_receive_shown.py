"""Tries what bpfrec receive shows of what comes: a capture with the names of the setup record and the times of the time
packets, as tshark reads it."""

import signal
import subprocess
from pathlib import Path

import pytest
from ground import drawn_flight, free_port, is_taken, rows_in, rows_of, send, stream_of
from support import RECEIVE, judge, judge_quietly, outcome, wait_for

pytestmark = [pytest.mark.wanted("bin/bpfrec", "ip", "tshark"), pytest.mark.usefixtures("namespace")]


def receiving(port: int, shown: Path, *words: object) -> subprocess.Popen[str]:
    """bpfrec receive, whose capture goes into a file."""
    arguments = [str(it) for it in (RECEIVE, "--pcapng", "-", f"127.0.0.1:{port}", *words)]
    with open(shown, "wb") as out:
        receiver = subprocess.Popen(arguments, stdout=out, stderr=subprocess.PIPE, text=True)
    wait_for("it listens", lambda: is_taken(port))
    return receiver


@pytest.mark.parametrize("has_out", [False, True], ids=["alone", "beside OUT"])
def test_what_comes_is_a_capture(work: Path, has_out: bool) -> None:
    path, port, shown = drawn_flight(work, 3), free_port(), work / "shown.pcapng"
    receiver = receiving(port, shown, *([work / "ground.ch10"] if has_out else []))
    send(path, f"127.0.0.1:{port}")
    rows = rows_of(stream_of(path))
    wait_for("it is shown as it comes", lambda: shown.stat().st_size > 1_000)
    receiver.terminate()
    _, told = receiver.communicate(timeout=30)
    judge("it ends well", receiver.returncode == 0 and told.startswith("received packets "), told)
    found = rows_in(work, shown)
    judge("each frame", found == rows, (len(found), len(rows)))
    if has_out:
        judge("and the file", (work / "ground.ch10").read_bytes() == bytes(stream_of(path).file.data))
    else:
        judge("no file", not list(work.glob("*.ch10")))


@pytest.mark.parametrize("has_out", [False, True], ids=["alone", "beside OUT"])
def test_a_reader_that_leaves_ends_it_where_there_is_no_out(work: Path, has_out: bool) -> None:
    path, port = drawn_flight(work, 3), free_port()
    words = [str(it) for it in (RECEIVE, "--pcapng", "-", f"127.0.0.1:{port}")] + ["ground.ch10"] * has_out
    pipe = subprocess.PIPE
    receiver = subprocess.Popen(words, stdout=pipe, stderr=pipe, text=True, cwd=work)
    wait_for("it listens", lambda: is_taken(port))
    assert receiver.stdout
    receiver.stdout.close()
    send(path, f"127.0.0.1:{port}")
    if has_out:
        out, wanted = work / "ground.ch10", bytes(stream_of(path).file.data)
        wait_for("it goes on", lambda: out.exists() and out.read_bytes() == wanted)
        receiver.send_signal(signal.SIGTERM)
    wait_for("it ends", lambda: receiver.poll() is not None)
    assert receiver.stderr
    told = receiver.stderr.read()
    judge("with its counts", receiver.returncode in (0, 1) and told.startswith("received packets "), told)


def test_what_cannot_be_shown_is_refused(work: Path) -> None:
    for words, what in [
        (["--pcapng", "-", "127.0.0.1:5", "-"], "--pcapng - takes standard output, and OUT is that too"),
        (["--pcapng", "x", "127.0.0.1:5", "out"], "invalid choice: 'x'"),
        (["127.0.0.1:5"], "the following arguments are required: OUT"),
    ]:
        done = outcome(RECEIVE, *words)
        judge_quietly(what, (done.returncode, what in done.stderr) == (2, True), done)
