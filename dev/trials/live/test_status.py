"""Tries bpfrec live --status and its table on a terminal, on two pairs of interfaces."""

import calendar
import contextlib
import os
import pty
import re
import signal
import socket
import subprocess
import time
from pathlib import Path

import pytest
from recordings import Traffic, begin, is_approved, nothing_left, process_of, settings_of, write_settings
from served import address_in, asked, status_of
from support import CAPTURE, LIVE, Running, judge, judge_quietly, wait_for

pytestmark = [
    pytest.mark.wanted("bin/bpfrec", "bin/capture", "ip"),
    pytest.mark.timed,
    pytest.mark.usefixtures("namespace"),
]


def is_near(moment: str) -> bool:
    """Whether a moment in UTC is now, to some seconds."""
    return abs(calendar.timegm(time.strptime(moment[:19], "%Y-%m-%dT%H:%M:%S")) - time.time()) < 5


def judge_lines(work: Path, live: Running, address: str) -> None:
    """What a changed filter and a mark do to the status."""
    (work / "other").write_text("1,6 0 0 7,")
    live.type_in(f"set 2 {work}/other")
    wait_for("a filter that is changed is told", lambda: status_of(address)["channels"][1]["version"] == 1, 5)
    told = [(it["filter"], it["changes"]) for it in status_of(address)["channels"]]
    judge("by its file, and how often", told == [("all", 0), ("other", 1)], told)
    judge("the metrics too", b'interface="rx1",filter="other"} 1\n' in asked(address, "metrics"))
    live.type_in("mark gear up")
    wait_for("a mark is told", lambda: [it["text"] for it in status_of(address)["marks"]] == ["gear up"], 5)


def test_the_status_tells_what_was_sent(work: Path) -> None:
    """Two channels, one of which keeps nothing; what is told is what was sent."""
    settings = write_settings(work, f'id = 1\nfilter = "{work}/all"', f'id = 2\nfilter = "{work}/none"')
    settings.write_text(settings.read_text().replace("65536", "16424"))
    live = begin(work, work / "a.ch11", "--status", "0", "--quiet", settings=settings)
    address = address_in(live.told())
    traffic = Traffic(length=500)
    wait_for("frames come", lambda: (status_of(address)["channels"] or [{"offered": None}])[0]["offered"], 10)
    time.sleep(3)
    found = status_of(address)
    one, two = found["channels"]
    judge("both interfaces are there", [it["interface"] for it in found["channels"]] == ["rx0", "rx1"])
    judge("frames come and are kept", one["offered"]["frames"] > 100 and one["kept"]["frames"] > 100, one)
    judge("the other keeps nothing", two["offered"]["frames"] > 100 and two["kept"]["frames"] == 0, two)
    judge("it is forced to the disk", found["sync"]["age"] is not None and found["sync"]["age"] < 3, found["sync"])
    judge(
        "the page and the metrics too", b"<!DOCTYPE" in asked(address, "") and b"bpfrec_" in asked(address, "metrics")
    )
    judge_lines(work, live, address)
    found = status_of(address)
    judge("the host and its UTC", found["host"] == socket.gethostname() and is_near(found["utc"]), found["utc"])
    sent = traffic.end()

    def offered() -> list[int]:
        return [it["offered"]["frames"] for it in status_of(address)["channels"]]

    wait_for("all that was sent was offered", lambda: offered() == [sent, sent], 5)
    found = status_of(address)
    judge("nothing is lost, and nothing wrong", found["recording"]["fault"] is None and not found["alarms"], found)
    live.interrupt()
    judge("it ends well", live.ended()[0] == 0 and is_approved(work / "a.ch11"), live.told())
    with pytest.raises(OSError):
        asked(address)
    judge("nothing is left", nothing_left(work))


def test_the_status_tells_of_recordings_that_follow(work: Path) -> None:
    live = begin(work, work / "r.ch11", "--status", "0", "--quiet", "--every", "1")
    address, traffic = address_in(live.told()), Traffic()
    wait_for("recordings are audited", lambda: status_of(address)["audits"]["yes"] >= 2, 15)
    found = status_of(address)
    judge("by their names", [it["name"] for it in found["recordings"]][:2] == ["r_00001.ch11", "r_00002.ch11"])
    judge(
        "and the next goes on", found["recording"]["number"] > 2 and found["state"] == "recording", found["recording"]
    )
    traffic.end()
    live.end_well()


def test_behind_a_pause_of_the_capture_no_second_has_its_sum(work: Path) -> None:
    """The capture is stopped for six seconds, while frames wait in the kernel."""
    live = begin(work, work / "p.ch11", "--status", "0", "--quiet")
    address, traffic = address_in(live.told()), Traffic(pause=0.005)
    capture = process_of(work / "p.ch11", CAPTURE)
    time.sleep(5)
    os.kill(capture, signal.SIGSTOP)
    time.sleep(6)
    os.kill(capture, signal.SIGCONT)
    time.sleep(4)
    history = status_of(address)["channels"][0]["history"]["offered_frames"]
    sent = traffic.end()
    live.end_well()
    usual = sorted(it for it in history if it)[len(history) // 2]
    judge("each bar is about as high", len(history) >= 14 and max(it or 0 for it in history) < 1.6 * usual, history)
    judge("and none of those of the pause is missing", all(it for it in history[3:]), (sent, history))


def test_a_killed_run_gives_its_port_free(work: Path) -> None:
    """The port is free again once it was killed."""
    live = begin(work, work / "k.ch11", "--status", "0", "--quiet")
    address = address_in(live.told())
    os.kill(live.process.pid, signal.SIGKILL)
    live.process.wait()

    def is_refused() -> bool:
        try:
            asked(address)
        except OSError as fault:
            return "refused" in str(fault)
        return False

    wait_for("nobody answers there any more", is_refused, 5)


def test_a_terminal_has_a_table_and_the_report_at_the_end(work: Path) -> None:
    """On a terminal there is a table, above it what is told, and at the end the report and the audit."""
    outer, inner = pty.openpty()
    words = [LIVE, settings_of(work), work / "t.ch11", "rx0=1", "rx1=2"]
    live = subprocess.Popen(
        [str(it) for it in words],
        stdin=inner,
        stdout=inner,
        stderr=inner,
        start_new_session=True,
        env={**os.environ, "TERM": "xterm", "TMPDIR": str(work / "private")},
    )
    os.close(inner)
    traffic, found, end = Traffic(), b"", time.monotonic() + 4
    os.set_blocking(outer, False)
    while live.poll() is None and time.monotonic() < end + 20:
        with contextlib.suppress(BlockingIOError, OSError):
            found += os.read(outer, 1 << 16)
        time.sleep(0.02)
        if time.monotonic() > end and not traffic.is_ending:
            traffic.end()
            live.send_signal(signal.SIGINT)
    with contextlib.suppress(BlockingIOError, OSError):
        found += os.read(outer, 1 << 16)
    text = re.sub(r"\x1b(\[[0-9;]*[A-Za-z]|[78])", "", found.decode())
    judge_quietly("it ends well", live.wait() == 0, text)
    judge("it is drawn each second", text.count("RECORDING") >= 3 and "rx0" in text, text)
    told = [it for it in text.splitlines() if re.fullmatch(r"bpfrec capture: rx0 frames \d+ .*", it.strip())]
    judge("a line of counts comes at the end alone", len(told) == 1, told)
    judge("what is told stands there too", "bpfrec capture: origin" in text and "yes other 0" in text, text)
    judge(
        "and at the end the table is taken away",
        re.search(rb"yes other 0.*\x1b\[\d+F\x1b\[J$", found, re.DOTALL),
        text[-300:],
    )
    os.close(outer)
