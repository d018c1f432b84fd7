"""Tries bpfrec live as a service: what it tells the service manager, by a socket that is played, and with which
rights."""

import os
import re
import shutil
import signal
import time
from pathlib import Path

import pytest
from frames import numbers
from namespace import send_together
from recordings import RUN, YES, begin, extracted, process_of, settings_of
from service import Manager
from support import BPFREC, CAPTURE, LIVE, NOBODY, ROOT, Running, judge, outcome, wait_for

pytestmark = [pytest.mark.wanted("bin/bpfrec", "bin/capture", "ip", "setpriv"), pytest.mark.timed]
UNIT = ROOT / "examples/bpfrec.service"


@pytest.mark.parametrize("kind", ["path", "abstract"])
def test_a_service_manager_is_told_of_begin_life_and_end(work: Path, namespace: None, kind: str) -> None:
    """Ready once all channels are open; alive as long as the loop turns; more time at the end."""
    manager = Manager(str(work / "notify") if kind == "path" else f"@{work}/notify")
    out = work / "service.ch11"
    running = begin(work, out, "--quiet", "--every", 1, adds=manager.adds)
    wait_for(lambda: f"READY=1 comes: {manager.told}", lambda: manager.times("READY=1"), 10)
    judge("it is ready with its recording", f"STATUS=recording {work}/service_00001.ch11" in manager.told[-1][1])
    recorder = process_of(out, BPFREC, "record")
    judge("the recording is open by then", (work / "service_00001.ch11").exists())
    given = Path(f"/proc/{recorder}/environ").read_bytes()
    judge("its programs can't speak for it", b"NOTIFY_SOCKET" not in given and b"WATCHDOG" not in given)
    time.sleep(2.2)
    signs = manager.times("WATCHDOG=1")
    gaps = [after - before for before, after in zip(signs, signs[1:])]
    # One may come late as the recording begins, beside other work; the manager waits far longer.
    judge("it says that it is alive, twice a second", len(signs) >= 4 and max(gaps) < 1.8, gaps)
    os.kill(running.process.pid, signal.SIGSTOP)
    time.sleep(0.1)
    many = len(manager.times("WATCHDOG=1"))
    time.sleep(1.5)
    judge("and nothing where it stands still", len(manager.times("WATCHDOG=1")) == many)
    os.kill(running.process.pid, signal.SIGCONT)
    time.sleep(0.2)
    os.kill(running.process.pid, signal.SIGTERM)
    status, printed = running.ended()
    judge("TERM ends it", status == 0 and YES in printed, running.told())
    judge("ready was told once", len(manager.times("READY=1")) == 1)
    last = manager.told[-1][1]
    told = [line for _, lines in manager.told for line in lines]
    judge("at the end it asks for time", "STOPPING=1" in told and "EXTEND_TIMEOUT_USEC=60000000" in told, last)


def test_a_run_that_cannot_begin_is_never_ready(work: Path, namespace: None) -> None:
    """Where nothing can be begun it isn't ready."""
    manager = Manager(str(work / "notify"))
    words = ["--quiet", settings_of(work), work / "no.ch11", "rx0=1", "nowhere0=2"]
    running = Running(work, LIVE, *words, adds=manager.adds)
    judge("an interface that is missing ends it", running.ended()[0] == 3)
    judge("it was never ready", manager.times("READY=1") == [])


def test_a_manager_that_is_gone_holds_nothing_up(work: Path, namespace: None) -> None:
    """A manager that is gone, or nonsense in its place, holds nothing up."""
    for name, pause in ((str(work / "gone"), "1000000"), ("", "x"), ("@", "-5")):
        out = work / f"alone{len(name)}.ch11"
        running = begin(work, out, "--quiet", adds={"NOTIFY_SOCKET": name, "WATCHDOG_USEC": pause})
        running.end_well()


def rights_of(pid: int) -> dict[str, str]:
    return dict(re.findall(r"(Cap\w+):\t(\w+)", Path(f"/proc/{pid}/status").read_text()))


def test_the_capture_alone_has_the_permission_of_the_unit(work: Path, namespace: None) -> None:
    """As a unit gives it the permission to capture (an ambient capability), the capture alone has it."""
    for path in [work, work / "private"]:
        path.chmod(0o777)
    settings = settings_of(work)
    place = work / "programs"
    shutil.copytree(ROOT / "host", place / "host", ignore=shutil.ignore_patterns("__pycache__"))
    (place / "bin").mkdir()
    shutil.copy(BPFREC, place / "bin/bpfrec")
    shutil.copy(CAPTURE, place / "bin/capture")
    for path in [*place.rglob("*"), place, settings, work / "all"]:
        path.chmod(path.stat().st_mode | 0o555)
    out = work / "rights.ch11"
    user = ["setpriv", f"--reuid={NOBODY}", f"--regid={NOBODY}", "--clear-groups"]
    rights = ["--inh-caps=-all,+net_raw", "--ambient-caps=+net_raw", "--bounding-set=-all,+net_raw", "--no-new-privs"]
    words = [*user, *rights, place / "host/bin/bpfrec", "live", "--quiet", settings, out, "rx0=1", "rx1=2"]
    adds = {RUN: str(out), "BPFREC": str(place / "bin/bpfrec"), "CAPTURE": str(place / "bin/capture")}
    running = Running(work, *words, adds=adds, cwd=work)
    running.wait_until_told("bpfrec capture: origin")
    wait_for(lambda: f"it records: {running.told()}", out.exists, 5)
    pids = [running.process.pid, process_of(out, place / "bin/bpfrec", "record")]
    for pid in pids:
        judge(
            f"no capability of {pid} is left",
            set(rights_of(pid)[it] for it in ("CapPrm", "CapEff", "CapAmb")) == {"0" * 16},
        )
    send_together(0, 100)
    time.sleep(0.2)
    os.kill(running.process.pid, signal.SIGTERM)
    status, printed = running.ended()
    judge("and it records", status == 0 and YES in printed, running.told())
    judge("all frames", numbers(extracted(work, out, 1)) == list(range(100)))


def test_the_unit_is_tight_by_the_measure_of_systemd() -> None:
    """The unit that stands in examples/ is a tight one, by systemd's own measure."""
    if not shutil.which("systemd-analyze"):
        pytest.skip("it needs systemd-analyze (systemd)")
    done = outcome("systemd-analyze", "security", "--offline=true", UNIT)
    found = re.search(r"exposure level for \S+: ([0-9.]+)", done.stdout)
    if not found:
        pytest.skip(f"systemd-analyze says {done.stderr.strip()}")
    judge(f"its exposure is {found[1]}", float(found[1]) <= 2.0)
    text = UNIT.read_text()
    judge("the unit calls it", "ExecStart=/opt/bpfrec/host/bin/bpfrec live " in text and "sh -c" not in text)
    judge("it may ask for the state of the clock", "adjtimex" in text and "ProtectClock=yes" not in text)
