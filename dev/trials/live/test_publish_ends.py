"""Tries publishers that are ended, killed or begun late, and what they leave out."""

import os
import random
import re
import signal
import subprocess
import time
from functools import partial
from pathlib import Path

import pytest
from frames import FRAMES, numbers_in, records
from ground import Station, answers, drawn_flight, free_port, packets_in, published
from recordings import (
    RUN,
    Traffic,
    begin,
    extracted,
    facts_of,
    is_approved,
    nothing_left,
    processes_of,
    recordings,
    settings_of,
)
from served import address_in, asked, status_of
from support import LIVE, PUBLISH, TELL, Running, judge, judge_quietly, present, wait_for
from whole_file import SETUP, TIME
from whole_file_parts import parts_of

pytestmark = [pytest.mark.wanted("bin/bpfrec", "bin/capture", "ip"), pytest.mark.usefixtures("namespace")]


def has_more(station: Station, count: int) -> bool:
    """Whether more datagrams have come than that."""
    return len(station.datagrams) > count


def test_a_publisher_that_is_killed_comes_back(work: Path) -> None:
    """At two moments, and clients of --control too; the recording has all frames, and what comes later is published
    again."""
    draw = random.Random(1)
    out, station = work / "flight.ch11", Station()
    words = ("--control", work / "control", "--publish", station.address)
    running = begin(work, out, "--quiet", *words)
    traffic = Traffic()
    killed: set[int] = set()
    for number in range(2):
        client = subprocess.Popen([TELL, work / "control", "mark", f"m{number}"], stderr=subprocess.DEVNULL)
        time.sleep(draw.random() / 4)
        client.kill()
        client.wait()
        wait_for("it is sent", partial(has_more, station, len(station.datagrams)), 60)
        time.sleep(draw.random())
        (pid,) = [it for it, words in processes_of(out).items() if "--stay" in words]
        judge_quietly("another one", pid not in killed)
        killed.add(pid)
        os.kill(pid, signal.SIGKILL)
        wait_for("a line", lambda: running.told().count("ended by signal 9, and begins again in ") == len(killed))
    wait_for("it is sent again", partial(has_more, station, len(station.datagrams) + 3), 60)
    running.interrupt()
    sent = traffic.end()
    status, _ = running.ended()
    station.close()
    judge("it ends well", status == 0 and is_approved(out), running.told())
    judge("with all frames", [it["frames"] for it in facts_of(out)["counts"]] == [sent, sent])
    starts = [it for it in station.datagrams if int.from_bytes(it[:4], "little") >> 8 == 0]
    judge("each stream has its own numbers", len(starts) == 3, len(starts))


@pytest.mark.parametrize("sign", [signal.SIGSTOP, None], ids=["stopped", "nothing"])
def test_a_run_ends_soon_whatever_its_publisher_does(work: Path, sign: signal.Signals | None) -> None:
    out = work / "flight.ch11"
    running = begin(work, out, "--quiet", "--publish", f"127.0.0.1:{free_port()}")
    traffic = Traffic()
    wait_for("the publisher runs", lambda: any("--stay" in it for it in processes_of(out).values()))
    (pid,) = [it for it, words in processes_of(out).items() if "--stay" in words]
    time.sleep(1)
    if sign:
        os.kill(pid, sign)
    running.interrupt()
    traffic.end()
    judge("it ends well", running.ended()[0] == 0 and is_approved(out), running.told())
    judge("and leaves nothing", not processes_of(out) and nothing_left(work), processes_of(out))
    judge(
        "a kill is said", (": ended by signal 9: the rest isn't sent" in running.told()) == bool(sign), running.told()
    )


def publishers_of(out: Path) -> list[int]:
    """The publishers of a run."""
    return [it for it, words in processes_of(out).items() if "--stay" in words]


def has_term(pid: int) -> bool:
    """Whether TERM waits for a process."""
    status = Path(f"/proc/{pid}/status").read_text()
    return any(int(it, 16) >> (signal.SIGTERM - 1) & 1 for it in re.findall(r"(?:SigPnd|ShdPnd):\t(\w+)", status))


def test_a_run_that_ends_at_once_is_published(work: Path) -> None:
    """Its publisher gets TERM while it starts. One that has too little time for it is killed, which is said."""
    out, station = work / "flight.ch11", Station()
    words = ("--quiet", "--publish", station.address, settings_of(work), out, "rx0=1", "rx1=2")
    running = Running(work, LIVE, *words, adds={RUN: str(out)})
    traffic = Traffic()
    wait_for("it starts", lambda: publishers_of(out))
    (pid,) = publishers_of(out)
    os.kill(pid, signal.SIGSTOP)
    running.wait_until_told("bpfrec capture: origin")
    running.interrupt()
    wait_for("it is to end", lambda: has_term(pid))
    os.kill(pid, signal.SIGCONT)
    traffic.end()
    judge("it ends well", running.ended()[0] == 0 and is_approved(out), running.told())
    has_come = bool(station.close()) and "published packets" in running.told()
    judge(
        "it is sent, or a line says so", has_come or "signal 9: the rest isn't sent" in running.told(), running.told()
    )


def test_a_run_whose_first_recording_has_ended_is_no_replay(work: Path) -> None:
    """With --stay, as live starts it, all that is there goes out at once, also where TERM comes soon."""
    path, station = drawn_flight(work, 7), Station()
    publisher = subprocess.Popen([PUBLISH, "--stay", path, station.address], stderr=subprocess.PIPE, text=True)
    wait_for("it is sent", lambda: station.datagrams)
    publisher.terminate()
    _, told = publisher.communicate(timeout=30)
    counts = published(told)
    judge("it ends well", (publisher.returncode, counts.lost) == (0, 0), told)
    (work / "all.ch11").write_bytes(packets_in(station.close()))
    channels = sorted({it.channel for it in parts_of(path.read_bytes()) if it.kind == FRAMES})
    wanted = answers(path, channels, work)
    judge("all of it", answers(work / "all.ch11", channels, work)[3:] == wanted[3:], counts)


def test_what_a_replay_leaves_out_is_counted(work: Path) -> None:
    path, station = drawn_flight(work, 7), Station()
    publisher = subprocess.Popen([PUBLISH, path, station.address], stderr=subprocess.PIPE, text=True)
    wait_for("it is sent", lambda: station.datagrams)
    publisher.terminate()
    _, told = publisher.communicate(timeout=30)
    found = re.match(rf"bpfrec publish: {path}: (\d+) packets are left out\n", told)
    judge("it ends well, and says it", publisher.returncode == 0 and found, told)
    total, sent = len(parts_of(path.read_bytes())), parts_of(packets_in(station.close()))
    count = len([it for it in sent if it.kind not in (SETUP, TIME)])
    judge("each packet is sent or counted", total > int(present(found)[1]) >= total - count > 0, (total, count, told))


def test_no_publisher_outlives_live(work: Path) -> None:
    """Where live is killed; the recording is whole all the same."""
    out, station = work / "flight.ch11", Station()
    running = begin(work, out, "--quiet", "--publish", station.address)
    traffic = Traffic()
    wait_for("it is sent", partial(has_more, station, 3))
    os.kill(running.process.pid, signal.SIGKILL)
    wait_for("all has ended", lambda: not processes_of(out))
    traffic.end()
    judge("the recording is whole", is_approved(out), running.told())


@pytest.mark.parametrize("sign, status", [(signal.SIGTERM, 0), (signal.SIGINT, 130)], ids=["TERM", "INT"])
def test_signals_end_it_with_its_counts(work: Path, sign: signal.Signals, status: int) -> None:
    out, station = work / "flight.ch11", Station()
    running = begin(work, out, "--quiet")
    traffic = Traffic(pause=0.01)
    publisher = subprocess.Popen([PUBLISH, out, station.address], stderr=subprocess.PIPE, text=True)
    wait_for("it is sent", lambda: len(station.datagrams) > 5)
    publisher.send_signal(sign)
    _, told = publisher.communicate(timeout=30)
    line = [it for it in told.splitlines() if it.startswith("published")]
    judge(
        "its status, with its counts", publisher.returncode == status and len(line) == 1, (publisher.returncode, told)
    )
    running.interrupt()
    traffic.end()
    judge("the recording ends well", running.ended()[0] == 0, running.told())
    datagrams = station.close()
    judge("all that was counted came", published(f"{line[0]}\n").datagrams == len(datagrams), (line, len(datagrams)))


def test_term_has_all_recordings_of_a_run_sent(work: Path) -> None:
    """Also those that it has not begun with."""
    out, station = work / "flight.ch11", Station()
    running = begin(work, out, "--quiet", "--every", 1)
    traffic = Traffic(pause=0.01)
    wait_for("the first", lambda: recordings(work, "flight"))
    publisher = subprocess.Popen(
        [PUBLISH, "--stay", work / "flight_00001.ch11", station.address], stderr=subprocess.PIPE, text=True
    )
    wait_for("it is sent", lambda: station.datagrams)
    publisher.send_signal(signal.SIGSTOP)
    wait_for("three recordings", lambda: len(recordings(work, "flight")) >= 3)
    running.interrupt()
    sent = traffic.end()
    judge_quietly("the run ends well", running.ended()[0] == 0, running.told())
    publisher.terminate()
    publisher.send_signal(signal.SIGCONT)
    _, told = publisher.communicate(timeout=30)
    judge("it ends well", publisher.returncode == 0, told)
    (work / "all.ch11").write_bytes(packets_in(station.close()))
    numbers = numbers_in([records(extracted(work, work / "all.ch11", 1))])
    judge("all frames", numbers == list(range(numbers[0], sent)), (len(numbers), sent))


def test_the_status_has_what_is_sent_to_each_station(work: Path) -> None:
    """What was sent by one that died counts on, and while it doesn't run there is an alarm; so there is where nobody
    listens."""
    station, deaf, out = Station(), f"127.0.0.1:{free_port()}", work / "flight.ch11"
    running = begin(work, out, "--quiet", "--status", "0", "--publish", station.address, "--publish", deaf)
    address, traffic = address_in(running.told()), Traffic()

    def station_is(key: str, least: int) -> bool:
        return any(it["address"] == station.address and it[key] >= least for it in status_of(address)["ground"])

    wait_for("it is sent to", lambda: station_is("datagrams", 5), 30)
    wait_for("the other loses", lambda: any(it["lost"] for it in status_of(address)["ground"]), 30)
    alarms = [it["text"] for it in status_of(address)["alarms"] if it["name"] == "ground"]
    judge("one loses", len(alarms) == 1 and alarms[0].startswith(f"{deaf}: ") and " were lost" in alarms[0], alarms)
    sent = next(it["datagrams"] for it in status_of(address)["ground"] if it["address"] == station.address)
    (pid,) = [it for it, words in processes_of(out).items() if "--stay" in words and station.address in words]
    os.kill(pid, signal.SIGKILL)
    text = f"{station.address}: nothing is sent: its publisher has died, and begins again"
    wait_for("an alarm", lambda: text in [it["text"] for it in status_of(address)["alarms"]], 10)
    wait_for("it is sent to again", lambda: station_is("is_sent_to", 1) and station_is("datagrams", sent + 1), 30)
    judge("the metrics too", f'ground_is_sent_to{{address="{deaf}"}} 1\n'.encode() in asked(address, "metrics"))
    running.interrupt()
    traffic.end()
    judge("it ends well", running.ended()[0] == 0 and is_approved(out), running.told())
