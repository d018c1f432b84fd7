"""Tries lines in words beside interfaces: filters as expressions and texts, the next recording, the end, and --for."""

import json
import subprocess
import time
from pathlib import Path

import pytest
from frames import numbered, numbers_in, records
from namespace import socket_into
from recordings import Traffic, begin, extracted, facts_of, is_approved, parts_of, recordings, write_settings
from support import INFO, LIVE, PREFLIGHT, Running, judge, judge_quietly, outcome, wait_for

pytestmark = [pytest.mark.wanted("bin/bpfrec", "bin/capture", "ip", "tcpdump"), pytest.mark.usefixtures("namespace")]
UDP = bytes.fromhex("020000000002 020000000001 0800 45000020 0001 0000 4011 0000 0a000001 0a000002")


def datagram(port: int) -> bytes:
    """A frame of IPv4 with a datagram to this port."""
    return (UDP + (9).to_bytes(2, "big") + port.to_bytes(2, "big") + bytes(8)).ljust(60, b"\0")


def type_line(running: Running, line: str) -> None:
    assert running.process.stdin
    running.process.stdin.write(f"{line}\n")
    running.process.stdin.flush()


def test_filters_are_set_in_words_one_after_the_other(work: Path) -> None:
    """An expression, a text for the assembler, a listing, and the word for all frames: each from the next frame on, in the
    order of the lines."""
    (work / "drops.bpf").write_text("; none\n ret #0\n")
    (work / "keeps").write_text("1,6 0 0 1,")
    out = work / "words.ch11"
    running = begin(work, out, "--quiet", stdin=subprocess.PIPE)
    with socket_into("tx0") as one:
        for line, answer in [
            ("set 1 udp port 5004", "installed 1 1 "),
            (f"set 1 {work}/drops.bpf", "installed 1 2 "),
            (f"set 1 {work}/keeps", "installed 1 3 "),
            (f"set 1 {work}/drops.bpf", "installed 1 4 "),
            ("set 1 all", "installed 1 5 "),
        ]:
            type_line(running, line)
            running.wait_until_told(answer)
            for port in (5_004, 5_005):
                one.send(datagram(port))
            time.sleep(0.3)
    type_line(running, "set 1 udp prt 5004")
    running.wait_until_told("bpfrec live: set 1 udp prt 5004: ")
    judge("the expression's fault is tcpdump's", "syntax error" in running.told(), running.told())
    type_line(running, "set 1 missing.txt")
    running.wait_until_told("refused 1 File")
    type_line(running, "stop")
    judge("it ends as by a signal", running.ended()[0] == 0, running.told())
    found = [it.frame[36:38] for it in records(extracted(work, out, 1))]
    wanted = [port.to_bytes(2, "big") for port in (5_004, 5_004, 5_005, 5_004, 5_005)]
    judge("each filter held for its frames", found == wanted, found)


def test_a_line_begins_the_next_recording_and_one_ends_the_run(work: Path) -> None:
    """Each frame is in one of them, with the filter that was set ahead."""
    out = work / "next.ch11"
    running = begin(work, out, "--quiet", "--every", "1000", stdin=subprocess.PIPE)
    traffic = Traffic()
    for number in (1, 2, 3):
        wait_for("a recording", lambda: len(recordings(work, "next")) == number, 10)
        time.sleep(0.4)
        type_line(running, "next" if number < 3 else "stop")
    status = running.ended()[0]
    traffic.end()
    judge("it ends well", status == 0, running.told())
    parts = parts_of(work, "next", 1)
    numbers = numbers_in(parts)
    judge("three recordings", len(parts) == 3 and all(parts) and all(map(is_approved, recordings(work, "next"))))
    judge("each frame once, in order", numbers == list(range(len(numbers))), len(numbers))


def test_facts_have_the_words_of_each_filter(work: Path) -> None:
    """Those of the settings, those of a line in the recording that went on too, and none of a listing that a line
    named; info has them of each version."""
    settings = write_settings(
        work, 'id = 1\nname = "bus A"\nfilter = "udp port 5004"', f'id = 2\nfilter = "{work}/all"'
    )
    running = begin(work, work / "set.ch11", "--quiet", "--every", 1_000, settings=settings, stdin=subprocess.PIPE)
    typed: list[list[str]] = [['set "bus A" udp port 7777'], [f"set 1 {work}/all", "set 2 arp"], []]
    with socket_into("tx0") as one:
        for number, lines in enumerate(typed, 1):
            wait_for("a recording", lambda: len(recordings(work, "set")) == number, 10)
            time.sleep(0.4)
            one.send(datagram(5_004))
            time.sleep(0.3)
            for line in lines:
                type_line(running, line)
            if number == 1:
                running.wait_until_told("installed 1 1 ")
                one.send(datagram(7_777))
                time.sleep(0.3)
            type_line(running, "next" if lines else "stop")
    judge("it ends well", running.ended()[0] == 0, running.told())
    facts = [facts_of(it)["filters"] for it in recordings(work, "set")]
    found = [[(it["channel"], it.get("expression")) for it in filters] for filters in facts]
    wanted: list[list] = [
        [(1, "udp port 5004"), (2, None), (1, "udp port 7777")],
        [(1, "udp port 7777"), (2, None), (2, "arp")],
        [(1, None), (2, "arp")],
    ]
    judge("in order", found == wanted, found)
    told = json.loads(outcome(INFO, "--json", recordings(work, "set")[0]).stdout)
    words = [it["words"] for it in told["channels"]["1"]["versions"]]
    judge("info has them", words == ["udp port 5004", "udp port 7777"], told["channels"]["1"])


def test_next_needs_recordings_that_follow_one_another_and_help_says_what_there_is(work: Path) -> None:
    out = work / "alone.ch11"
    running = begin(work, out, "--quiet", stdin=subprocess.PIPE)
    type_line(running, "next")
    running.wait_until_told("bpfrec live: next: recordings follow one another with --every or --size alone")
    type_line(running, "help")
    running.wait_until_told("set CHANNEL FILTER  gives a channel another filter")
    type_line(running, "stop")
    judge("and it ends", running.ended()[0] == 0, running.told())


@pytest.mark.timed
def test_a_run_ends_after_its_time(work: Path) -> None:
    """With all frames, as by a signal."""
    out = work / "time.ch11"
    begun = time.monotonic()
    running = begin(work, out, "--quiet", "--for", "3s")
    with socket_into("tx0") as one:
        for number in range(100):
            one.send(numbered(number))
    status = running.ended()[0]
    took = time.monotonic() - begun
    judge(f"after three seconds: {took:.1f}", status == 0 and 3 <= took < 9, running.told())
    judge_quietly("it is approved", is_approved(out))
    judge("with all frames", numbers_in([records(extracted(work, out, 1))]) == list(range(100)))


def test_lines_ahead_of_the_end_of_input_are_all_answered(work: Path) -> None:
    """Also where the last ones are made first."""
    out = work / "all.ch11"
    (work / "lines").write_text("".join(f"set 1 udp port {5_000 + it}\n" for it in range(5)))
    with open(work / "lines", "rb") as lines:
        running = begin(work, out, "--quiet", stdin=lines)
        running.wait_until_told("installed 1 5 ")
    running.interrupt()
    answers = [line.split()[2] for line in running.told().splitlines() if line.startswith("installed")]
    judge("in their order", running.ended()[0] == 0 and answers == ["1", "2", "3", "4", "5"], running.told())


def test_settings_have_filters_in_words(work: Path) -> None:
    """The same in all recordings of a run, and the facts have them."""
    (work / "drops.bpf").write_text("; none\n ret #0\n")
    settings = write_settings(work, 'id = 1\nfilter = "udp port 5004"', f'id = 2\nfilter = "{work}/drops.bpf"')
    done = outcome(PREFLIGHT, "--live", settings, work / "set.ch11", "rx0=1", "rx1=2")
    judge("preflight says how long they are", "filter udp port 5004: " in done.stdout and done.returncode == 0, done)
    out = work / "set.ch11"
    running = begin(work, out, "--quiet", "--every", 1_000, settings=settings, stdin=subprocess.PIPE)
    with socket_into("tx0") as one, socket_into("tx1") as two:
        for number in (1, 2):
            wait_for("a recording", lambda: len(recordings(work, "set")) == number, 10)
            time.sleep(0.4)
            for port in (5_004, 5_005):
                one.send(datagram(port))
                two.send(datagram(port))
            time.sleep(0.3)
            type_line(running, "next" if number == 1 else "stop")
    judge("it ends well", running.ended()[0] == 0, running.told())
    kept = [[it.frame[36:38] for it in part] for part in parts_of(work, "set", 1)]
    judge("one keeps its port", kept == [[(5_004).to_bytes(2, "big")]] * 2, kept)
    judge("one keeps nothing", parts_of(work, "set", 2) == [[], []])
    found = {it["channel"]: it.get("expression") for it in facts_of(recordings(work, "set")[1])["filters"]}
    judge("the facts have the words", found == {1: "udp port 5004", 2: f"{work}/drops.bpf"}, found)
    wrong = write_settings(work, 'id = 1\nfilter = "udp prt 5004"')
    done = outcome(LIVE, wrong, work / "wrong.ch11", "rx0=1")
    line = f"bpfrec live: {wrong}:5: filter udp prt 5004 of channel 1: tcpdump: "
    judge("a wrong one is refused ahead", done.returncode == 2 and done.stderr.startswith(line), done)
    done = outcome(PREFLIGHT, "--live", wrong, work / "wrong.ch11", "rx0=1")
    judge("preflight says it too", done.returncode == 1 and "filter udp prt 5004 of channel 1: " in done.stdout, done)
