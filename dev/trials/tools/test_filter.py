"""Tries bpfrec filter, and bpfrec live with captures in the places of interfaces, beside tcpdump."""

import json
import os
import subprocess
from pathlib import Path

import pytest
from recorder import make_feed
from sample_feeds import capture_of
from support import COMMAND, ROOT, TOOLS, judge, judge_quietly, outcome, run

pytestmark = pytest.mark.wanted("bin/bpfrec", "bin/capture", "tcpdump", "editcap")
FILTER, LIVE = TOOLS / "filter", TOOLS / "live"
FEED = ROOT / "examples/feeds/one.feed"
EXPRESSION, ORIGIN = "udp port 50001", 1_764_590_400_250_000_000


@pytest.fixture
def capture(work: Path) -> Path:
    """A capture of 60 frames."""
    return capture_of(FEED, work / "flight.pcap", ORIGIN)


def seen(capture: Path, expression: str = "") -> list[str]:
    """What tcpdump shows of a capture: times, lengths and bytes."""
    words = ["tcpdump", "-n", "-tt", "-xx", "--nano", "-r", capture, *([expression] if expression else [])]
    return run(*words, stderr=subprocess.DEVNULL, stdout=subprocess.PIPE).splitlines()


def heads(capture: Path, expression: str = "") -> list[str]:
    """The same without lengths and bytes: editcap knows nothing of check sequences."""
    return [it.rpartition(", length ")[0] for it in seen(capture, expression) if not it.startswith("\t")]


@pytest.mark.parametrize("expression", [EXPRESSION, "arp", "not udp and not arp", "ip6"])
def test_it_keeps_what_tcpdump_keeps_with_equal_times(work: Path, capture: Path, expression: str) -> None:
    told = run(FILTER, expression, capture, work / "out.pcapng")
    lines = run("tcpdump", "-n", "-r", capture, expression, stderr=subprocess.DEVNULL, stdout=subprocess.PIPE)
    judge("it says how many", told == f"kept {len(lines.splitlines())} of 60\n", told)
    judge("the same frames at the same times", seen(work / "out.pcapng") == seen(capture, expression))


def test_a_pcapng_file_and_streams_are_taken(work: Path, capture: Path) -> None:
    run("editcap", "-F", "pcapng", capture, work / "flight.any")
    with open(work / "flight.any", "rb") as given, open(work / "out.pcapng", "wb") as out:
        done = subprocess.run(
            [FILTER, EXPRESSION, "-", "-"], stdin=given, stdout=out, stderr=subprocess.PIPE, text=True
        )
    judge("it says so on standard error", (done.returncode, done.stderr) == (0, "kept 11 of 60\n"), done)
    judge("the same frames", heads(work / "out.pcapng") == heads(capture, EXPRESSION))
    run(COMMAND, "filter", EXPRESSION, work / "flight.any", work / "again.pcapng")
    judge("of a file with another ending", heads(work / "again.pcapng") == heads(capture, EXPRESSION))


def test_what_can_not_be_filtered_is_refused_and_makes_nothing(work: Path, capture: Path) -> None:
    (work / "text").write_text("no capture\n" * 10)
    cases: list[tuple[list[object], int, str]] = [
        (["udp prt 5", capture, work / "o.pcapng"], 2, "udp prt 5"),
        ([EXPRESSION, work / "none.pcap", work / "o.pcapng"], 3, f"bpfrec filter: {work}/none.pcap: no such file\n"),
        ([EXPRESSION, work, work / "o.pcapng"], 3, f"bpfrec filter: {work}: it is no regular file\n"),
        ([EXPRESSION, work / "text", work / "o.pcapng"], 1, f"bpfrec filter: {work}/text: no pcap or pcapng file\n"),
        ([EXPRESSION, capture, capture], 3, f"bpfrec filter: {capture}: it is {capture} itself\n"),
        ([EXPRESSION, capture], 2, "the following arguments are required: OUT"),
    ]
    for words, status, told in cases:
        done = outcome(FILTER, *words)
        judge(f"refused: {told}", done.returncode == status and told in done.stderr and done.stdout == "", done)
    judge("nothing is made", sorted(it.name for it in work.iterdir()) == ["flight.pcap", "private", "text"])


def test_an_out_that_is_there_is_overwritten_with_force_alone(work: Path, capture: Path) -> None:
    (work / "out.pcapng").write_text("another's")
    done = outcome(FILTER, "arp", capture, work / "out.pcapng")
    line = f"bpfrec filter: {work}/out.pcapng is there: give it another name, or --force\n"
    judge("refused", (done.returncode, done.stderr) == (3, line), done)
    run(FILTER, "arp", "--force", capture, work / "out.pcapng")
    judge("and overwritten", seen(work / "out.pcapng") == seen(capture, "arp"))


def test_frames_that_were_cut_are_said(work: Path, capture: Path) -> None:
    run("editcap", "-F", "pcap", "-s", "100", capture, work / "cut.pcap")
    done = outcome(FILTER, "ether[0] >= 0", work / "cut.pcap", work / "out.pcapng")
    judge("a line counts them", done.returncode == 0 and " skipped " in done.stderr, done)


# ---- live


def test_several_captures_share_the_origin_of_the_earliest(work: Path, capture: Path) -> None:
    late = work / "late.pcap"
    run("editcap", "-F", "nsecpcap", "-t", "3.5", capture, late)
    done = outcome(LIVE, "--quiet", work / "out.ch11", f"{late}=2:arp", f"{capture}=1:{EXPRESSION}")
    judge("it records both, and the audit says yes", done.returncode == 0 and "yes other 0" in done.stdout, done)
    facts = json.loads((work / "out.ch11.json").read_text())
    first = seen(capture)[0].split()[0]
    judge_quietly("one origin, in UTC", [it["scale"] for it in facts["origins"]] == ["UTC"], facts["origins"])
    judge("that of the earliest frame", facts["origins"][0]["origin"] == first, (facts["origins"], first))
    run(COMMAND, "export", work / "out.ch11", work / "out.pcapng")
    wanted = [*heads(capture, EXPRESSION), *heads(late, "arp")]
    judge("all frames at their times", sorted(heads(work / "out.pcapng")) == sorted(wanted))


def test_the_origin_may_be_given(work: Path, capture: Path) -> None:
    run(LIVE, "--quiet", "--origin", "2025-12-01T12:00:00Z", work / "out.ch11", capture)
    facts = json.loads((work / "out.ch11.json").read_text())
    judge("it is in the facts", facts["origin_utc"] == "2025-12-01T12:00:00.000000000Z", facts["origins"])


def test_what_captures_do_not_go_with_is_refused(work: Path, capture: Path) -> None:
    out = work / "out.ch11"
    cases: list[tuple[list[object], int, str]] = [
        ([out, capture, "lo"], 2, "captures and interfaces have runs of their own"),
        (["--every", "1", out, capture], 2, "--every is for interfaces"),
        (["--size", "1M", out, capture], 2, "--size is for interfaces"),
        (["--prefilter", out, capture], 2, "--prefilter is for interfaces"),
        (["--require-clock", "1ms", out, capture], 2, "--require-clock is for interfaces"),
        ([out, work / "none.pcap"], 3, f"{work}/none.pcap: no such file"),
    ]
    os.mkfifo(work / "pipe.pcap")
    cases.append(([out, work / "pipe.pcap"], 3, f"{work}/pipe.pcap: it is no regular file"))
    for words, status, told in cases:
        programs: list[list[object]] = [[LIVE], [TOOLS / "preflight", "--live"]]
        for program in programs:
            done = outcome(*program, "--quiet", *words) if program == [LIVE] else outcome(*program, *words)
            is_said = told in (done.stderr if program == [LIVE] else done.stdout)
            judge(f"{program[0]}: {told}", is_said and done.returncode == (status if program == [LIVE] else 1), done)
    judge("nothing is made", not out.exists())


def test_preflight_asks_no_permission_for_captures(work: Path, capture: Path) -> None:
    done = outcome(TOOLS / "preflight", "--live", work / "out.ch11", f"{capture}=1:{EXPRESSION}")
    judge("no fault", done.returncode == 0 and done.stdout.endswith("0 faults\n"), done)


def test_a_feed_in_place_of_a_capture_is_refused(work: Path) -> None:
    make_feed(work / "x.pcap", 10)
    (work / "x.gz").touch()
    done = outcome(LIVE, "out.ch11", "x.gz=1", cwd=work)
    what = "bpfrec live: x.gz is a file: captures end in .pcap, .pcapng, .cap\n"
    judge("another file", (done.returncode, done.stderr) == (2, what), done)
    done = outcome(LIVE, "--quiet", work / "out.ch11", work / "x.pcap")
    judge("it is said", done.returncode != 0 and "x.pcap: no pcap or pcapng file" in done.stderr, done)
