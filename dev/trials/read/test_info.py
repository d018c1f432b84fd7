"""Tries bpfrec info: its numbers beside capinfos' and tshark's, its page, and what it refuses."""

import contextlib
import html.parser
import os
import random
import shutil
import subprocess
from collections import Counter
from pathlib import Path

import pytest
from bpfrec.formats.body import BadBody, other_frames, walk
from frames import body_of, program_packet
from reading import SAMPLES, facts_of, recording_of_three
from sample_feeds import capture_of
from support import BPFREC, INFO, judge, judge_quietly, outcome, run

pytestmark = pytest.mark.wanted("bin/bpfrec", "capinfos", "tshark")
# A second in a recording's ticks.
TICKS = 10**7
# By chance a body without its first four bytes can be one again; of these it never is.
BODIES_SEED = 2


@pytest.fixture(scope="module")
def recording(place: Path) -> Path:
    return recording_of_three(place)


# ---- numbers


@pytest.fixture(scope="module")
def facts(recording: Path) -> dict:
    return facts_of(recording)


def capinfos(pcap: Path) -> list[float]:
    words = ["-T", "-M", "-r", "-c", "-d", "-u", "-x", "-S", "-a", "-e", pcap]
    return [float(it) for it in run("capinfos", *words).strip().split("\t")[1:]]


@pytest.mark.parametrize("channel", ["1", "2", "3"])
def test_numbers_are_those_of_capinfos_and_tshark(work: Path, recording: Path, facts: dict, channel: str) -> None:
    """What info says of a channel beside what capinfos and tshark say of its frames."""
    said, pcap = facts["channels"][channel], work / "x.pcap"
    run(BPFREC, "extract", recording, channel, work / "x.feed")
    capture_of(work / "x.feed", pcap)
    frames, size, seconds, first, last, rate = capinfos(pcap)
    moments = [said["least_counter"] / 1e7, said["greatest_counter"] / 1e7]
    judge(
        f"channel {channel} has capinfos' frames, bytes, first and last time, and mean rate",
        (frames, size) == (said["frames"], said["bytes"])
        and abs(seconds - (moments[1] - moments[0])) < 1e-5
        and abs(first - moments[0]) < 1e-5
        and abs(last - moments[1]) < 1e-5
        and abs(rate / said["mean_rate"] - 1) < 1e-3,
    )
    judge_beside_tshark(pcap, channel, said)


def judge_beside_tshark(pcap: Path, channel: str, said: dict) -> None:
    words = ["-n", "-o", "eth.check_fcs:TRUE", "-r", pcap, "-T", "fields", "-e", "frame.time_epoch"]
    rows = [it.split("\t") for it in run("tshark", *words, "-e", "eth.fcs.status").splitlines()]
    ticks = [int(it.partition(".")[0]) * TICKS + int(it.partition(".")[2].ljust(7, "0")[:7]) for it, _ in rows]
    gaps = [b - a for a, b in zip(ticks, ticks[1:])]
    most, back = max(Counter(it // TICKS for it in ticks).values()), sum(it < 0 for it in gaps)
    judge(
        f"channel {channel} has tshark's greatest rate, longest gap, steps back and bad check sequences",
        (most, max(gaps), back, sum(it == "0" for _, it in rows))
        == (said["greatest_rate"], said["longest_gap"], said["steps_back"], said["marked"])
        and (ticks[0], ticks[-1]) == (said["first_counter"], said["last_counter"]),
    )


def drawn_frames(draw: random.Random, turn: int) -> list[tuple[int, int, bytes]]:
    length, shortest = draw.randrange(0, 300), draw.choice([0, 17, 18])
    lengths = [length if turn % 2 else draw.randrange(shortest, 300) for _ in range(draw.randrange(1, 40))]
    words = [draw.choice([0, 0, 3 << 24, 1 << 30, 2 << 30, 1 << 28]) if turn % 3 == 0 else 5 << 24 for _ in lengths]
    return [(draw.randrange(2**48), word, draw.randbytes(it)) for word, it in zip(words, lengths)]


def test_bodies_are_read_alike_in_both_ways() -> None:
    """Bodies of equal and of other frames, marked or not, by both ways of reading, beside what they were made of."""
    draw = random.Random(BODIES_SEED)
    for turn in range(500):
        frames = drawn_frames(draw, turn)
        marked = sum(word >> 30 != 0 for _, word, _ in frames)
        are_whole = all(len(it) >= 18 and not word >> 28 & 3 for _, word, it in frames)
        wanted = ([it[0] for it in frames], sum(len(it) for _, _, it in frames), marked, are_whole)
        body = body_of(frames)
        found = [walk(body), other_frames(body, len(frames))]
        if len(frames[-1][2]) % 2:
            found.append(walk(body[:-1]))
        judged = [it and (it.counters, it.bytes, it.marked, it.are_whole) for it in found]
        judge_quietly(f"body {turn}: {judged}, made of {wanted}", all(it == wanted for it in judged))
        rows = [[(*row[:2], body[row[2] :][: row[1] & 0x3FFF]) for row in zip(*it[:3])] for it in found if it]
        judge_quietly("each where it is", all(it == [(a, w | len(b), b) for a, w, b in frames] for it in rows), rows)
        for wrong in (body + b"\0\0", body[: len(body) - 2], body[:4] + body[8:]):
            with contextlib.suppress(BadBody):
                judge_quietly(f"body {turn} is refused", walk(wrong) is None)


# ---- the page


class Tags(html.parser.HTMLParser):
    """The tags of a page with the names of their attributes."""

    def __init__(self, page: str) -> None:
        super().__init__()
        self.found: Counter = Counter()
        self.feed(page)

    def handle_starttag(self, tag: str, attributes: list) -> None:
        self.found[tag, tuple(name for name, _ in attributes)] += 1


def page_of(work: Path, recording: object) -> str:
    """The page of a recording, which is written without a word."""
    done = outcome(INFO, "--html", work / "page.html", recording, text=False)
    judge_quietly(f"a page of {recording} is written", done.returncode == 0 and not done.stderr, done)
    return (work / "page.html").read_text(encoding="utf-8")


def test_the_page_has_all_channels_and_fetches_nothing(work: Path, recording: Path) -> None:
    page = page_of(work, recording)
    holds = not any(it in page for it in ("http:", "https:", "src=", "href=", "@import", "url(", "<script"))
    judge("it wants nothing from outside", holds)
    judge("it has all channels and filters", page.count("<svg") == 3 and page.count("<pre>") == 3 and "ret" in page)


ODD_NAMES = {
    "script": b"<script>alert(1)<.ch11",
    "title": b"</title><img src=x onerror=alert(1)>.ch11".replace(b"/", b"\\"),
    "entities": b"a\"b'c&lt;&amp;.ch11",
    "no_text": b"\xff\xfe\x80.ch11",
    "controls": b"line\nfeed\r\t\x01.ch11",
    "right_to_left": "\u202e\u00e9\U0001f600.ch11".encode(),
    "comment": b"-- --> <!-- .ch11",
    "option": b"--json",
}


@pytest.mark.parametrize("name", ODD_NAMES)
def test_names_that_would_be_html_stand_as_text(work: Path, recording: Path, name: str) -> None:
    path = os.path.join(os.fsencode(work), ODD_NAMES[name])
    shutil.copy(bytes(recording), path)
    judge("no name becomes HTML", Tags(page_of(work, path)).found == Tags(page_of(work, recording)).found)


def test_a_filter_without_a_text_stands_as_its_listing(work: Path) -> None:
    (work / "unknown.ch11").write_bytes(program_packet(9, 0, (0x3C3C, 0x3C, 0x3E, 0x3C3E)))
    page = page_of(work, work / "unknown.ch11")
    judge("a filter without a text stands as its listing", "1,15420 60 62 15422," in page)


def test_an_empty_recording_has_a_page(work: Path) -> None:
    """And a line that says so."""
    (work / "empty.ch11").write_bytes(b"")
    done = outcome(INFO, "--html", work / "page.html", work / "empty.ch11")
    wanted = f"bpfrec info: {work}/empty.ch11: it is empty: there is no packet\n"
    judge("a line says it", (done.returncode, done.stderr) == (0, wanted), done)
    judge("an empty recording has a page", (work / "page.html").read_text(encoding="utf-8"))


# ---- words


def test_what_info_cannot_read_is_refused_in_a_line(work: Path) -> None:
    cases: list[tuple[list[object], str]] = [
        ([work / "nowhere"], f"bpfrec info: {work}/nowhere: No such file or directory\n"),
        ([work], f"bpfrec info: {work}: Is a directory\n"),
        (["--html", "/dev/full", SAMPLES[0]], "bpfrec info: /dev/full: No space left on device\n"),
        (["--html", work / "no/page", SAMPLES[0]], f"bpfrec info: {work}/no/page: No such file or directory\n"),
        (["--html", SAMPLES[0], SAMPLES[0]], f"bpfrec info: {SAMPLES[0]}: it is RECORDING itself\n"),
    ]
    for words, told in cases:
        done = outcome(INFO, *words)
        judge(f"refused: {told.strip()}", (done.returncode, done.stderr) == (3, told), done)
    wrong: list[list[str]] = [[], ["--no", "x"]]
    judge("words that are none", [outcome(INFO, *it).returncode for it in wrong] == [2, 2])


def test_a_pipe_is_read_and_not_audited(work: Path) -> None:
    os.mkfifo(work / "pipe")
    writer = subprocess.Popen(["cp", SAMPLES[0], work / "pipe"])
    done = outcome(INFO, work / "pipe")
    holds = writer.wait() == 0 and done.returncode == 0 and "not asked: no regular file" in done.stdout
    judge("a pipe is read, and not audited", holds, done)


def test_without_the_program_info_says_so() -> None:
    done = outcome(INFO, SAMPLES[1], env={**os.environ, "BPFREC": "/nowhere"})
    judge("without bpfrec it says so", done.returncode == 0 and "not asked: bpfrec is missing" in done.stdout, done)
