"""Tries `--origin` of interfaces: the origin that is noted gives right times, also once counters have begun at 0 again."""

import json
import time
from pathlib import Path
from typing import Any

import pytest
from clock import Clock
from frames import Record, numbers, records
from namespace import send_numbered
from recordings import begin, extracted, facts_of
from support import CAPTURE, MILLISECOND, SECOND, Running, judge, judge_quietly, nanoseconds, wait_for

pytestmark = [
    pytest.mark.wanted("bin/bpfrec", "bin/capture", "ip", "cc"),
    pytest.mark.timed,
    pytest.mark.usefixtures("namespace"),
]
# The time after which counters begin at 0 again.
TURN = 2**48 * 100
NEW_YEAR_2025 = 1_735_689_600 * SECOND
DAY = 86_400 * SECOND


def moment_of(origins: list[dict], counter: int) -> int:
    """The moment of a counter, by docs/user/formats/live.md: that of the last origin whose counter is at most it."""
    origin = [it["origin"] for it in origins if it["counter"] <= counter][-1]
    return nanoseconds(*origin.split(".")) + counter * 100


def judge_moments(what: str, origins: list[dict], found: list[Record], sent: list[tuple[int, int]]) -> None:
    judge_quietly(f"{what}: all frames", len(found) == len(sent), (len(found), len(sent)))
    for seen, (begun, end) in zip(found, sent):
        moment = moment_of(origins, seen.counter)
        judge_quietly(
            f"{what}: counter {seen.counter} is of {moment}, sent from {begun} to {end}",
            begun - 2 * MILLISECOND <= moment <= end + 2 * MILLISECOND,
            origins,
        )
    print(f"ok: {what}: {len(found)} times are right", flush=True)


def send_timed(first: int, count: int) -> list[tuple[int, int]]:
    """Sends frames one by one: the moments before and after each."""
    sent = []
    for number in range(first, first + count):
        begun = time.time_ns()
        send_numbered("tx0", number, number + 1)
        sent.append((begun, time.time_ns()))
    return sent


@pytest.mark.parametrize(
    "word, origin",
    [
        ("2025-01-01T00:00:00Z", NEW_YEAR_2025),
        ("zero", 0),
        (None, time.time_ns() // SECOND * SECOND - 300 * DAY),
    ],
    ids=["2025", "zero", "300_days"],
)
def test_times_by_the_facts_are_right_for_an_origin_of_long_ago(work: Path, word: str, origin: int) -> None:
    out = work / "long.ch11"
    running = begin(work, out, "--quiet", "--origin", word or origin // SECOND)
    sent = send_timed(0, 50)
    time.sleep(0.2)
    running.interrupt()
    status = running.ended()[0]
    found, facts = records(extracted(work, out, 1)), facts_of(out)
    judge_quietly(f"status {status}: {running.told()}", status == 0)
    judge_moments(f"--origin {word}", facts["origins"], found, sent)
    noted = nanoseconds(*facts["origins"][0]["origin"].split("."))
    turns = (time.time_ns() - origin) // TURN
    judge("the origin has as many turns added as there were", noted == origin + turns * TURN, facts["origins"])
    judge(
        "it is printed too",
        f"bpfrec capture: origin {facts['origins'][0]['origin']}\n" in running.told(),
        running.told(),
    )
    off = abs((origin + found[0].counter * 100 - sent[0][0] + TURN // 2) % TURN - TURN // 2)
    judge("counters are what they would be without", off < 2 * MILLISECOND, off)


class Turning:
    """A capture whose counters begin at 0 again soon, under a clock that is set for it alone."""

    def __init__(self, work: Path, seconds: int) -> None:
        self.clock, self.events, self.feed = Clock(work), work / "events", work / "rx0.feed"
        origin = time.time_ns() - TURN + seconds * SECOND
        self.turn = origin + TURN
        self.sent: list[Any] = []
        words = ["--origin", f"{origin // SECOND}.{origin % SECOND:09}", "--events", self.events, f"rx0={self.feed}"]
        self.running = Running(work, CAPTURE, "--quiet", *words, adds=self.clock.adds)
        self.running.wait_until_told("origin")
        time.sleep(0.2)

    def send(self, count: int = 20) -> None:
        more = send_timed(len(self.sent), count)
        self.sent += [(self.clock.ahead_at(begun) + begun, self.clock.ahead_at(end) + end) for begun, end in more]

    def judge(self, before: int) -> None:
        """Ends it: of its frames so many came before the turn, and all have right times."""
        self.running.interrupt()
        judge_quietly(f"it ends: {self.running.told()}", self.running.ended()[0] == 0)
        found = records(self.feed.read_bytes())
        origins = [it for it in map(json.loads, self.events.read_text().splitlines()) if "origin" in it]
        judge_quietly("each frame is there", numbers(self.feed.read_bytes()) == list(range(len(self.sent))))
        judge("counters have begun at 0 again", found[before - 1].counter > 2**47 > found[-1].counter)
        judge_moments("before and after", origins, found, self.sent)


def test_times_are_right_once_counters_have_begun_at_0_again(work: Path) -> None:
    """While it captures, and with a clock that is set before and after that."""
    turning = Turning(work, 3)
    turning.send()
    turning.clock.set_by(5 * SECOND)
    time.sleep(0.15)
    turning.send()
    judge_quietly("this is before the end of the counters", time.time_ns() < turning.turn)
    told = "from counter 0 on: counters have begun at 0 again"
    wait_for("counters begin at 0 again", lambda: told in turning.running.told(), 10)
    turning.send()
    for step in (-2 * SECOND, SECOND):
        turning.clock.set_by(step)
        time.sleep(0.15)
        turning.send()
    turning.judge(40)
