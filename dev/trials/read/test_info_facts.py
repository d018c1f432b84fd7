"""Tries what bpfrec info makes of the facts beside a recording: rows, damage, and facts that are none."""

import contextlib
import io
import json
import os
import random
from pathlib import Path
from typing import Any

import bpfrec
import pytest
from bpfrec_tools.info.facts_file import facts_beside
from expected_facts import (
    BEFORE_1970,
    ODD_VALUES,
    TAI_37,
    THREE_ORIGINS,
    UNKNOWN_SCALE,
    are_facts,
    damaged_facts,
    facts_of_run,
    is_utc,
    object_of,
    origins_in,
    time_by,
    value_of,
)
from reading import SEED, as_json, audit_of, json_of, page_parts, put_beside, read, text_parts
from support import INFO, judge, judge_quietly, outcome, present, run

pytestmark = pytest.mark.wanted("bin/bpfrec")
DAMAGED, BY_PROCESS = 1_500, 40
# What info says of the second sample without facts.
WITHOUT_FACTS = """\
channel        frames       offered    frames/s         first s          last s  remarks
      1             1             2           -       0.0000032       0.0000032

bytes                      248
packets: frames            1
packets: program           2
packets: end               1
packets: other             0
missing sequence numbers   none
damaged places             none
audit                      yes other 0

channel 1
  frames kept                1
  bytes kept                 18
  frames offered             2
  dropped by the filter      1
  first counter              32
  last counter               32
  time between               0.0000000 s
  mean rate                  unknown
  greatest rate              1 frames in a second
  longest gap                unknown
  counters that step back    0
  frames with error flags    0
  versions of the filter     2
  end record                 there
  version 0                  from frame 0, counter 16
  version 1                  from frame 1, counter 32
"""
THREE_ROWS = """\
host                       fc1??<b>
origin                     2025-12-01T12:00:00.250000000Z from counter 0 on
origin                     2025-12-01T12:00:01.000000000Z from counter 32 on: the clock was set by 0.750000000 s
origin                     2025-12-01T11:00:00.250000123Z from counter 32 on: the clock was set by -3600.749999877 s
frames lost                1,120 dropped, 3 skipped
  first time                 2025-12-01T11:00:00.2500033Z
  last time                  2025-12-01T11:00:00.2500033Z
"""


# ---- without facts


def test_without_facts_the_text_is_as_it_was(sample: Path) -> None:
    """Without facts the text is as it was, and what is new in JSON is null."""
    judge("without facts the text is as it was", run(INFO, sample) == WITHOUT_FACTS)
    found = json_of(sample)
    times = [found["channels"]["1"][it] for it in ("first_time", "last_time")]
    judge("and what JSON has of them is null", [found["facts"], *times] == [None] * 3)


def test_a_link_that_leads_nowhere_is_no_facts(sample: Path) -> None:
    Path(f"{sample}.json").symlink_to(sample.parent / "nowhere")
    done = outcome(INFO, sample)
    judge("a link that leads nowhere is no facts", (done.stdout, done.stderr) == (WITHOUT_FACTS, ""), done)


# ---- rows, which were written by hand


@pytest.fixture
def three(sample: Path) -> Path:
    """A recording whose facts have three origins, losses, and odd names of a host and of an interface."""
    facts = facts_of_run(THREE_ORIGINS, [(120, 0, 3), (1_000, 0, 0)])
    interfaces = [{"interface": "a<b\n", "channel": 1}]
    put_beside(sample, {**facts, "host": "fc1\n\ud800<b>", "interfaces": interfaces})
    return sample


def test_channels_are_named_by_the_facts(three: Path) -> None:
    rows = [f"facts                      {three}.json", *THREE_ROWS.splitlines()]
    head, line = WITHOUT_FACTS.splitlines()[:2]
    named = {f"{head[:-7]}interface  remarks": head, f"{line}  a<b?": line, "channel 1: a<b?": "channel 1"}
    done = outcome(INFO, three)
    told = [named.get(it, it) for it in done.stdout.splitlines()]
    judge("channels are named", all(it in done.stdout.splitlines() for it in named), done.stdout)
    new = [it for it in told if it not in WITHOUT_FACTS.splitlines()]
    judge("the rows of facts", (done.returncode, done.stderr, new) == (0, "", rows), done)
    judge("and all others as without them", "".join(f"{it}\n" for it in told if it not in rows) == WITHOUT_FACTS)


def test_json_has_the_facts_too(three: Path) -> None:
    found = json_of(three)
    wanted = {
        "path": f"{three}.json",
        "host": "fc1\n\ud800<b>",
        "origin_count": 3,
        "origins": [{**object_of(*it), "set_by": it[2], "scale": "UTC", "tai_offset": None} for it in THREE_ORIGINS],
        "clock": {},
        "losses": {"dropped": 1_120, "missed": 0, "skipped": 3},
        "interruptions": [],
        "marks": [],
    }
    times = [found["channels"]["1"][it] for it in ("first_time", "last_time")]
    judge("the same in JSON", found["facts"] == wanted and times == ["2025-12-01T11:00:00.2500033Z"] * 2, found)


def test_interruptions_are_there(work: Path, three: Path) -> None:
    """As a text, in JSON and marked on the page; what has another form is left out."""
    recording, facts = work / "i.ch11", facts_of_run(TAI_37[:1])
    recording.write_bytes(three.read_bytes())
    told: list[dict[str, object]] = [
        {"interface": "eth0", "why": "no carrier", "from": 10_000_000, "to": 25_000_000},
        {"interface": "eth1", "why": "gone", "from": 30_000_000, "to": None},
    ]
    wrong: list[object] = [None, -1, 2**48, [], "", "x" * 256]
    odd = [{**told[0], key: value} for key in told[0] for value in wrong if key != "to"]
    facts["interruptions"] = [*odd, *told, {**told[0], "to": "5"}, 7]
    put_beside(recording, facts)
    rows = [
        "eth0 no carrier from 2025-12-01T12:00:01.2500000Z to 2025-12-01T12:00:02.7500000Z",
        "eth1 gone from 2025-12-01T12:00:03.2500000Z to the end",
    ]
    lines = run(INFO, recording).splitlines()
    judge("as a text", [it[27:] for it in lines if it.startswith("interruption ")] == rows, lines)
    judge("in JSON", json_of(recording)["facts"]["interruptions"] == told, json_of(recording)["facts"])
    page = work / "i.html"
    run(INFO, "--html", page, recording)
    judge("on the page", all(it in page.read_text() for it in rows))


def test_the_clock_at_the_beginning_and_the_end_is_there(work: Path, three: Path) -> None:
    """As a text, in JSON and on the page; of odd values nothing is said."""
    recording, facts = work / "c.ch11", facts_of_run(THREE_ORIGINS)
    recording.write_bytes(three.read_bytes())
    kernel = {"is_synchronised": True, "maximum_error": "0.000500"}
    begin = {"kernel": kernel, "chrony": {"reference": "192.0.2.1", "state": "Normal"}, "ptp": None}
    facts["synchronisation"] = {"begin": begin, "end": {"kernel": {**kernel, "is_synchronised": False}}}
    put_beside(recording, facts)
    rows = {
        "clock at the beginning": "synchronised by chrony (192.0.2.1), off by at most 0.000500 s",
        "clock at the end": "not synchronised",
    }
    told = run(INFO, recording)
    judge("as a text", all(f"{name:<26} {value}\n" in told for name, value in rows.items()), told)
    wanted = {
        "begin": {"is_synchronised": True, "maximum_error": 0.0005, "source": "chrony (192.0.2.1)"},
        "end": {"is_synchronised": False, "maximum_error": 0.0005, "source": None},
    }
    judge("in JSON", json_of(recording)["facts"]["clock"] == wanted, json_of(recording)["facts"])
    page = work / "c.html"
    run(INFO, "--html", page, recording)
    judge("on the page", all(it in page.read_text() for it in rows.values()))
    for value in ODD_VALUES:
        for odd in (value, {"begin": value}, {"begin": {"kernel": value, "chrony": value, "ptp": value}}):
            facts["synchronisation"] = odd
            put_beside(recording, facts)
            known = present(facts_beside(str(recording))).clocks().get("begin")
            judge_quietly(f"{odd}: {known}", known is None or known.is_synchronised is None and known.source is None)


@pytest.mark.parametrize(
    "span, said, rows",
    [
        (5_000_000, 5_000_000, ["0.5000000 s"]),
        (0, 0, ["none"]),
        *((it, None, []) for it in (-1, 2**48, "5", True, None)),
    ],
)
def test_the_span_of_a_channel_is_there(work: Path, sample: Path, span: object, said: object, rows: list) -> None:
    """As a text, in JSON and on the page, where it is known; what has another form is left out."""
    facts = facts_of_run(TAI_37[:1])
    facts["spans"] = [{"channel": 1, "span": span}, 7, {"channel": 0, "span": 1}, {"channel": 2, "span": 9}]
    put_beside(sample, facts)
    lines = run(INFO, sample).splitlines()
    judge("as a text", [it[29:] for it in lines if it.startswith("  span of packets ")] == rows, lines)
    judge("in JSON", json_of(sample)["channels"]["1"]["span"] == said)
    run(INFO, "--html", work / "s.html", sample)
    page = (work / "s.html").read_text()
    judge("on the page", ("span of packets" in page) == bool(rows) and all(f"<td>{it}</td>" in page for it in rows))


def test_a_version_has_the_words_of_which_its_filter_was_made(work: Path, sample: Path) -> None:
    """As a text, in JSON and on the page; of a listing that no program of the channel has nothing is said."""
    recording, facts = work / "w.ch11", facts_of_run(TAI_37[:1])
    recording.write_bytes(sample.read_bytes())
    listings = [it.listing for it in bpfrec.open(recording).filters]
    facts["filters"] = [
        {"channel": 2, "listing": listings[0], "expression": "another channel's"},
        {"channel": 1, "listing": "1,6 0 0 77,", "expression": "another program's"},
        {"channel": 1, "listing": listings[1], "expression": "udp port 53\nor arp"},
    ]
    put_beside(recording, facts)
    lines = run(INFO, recording).splitlines()
    rows = ["from frame 0, counter 16", "from frame 1, counter 32: udp port 53?or arp"]
    judge("as a text", [it[29:] for it in lines if it.startswith("  version ")] == rows, lines)
    versions = json_of(recording)["channels"]["1"]["versions"]
    judge("in JSON", [it["words"] for it in versions] == [None, "udp port 53?or arp"], versions)
    page = work / "w.html"
    run(INFO, "--html", page, recording)
    judge("on the page", "<h3>Version 1: udp port 53?or arp</h3>" in page.read_text())


def test_the_page_says_that_times_are_utc(three: Path) -> None:
    page = three.with_suffix(".html")
    run(INFO, "--html", page, three)
    text = page.read_text()
    judge(
        "the page says that times are UTC",
        "Times are UTC, from the facts in x.ch11.json." in text
        and "<td>fc1??&lt;b&gt;</td>" in text
        and "<h2>Channel 1: a&lt;b?</h2>" in text
        and "<td class=bad>1,120 dropped, 3 skipped</td>" in text
        and text.count("2025-12-01T11:00:00.2500033Z") == 2,
    )


@pytest.mark.parametrize("encoding, host", [("utf-8", "m\u00fcnchen"), ("ascii", "m?nchen")], ids=["utf-8", "ascii"])
def test_a_hosts_name_is_shown_in_each_encoding(sample: Path, encoding: str, host: str) -> None:
    put_beside(sample, {**facts_of_run(THREE_ORIGINS), "host": "m\u00fcnchen"})
    told = run(INFO, sample, env={**os.environ, "PYTHONIOENCODING": encoding}, encoding=encoding)
    judge(f"a host's name in {encoding}", f"\nhost                       {host}\n" in told, told)


# ---- damage


def judge_by_process(what: str, sample: Path, is_refused: bool) -> None:
    page = sample.with_suffix(".html")
    done = [outcome(INFO, sample), outcome(INFO, "--json", sample), outcome(INFO, "--html", page, sample)]
    are_well = [it.returncode == 0 and it.stderr.count("\n") == is_refused for it in done]
    judge_quietly(f"{what}: {done}", all(are_well) and not any("Traceback" in it.stderr for it in done))
    judge_quietly(f"{what}: the rest is as without", not is_refused or done[0].stdout == WITHOUT_FACTS)


def judge_damaged(turn: int, sample: Path, data: bytes) -> bool:
    """Whether facts with this damage are refused, as they must be or not."""
    beside = Path(f"{sample}.json")
    beside.write_bytes(data)
    found, answer = read(str(sample)), audit_of(str(sample))
    told: Any = value_of(data)
    is_refused = not are_facts(told)
    with contextlib.redirect_stderr(io.StringIO()) as errors:
        known = facts_beside(str(sample))
    lines = errors.getvalue()
    judge_quietly(
        f"facts {turn}: {data!r} {lines}",
        (known is None) == is_refused
        and lines.count("\n") == is_refused
        and (f": {beside}: no facts of a recording: " in lines) == is_refused,
    )
    said = as_json.object_of(found, answer[0], known)
    pages = [
        "".join(text_parts(found, answer, known)),
        "".join(page_parts("x", found, answer, known)),
        json.dumps(said),
    ]
    judge_quietly("text, page and JSON", all(pages))
    if not is_refused:
        origins = origins_in(told)
        wanted = time_by(origins, 32) if is_utc(origins, 32) else None
        judge_quietly(f"facts {turn}: {origins}", said["channels"][1]["first_time"] == wanted)
    if turn < BY_PROCESS:
        judge_by_process(f"facts {turn}", sample, is_refused)
    return is_refused


def test_damaged_facts_are_taken_or_refused_as_formats_says(sample: Path) -> None:
    """Drawn damage of facts: they are taken where docs/user/formats/live.md has them so, or refused by a line; never a
    traceback."""
    draw, refused = random.Random(SEED), 0
    for turn in range(DAMAGED):
        origins: list = draw.choice([THREE_ORIGINS[:2], THREE_ORIGINS, BEFORE_1970, TAI_37, UNKNOWN_SCALE])
        refused += judge_damaged(turn, sample, damaged_facts(draw, facts_of_run(origins, [(1, 2, 3), (4, 5, 6)])))
    holds = DAMAGED // 4 < refused < DAMAGED * 9 // 10
    judge(f"{DAMAGED} damaged facts, of which {refused} are refused, and the rest of the answer stays", holds)
