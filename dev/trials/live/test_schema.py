"""Tries the facts beside a recording by docs/user/formats/facts.schema.json, with a chrony and a PTP that are played."""

import contextlib
import json
import os
import re
import signal
from pathlib import Path
from typing import Any

import pytest
from clock import played
from recordings import begin, facts_of, has_facts, processes_of, settings_of
from schemas import FORMATS, faults, schema_of
from support import judge, judge_quietly, present, wait_for

pytestmark = pytest.mark.wanted("bin/bpfrec", "bin/capture", "ip")


def judge_schema(what: str, facts: dict) -> None:
    found = faults(facts, schema_of("facts"))
    judge(f"{what}: the facts are as the schema says", found == [], found)


@pytest.mark.timed
def test_the_facts_of_runs_without_a_clock_or_an_end_are_so_too(work: Path, namespace: None) -> None:
    """Where neither runs or both say nonsense; of parts; of a run that is killed."""
    out = work / "parts.ch11"
    running = begin(work, out, "--quiet", "--every", 1, adds=played(work, chronyc="506 Cannot talk to daemon", pmc="?"))
    wait_for("two", lambda: has_facts(work / "parts_00002.ch11"))
    os.kill(running.process.pid, signal.SIGKILL)
    running.process.wait()
    wait_for("nothing runs on", lambda: not processes_of(out))
    for path in sorted(work.glob("parts_*.ch11")):
        facts = facts_of(path)
        judge_schema(path.name, facts)
        told = facts["synchronisation"]["begin"]
        judge_quietly(f"{path.name}: nobody says", told["chrony"] is None and told["ptp"] is None, told)
    judge("a run that was killed says so", facts["status"] == 137)


@pytest.mark.timed
def test_facts_without_settings_are_so_too(work: Path, namespace: None) -> None:
    out = work / "all.ch11"
    running = begin(work, "rx0=1", "--quiet", settings=out, ways=["rx1=2"])
    running.end_well()
    judge_schema("without settings", facts_of(out))


def example_of_the_page() -> dict:
    section = (FORMATS / "live.md").read_text().split("Facts in which the clock was set back by an hour")[1]
    return json.loads(present(re.search(r"^```\n(.*?)^```$", section, re.MULTILINE | re.DOTALL))[1])


def test_the_example_of_the_page_is_as_its_schema_says() -> None:
    """And a schema that says nothing would be found out."""
    example = example_of_the_page()
    judge_schema("the example", example)
    for key in example:
        wrong = {name: it for name, it in example.items() if name != key}
        judge_quietly(f"without {key} it isn't", faults(wrong, schema_of("facts")))
        judge_quietly(f"with another {key} it isn't", faults({**example, key: object()}, schema_of("facts")))
    changes = [("counts", "frames", -1), ("losses", "dropped", "1"), ("origins", "origin", "1764590400.25")]
    changes += [("origins", "scale", "GPS"), ("origins", "scale", "TAI"), ("origins", "tai_offset", 100_001)]
    changes += [("adapters", "address", "none"), ("interfaces", "channel", 0), ("filters", "listing", None)]
    for key, name, value in changes:
        wrong = {**example, key: [{**example[key][0], name: value}]}
        judge_quietly(f"{key} with {name} {value!r}", faults(wrong, schema_of("facts")))


def test_settings_are_written_anew_with_each_value(work: Path) -> None:
    """Settings are written anew, each value as it was."""
    from bpfrec.formats.settings import settings_of as read
    from bpfrec.formats.settings_text import text_of

    with contextlib.suppress(FileNotFoundError):
        settings_of(work)
    text = (
        'limit = 0x10000\n"odd key" = 1.5\nyes = true\nwhen = 2025-12-01T12:00:00Z\nlist = [1, "two", {three = 3}]\n'
        "[other.table]\nkey = \"\\u00e9\\u007f\\t\\\"\\\\\"\n[[channel]]\nid = 1_0\nfilter = '''a \"b\" \\c'''\n"
        "[[channel]]\nid = 2\nnan = inf\n"
    )
    document = read("s.toml", text).document
    judge("settings that are written anew say the same", read("s.toml", text_of(document)).document == document)
    inline = 'channel = [{id = 1, filter = "x"}, {id = 2}]\nring = 7\n'
    document = read("s.toml", inline).document
    judge("tables in braces too", read("s.toml", text_of(document)).document == document)


def test_a_hash_of_the_facts_has_one_form() -> None:
    """Null where there is none; 64 hexadecimal digits in lower case else, also of the recording before."""
    example = example_of_the_page()
    digest = "0123456789abcdef" * 4
    right: list[dict[str, Any]] = [
        {"sha256": None, "bytes": None, "before": None},
        {"sha256": digest, "bytes": 0, "before": None},
        {"sha256": digest, "bytes": 1 << 40, "before": {"recording": "a.ch11", "sha256": digest}},
        {"sha256": digest, "bytes": 1, "before": {"recording": "a.ch11", "sha256": None}},
    ]
    for hashed in right:
        judge_schema(f"{hashed}", {**example, **hashed})
    for wrong in (digest[1:], f"{digest}0", digest.upper(), "", 1):
        judge_quietly(f"sha256 {wrong!r}", faults({**example, "sha256": wrong}, schema_of("facts")))
        before = {"recording": "a.ch11", "sha256": wrong}
        judge_quietly(f"before {wrong!r}", faults({**example, "before": before}, schema_of("facts")))
    changes: list[dict[str, Any]] = [{"bytes": -1}, {"bytes": "1"}, {"before": {"sha256": digest}}, {"before": "a"}]
    for change in changes:
        judge_quietly(f"{change}", faults({**example, **change}, schema_of("facts")))
