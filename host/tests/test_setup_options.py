"""Tries attributes of setup records, by the tools that make these, and what hostile facts make of SETUP."""

import argparse
import json
import os
import shutil
from pathlib import Path

import pytest
import tomllib
from bpfrec_tools.chapter11.options import attribute_of
from expected_facts import facts_of_run
from reading import SAMPLES
from setups import CHAPTER11
from support import PUBLISH, judge, outcome, program_at, run

# Names that some reader takes for one of the setup record's own.
KEPT = (
    r"R-1\N|R-1\N | r-1\n|R-01\N|R-1\COM|g\pn|G\0106|R-1\TK1-2|R-1\TK1-02|r-1\TK1-2| R-1\TK1-2|R-1\TK1-2 |R-1\TK1-9"
    r"|R-1\TK1-0|R-1\TK1-|R-1\CDT-03|R-01\DSI-3|R-1\ENAM-2-1"
).split("|")


def test_attributes_that_some_reader_takes_for_lines_of_its_own_are_refused(work: Path) -> None:
    """By publish too. The name of the test program, and all other names, are taken."""
    recording = Path(shutil.copy(SAMPLES[1], work / "flight.ch11"))
    for name in KEPT:
        with pytest.raises(argparse.ArgumentTypeError, match="the setup record has this line itself"):
            attribute_of(f"{name}:9")
    word = "r-1\\tk1-02:9"
    line = f"{word!r}: the setup record has this line itself"
    for words in ([*CHAPTER11, "--print-setup", recording], [PUBLISH, recording, "127.0.0.1:9"]):
        done = outcome(words[0], f"--attribute={word}", *words[1:])
        judge(line, done.returncode == 2 and line in done.stderr, done)
    taken = ["G\\PN:test 5", "G\\SC:U", "R-1\\NX:1", "R-2\\TK1-2:5", "G\\PNX:1"]
    words = [f"--attribute={it}" for it in taken]
    found = tomllib.loads(run(*CHAPTER11, "--print-setup", "--origin", 5, *words, recording))["attributes"]
    judge("others are taken", found == taken, found)


def test_setup_has_no_more_than_the_program_takes(work: Path) -> None:
    """Of origins, which are refused in words; and channels that the recording lacks are left out."""
    recording = Path(shutil.copy(SAMPLES[1], work / "flight.ch11"))
    env = {**os.environ, "BPFREC": str(program_at(work / "played", 'cat "$3" > setup'))}
    known = facts_of_run([("1764590400.250000000", 0, None)])
    names = [{"interface": f"eth{it}", "channel": it} for it in range(1, 65_536)]
    (work / "flight.ch11.json").write_text(json.dumps({**known, "interfaces": names}))
    done = outcome(*CHAPTER11, recording, "out", env=env, cwd=work)
    found = tomllib.loads((work / "setup").read_text())["channel"]
    judge("the channels of the recording", done.returncode == 0 and [it["id"] for it in found] == [1], found[:3])
    origins = [{"counter": it, "origin": f"1764590400.{it:09}", "set_by": None} for it in range(65_537)]
    (work / "flight.ch11.json").write_text(json.dumps({**known, "origins": origins}))
    done = outcome(*CHAPTER11, "--print-setup", recording, env=env)
    line = f"bpfrec export: {recording}.json: 65537 origins, and SETUP takes 65536 at most\n"
    judge("too many origins", (done.returncode, done.stderr) == (1, line), done)


def test_an_adapters_clock_whose_scale_is_not_said_is_told(work: Path) -> None:
    recording = Path(shutil.copy(SAMPLES[1], work / "flight.ch11"))
    for clock, has_scale in (("adapter", False), ("adapter", True), ("host", False)):
        origin = {
            "origin": "1764590400.250000000",
            "counter": 0,
            "set_by": None,
            **({"scale": "UTC"} if has_scale else {}),
        }
        (work / "flight.ch11.json").write_text(json.dumps({**facts_of_run([]), "clock": clock, "origins": [origin]}))
        line = (
            f"bpfrec export: {recording}.json: nothing says which time the adapter's clock ran, and it counts as UTC\n"
        )
        done = outcome(*CHAPTER11, "--print-setup", recording, env={**os.environ, "BPFREC": "/none"})
        is_due = clock == "adapter" and not has_scale
        judge(f"{clock} {has_scale}", (done.returncode, done.stderr) == (0, line if is_due else ""), done)
