"""SETUP of whole Chapter 11 files, as bpfrec export makes it of the facts beside a recording."""

import json
import os
from pathlib import Path
from typing import Any

import tomllib
from expected_facts import facts_of_run
from support import EXPORT, judge_quietly, outcome

CHAPTER11 = (EXPORT, "--as=chapter11")


def with_facts(recording: Path, origins: list, **more: Any) -> Path:
    """Has these origins, and more, in the facts beside a recording."""
    beside = recording.with_name(recording.name + ".json")
    beside.write_text(json.dumps({**facts_of_run(origins), **more}))
    return beside


def setup_by(recording: Path, *words: object) -> dict[str, Any]:
    """SETUP, as it is printed and read by TOML's rules."""
    done = outcome(*CHAPTER11, "--print-setup", *words, recording, env={**os.environ, "BPFREC": "/none"})
    judge_quietly("it is printed", (done.returncode, done.stderr) == (0, ""), done)
    return tomllib.loads(done.stdout)
