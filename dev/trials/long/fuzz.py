#!/usr/bin/env python3
"""Runs the built program on drawn and damaged inputs of every kind, and keeps each case that it
answers in a way that docs/user/formats/ doesn't have.

PROGRAM is bin/bpfrec, which `make build` makes. Without --seconds it runs for 60 seconds, with --files
until that many different inputs were drawn and run, without --seed from seed 1; a case with its answer
goes to FOLDER (bin/fuzz), and the status is 1 if there is one.
Each run has an address space of a gibibyte and 20 seconds. A case is kept where the program

- is ended by a signal, or takes longer;
- answers a status, or a line on one of its two outputs, that its command doesn't have;
- takes over two megabytes more memory than on an empty file; a recording than of the same settings with
  empty feeds;
- disagrees with itself: `asm` and `dis` of a program, `verify` and `run`, `list` with `extract`, with
  `audit`, with `export` and with `upgrade`, `record` and `simulate` of the same frames.

It wants `prlimit` and GNU `time`.
"""
import argparse
import os
import random
import sys
import tempfile
import time
from collections.abc import Callable, Iterator
from pathlib import Path

sys.path.insert(0, str(Path(__file__).resolve().parents[1] / "lib"))
from fuzz_answers import Answer, Case, Run, Runner, Wrong
from fuzz_fixed import fixed
from fuzz_inputs import Corpus
from fuzz_programs import listings, texts
from fuzz_readings import recordings
from fuzz_recorder import feeds, scripts, settings
from support import BPFREC, ROOT

Kind = Callable[[Run, random.Random, Corpus], None]
KINDS: list[Kind] = [texts, listings, recordings, feeds, scripts, settings]


def kinds_in_turn(words: argparse.Namespace, draw: random.Random, runner: Runner) -> Iterator[Kind]:
    """The fixed inputs, unless inputs are counted; then drawn kinds, until the time is over or as many inputs as are wanted
    were run."""
    if not words.files:
        yield fixed
    end = time.monotonic() + words.seconds
    while len(runner.inputs) < words.files if words.files else time.monotonic() < end:
        yield draw.choice(KINDS)


def search(words: argparse.Namespace) -> tuple[dict[str, int], int]:
    """Tries cases: how many runs of each kind, and how many cases were kept."""
    corpus, draw, kept = Corpus(), random.Random(words.seed), 0
    runs = dict.fromkeys((kind.__name__ for kind in ([] if words.files else [fixed]) + list(KINDS)), 0)
    with tempfile.TemporaryDirectory() as name:
        runner = Runner(str(Path(words.program).resolve()), Path(name))
        for kind in kinds_in_turn(words, draw, runner):
            last: list[Case] = []

            def run(case: Case) -> Answer:
                last[:] = [case]
                runs[kind.__name__] += 1
                return runner.answer(case)

            try:
                kind(run, draw, corpus)
            except Wrong as wrong:
                kept += 1
                keep_case(words.keep / f"{words.seed}_{kept}", last[0], str(wrong))
                print(f"{kind.__name__}: {' '.join(last[0].words)}: {str(wrong).splitlines()[0]}", flush=True)
        over = ", ".join(f"{command or 'no words'} {kib}" for command, kib in sorted(runner.over.items()))
        print(f"{len(runner.inputs)} inputs; KiB of memory over those on an empty file, at most: {over}")
    return runs, kept


def keep_case(folder: Path, case: Case, said: str) -> None:
    folder.mkdir(parents=True, exist_ok=True)
    (folder / "answer").write_text(f"{' '.join(['bpfrec', *case.words])}\n{said}\n")
    (folder / "input").write_bytes(case.input)
    for name, content in case.files.items():
        (folder / f"file_{name}").write_bytes(content)


def main() -> None:
    parser = argparse.ArgumentParser(description=__doc__, formatter_class=argparse.RawDescriptionHelpFormatter)
    parser.add_argument("--seed", type=int, default=1)
    parser.add_argument("--seconds", type=int, default=60)
    parser.add_argument("--files", type=int, default=0)
    parser.add_argument("--keep", type=Path, default=ROOT / "bin/fuzz")
    parser.add_argument("program", nargs="?", default=str(BPFREC))
    words = parser.parse_args()
    if not os.access(words.program, os.X_OK):
        sys.exit(f"{words.program} is not there: run `make build` first")
    runs, kept = search(words)
    told = ", ".join(f"{name} {count}" for name, count in runs.items())
    until = f"{words.files} inputs" if words.files else f"{words.seconds} seconds"
    print(f"seed {words.seed}, {until}, {sum(runs.values())} runs ({told}), {kept} kept")
    sys.exit(1 if kept else 0)


if __name__ == "__main__":
    main()
