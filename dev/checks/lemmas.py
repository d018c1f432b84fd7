#!/usr/bin/env python3
"""Checks definitions, clauses and proofs: lines of definitions and clauses have 100 columns at most, those of proofs
160, and a file of lemmas has a name of its own.

A line with a text is as long as that. A name of a file of lemmas that stands in two crates says of neither what it serves. The status is 1 where a line is too
long or a name stands twice.
"""
import argparse
import re
import sys
from collections import defaultdict
from collections.abc import Iterator
from pathlib import Path

ROOT = Path(__file__).resolve().parents[2]
# The most columns of lines of definitions and of clauses, and of those of proofs.
OF_CLAUSES, OF_PROOFS = 100, 160
# What a line of code has only in a clause.
IN_CLAUSES = re.compile("[→≡≢≤×λ]")


def long_lines() -> Iterator[str]:
    """Each line that is too long, by its place, with its columns."""
    for pattern, most in (
        ("specs/**/*.antt", OF_CLAUSES),
        ("proofs/**/*.antt", OF_PROOFS),
        ("src/**/*.rt", OF_CLAUSES),
    ):
        for file in sorted(ROOT.glob(f"crates/*/{pattern}")):
            for at, line in enumerate(file.read_text().splitlines(), 1):
                if len(line) > most and '"' not in line and (file.suffix == ".antt" or is_of_clause(line)):
                    yield f"{file.relative_to(ROOT)}:{at}: {len(line)} columns"


def is_of_clause(line: str) -> bool:
    """Whether a line of code is of a clause, and imports nothing for one."""
    return IN_CLAUSES.search(line) is not None and not line.lstrip().startswith(("ghost use", "//"))


def shared_names() -> list[str]:
    """Each name of a file of lemmas that stands in several crates, with these."""
    crates = defaultdict(list)
    for file in sorted(ROOT.glob("crates/*/proofs/*.antt")):
        if file.stem != "Lib":
            crates[file.stem].append(file.parts[-3])
    return [f"proofs/{name}.antt stands in {', '.join(it)}" for name, it in crates.items() if len(it) > 1]


def main() -> int:
    argparse.ArgumentParser(description=__doc__, formatter_class=argparse.RawDescriptionHelpFormatter).parse_args()
    faults = [*long_lines(), *shared_names()]
    print("\n".join([*faults, f"{len(faults)} lines too long, or names of lemma files that stand twice"]))
    return 1 if faults else 0


if __name__ == "__main__":
    sys.exit(main())
