#!/usr/bin/env python3
"""Checks that the examples are what the tests run.

A program's test reads only files of its crate's own folder, and rt takes no links, so these files stand twice and must
be the same to the byte. The status is 1 where something differs.
"""
import argparse
import sys
from collections.abc import Iterator
from pathlib import Path

ROOT = Path(__file__).resolve().parents[2]
EXAMPLES, DATA = ROOT / "examples", ROOT / "crates" / "test_cases" / "data"
# Each example with the copy that is tested.
COPIES = {
    EXAMPLES / "arp.txt": DATA / "arp",
    EXAMPLES / "arp_frame.txt": ROOT / "crates" / "bpfrec" / "stdin",
    EXAMPLES / "jump_out.txt": DATA / "jump_out",
    EXAMPLES / "old.ch11": DATA / "recordings" / "two_versions.ch11",
    EXAMPLES / "changed_filter.script": DATA / "scripts" / "changed_filter.script",
    EXAMPLES / "full_ring.script": DATA / "scripts" / "full_ring.script",
}


def names_in(folder: Path) -> set[Path]:
    return {it.relative_to(folder) for it in folder.rglob("*") if it.is_file()}


def copies() -> dict[Path, Path]:
    """Each example with the copy that is tested, the filters too."""
    filters = names_in(EXAMPLES / "filters") | names_in(DATA / "filters")
    return {**COPIES, **{EXAMPLES / "filters" / it: DATA / "filters" / it for it in sorted(filters)}}


def differing() -> Iterator[str]:
    """Each example that isn't its copy, or has none."""
    for example, copy in copies().items():
        if not (example.exists() and copy.exists() and example.read_bytes() == copy.read_bytes()):
            yield f"{example.relative_to(ROOT)} and {copy.relative_to(ROOT)} differ"


def main() -> int:
    argparse.ArgumentParser(description=__doc__, formatter_class=argparse.RawDescriptionHelpFormatter).parse_args()
    faults = list(differing())
    print("\n".join(faults) or "the examples are those that the tests run")
    return 1 if faults else 0


if __name__ == "__main__":
    sys.exit(main())
