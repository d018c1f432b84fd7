#!/usr/bin/env python3
"""Checks that each caller on a crate's page is one that is proved, and that each that is proved stands on a page.

A block of code of a page's section "A caller" must be a file of crates/test_callers/src/ without its first
lines, which say whose caller it is, or stand in the program's own src/main.rt. The status is 1 where a
block or a file has no other half.
"""
import argparse
import re
import sys
from collections.abc import Iterator
from pathlib import Path

ROOT = Path(__file__).resolve().parents[2]
CALLERS = ROOT / "crates/test_callers/src"
MAIN = ROOT / "crates/bpfrec/src/main.rt"


def blocks() -> Iterator[tuple[Path, str]]:
    """The blocks of code of the pages' sections, each with its page."""
    for page in sorted((ROOT / "crates").glob("*/README.md")):
        section = page.read_text().partition("\n## A caller\n")[2].partition("\n## ")[0]
        for block in re.findall(r"```rust\n(.*?)```\n", section, re.DOTALL):
            yield page, block


def callers() -> dict[Path, str]:
    """The files of callers, each with its text behind the lines that say whose it is."""
    files = [it for it in sorted(CALLERS.glob("*.rt")) if it.stem != "lib"]
    return {it: re.sub(r"\A(//!.*\n)+\n", "", it.read_text()) for it in files}


def main() -> int:
    argparse.ArgumentParser(description=__doc__, formatter_class=argparse.RawDescriptionHelpFormatter).parse_args()
    proved, found, status = callers(), list(blocks()), 0
    for page, block in found:
        if block not in proved.values() and block not in MAIN.read_text():
            what = f"its caller of {len(block.splitlines())} lines"
            print(f"{page.relative_to(ROOT)}: {what} is no file of crates/test_callers/src")
            status = 1
    for file, text in proved.items():
        if text not in [block for _, block in found]:
            print(f"{file.relative_to(ROOT)}: no page has this caller")
            status = 1
    return status


if __name__ == "__main__":
    sys.exit(main())
