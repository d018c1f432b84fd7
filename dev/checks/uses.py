#!/usr/bin/env python3
"""Checks that each crate uses every library that its line of crates.txt names.

A crate uses a library where a file of its src/ has a path that begins with the library's name, or where
a file of it names a definition or a proof as Rattle.NAME. What a crate names brings its modules to each
proof of the crate, and the crate is proved again when it changes. It prints each word that isn't used as
CRATE: LIBRARY, and the status is 1 where there is one.
"""
import argparse
import re
import sys
from collections.abc import Iterator
from pathlib import Path

ROOT = Path(__file__).resolve().parents[2]


def lines() -> Iterator[tuple[str, list[str]]]:
    """Each crate of crates.txt with the libraries that its line names."""
    for line in (ROOT / "crates.txt").read_text().split("\n"):
        head, colon, named = line.split("#")[0].partition(":")
        if colon:
            yield head.split()[0], named.split()


def uses(crate: str, library: str) -> bool:
    """Whether a file of the crate names the library."""
    path = re.compile(rf"(?<![\w:]){library}::|\buse {library};|Rattle\.{library}\.")
    files = (ROOT / "crates" / crate).glob("*/**/*")
    return any(
        path.search(file.read_text())
        for file in files
        if file.suffix in (".rt", ".antt") and "out" not in file.relative_to(ROOT).parts
    )


def main() -> int:
    argparse.ArgumentParser(description=__doc__, formatter_class=argparse.RawDescriptionHelpFormatter).parse_args()
    unused = [(crate, it) for crate, named in lines() for it in named if not uses(crate, it)]
    for crate, library in unused:
        print(f"{crate}: {library} is named in crates.txt, and no file of the crate uses it")
    if not unused:
        print("each crate uses what its line of crates.txt names")
    return 1 if unused else 0


if __name__ == "__main__":
    sys.exit(main())
