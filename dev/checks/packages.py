#!/usr/bin/env python3
"""Checks that dev/package/packages.txt has the package of each program that tests and trials mark as wanted."""
import argparse
import re
import sys
from collections.abc import Iterator
from pathlib import Path

ROOT = Path(__file__).resolve().parents[2]
LIST = ROOT / "dev" / "package" / "packages.txt"
sys.path.insert(0, str(ROOT / "dev/trials/lib"))
from support import BUILT, PACKAGES, ROOT_USER


def wanted() -> Iterator[tuple[str, Path]]:
    """The package of each program that a file wants, with the file."""
    for file in sorted(it for folder in ("dev", "host", "capture") for it in (ROOT / folder).rglob("*.py")):
        for marked in re.findall(r"pytest\.mark\.wanted\((.*?)\)", file.read_text(), re.DOTALL):
            for name in set(re.findall(r'"(.+?)"', marked)) - {*BUILT, ROOT_USER}:
                yield PACKAGES.get(name, name), file.relative_to(ROOT)


def main() -> int:
    argparse.ArgumentParser(description=__doc__, formatter_class=argparse.RawDescriptionHelpFormatter).parse_args()
    names = {line.split(":")[0] for line in LIST.read_text().splitlines() if line and line[0] != "#"}
    faults = [f"{script}: {it} isn't in {LIST.relative_to(ROOT)}" for it, script in wanted() if it not in names]
    print("\n".join(faults) or f"{len(names)} packages, with all that trials want")
    return 1 if faults else 0


if __name__ == "__main__":
    sys.exit(main())
