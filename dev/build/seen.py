"""Which crates' edits were all seen refused, by the sums of what they depend on, and the order in which the others are
tried.

An edit is refused because a search for a proof fails, so it depends on the files of its crate, on what the crates
below state (stated.py: no body and no proof), on the prover, and on the libraries of the toolchain that the crate
reaches. A toolchain that differs in nothing of this has another version and the same sums.
"""
import functools
import hashlib
import os
import subprocess
from collections.abc import Iterable
from pathlib import Path
from typing import NamedTuple

from repository import EDITS, READ, ROOT, below, crates, libraries, line_of, table_in, toolchain, version
from stated import stated_sum
from steps import Step

SEEN = ROOT / "dev" / "build" / "edits_seen.txt"
# The crates whose edits the last run on this machine had no time for.
LEFT = Path(os.environ.get("XDG_CACHE_HOME") or Path.home() / ".cache") / "bpfrec" / "edits_left.txt"
HEAD = """\
# written by dev/build/test.py and dev/build/gate.py alone: crates whose edits were all seen refused. A crate, the sum of all that its
# edits depend on, that of its own files, and the toolchain that refused them
"""


class Sums(NamedTuple):
    """What a crate's edits were refused on: the sum of all that they depend on, that of the crate's own files, and the
    toolchain by its name, which is told alone."""

    all: str
    own: str
    kit: str


@functools.lru_cache(maxsize=None)
def prover() -> str:
    """A sum of the prover's program."""
    return toolchain().rtlib.sum_of(f"{toolchain().rtlib.KIT}/bin/rattle")


@functools.lru_cache(maxsize=None)
def prover_of(name: str) -> str:
    """A sum of the prover and of the toolchain's libraries that a crate reaches, each by its file `format`, which names
    the prover's build and holds a sum of the library."""
    names = {"core", "std", *(library for it in [*below(name), name] for library in crates()[it].of_kit)}
    formats = [Path(toolchain().rtlib.KIT, "rlibs", f"{it}.rlib", "format").read_bytes() for it in sorted(names)]
    return hashlib.sha256(repr((formats, prover())).encode()).hexdigest()


@functools.lru_cache(maxsize=None)
def own_sum(name: str) -> str:
    """A sum of the files of a crate that its edits read, and of its line of crates.txt."""
    found = hashlib.sha256(line_of(name).encode())
    for file in sorted((ROOT / "crates" / name).rglob("*")):
        inside = file.relative_to(ROOT / "crates" / name)
        if file.is_file() and inside.parts[0] in (*READ, EDITS):
            found.update(repr((str(inside), file.read_bytes())).encode())
    return found.hexdigest()


@functools.lru_cache(maxsize=None)
def sum_below(name: str) -> str:
    """A sum of what a crate states to those above it."""
    return stated_sum(name, ROOT / "crates" / name)


def sums_of(name: str) -> Sums:
    """The sums of a crate's edits as the files are now."""
    own = own_sum(name)
    found = hashlib.sha256(repr((own, prover_of(name))).encode())
    for crate in below(name):
        found.update(sum_below(crate).encode())
    return Sums(found.hexdigest(), own, version().split()[0])


def forget() -> None:
    """Has the sums computed anew, of the files as they are by then."""
    own_sum.cache_clear()
    sum_below.cache_clear()


def seen(file: Path = SEEN) -> dict[str, Sums]:
    """The crates whose edits were all seen refused, with their sums."""
    return {name: Sums(*row) for name, row in table_in(file).items()}


def unseen() -> list[str]:
    """The libraries whose edits were not all seen refused on what they depend on now."""
    known = seen()
    return [it for it in libraries() if it not in known or known[it].all != sums_of(it).all]


def write_seen(sums: dict[str, Sums]) -> None:
    """Writes these crates' sums beside those of the others, and drops crates that are gone."""
    kept = {name: found for name, found in {**seen(), **sums}.items() if name in crates()}
    SEEN.write_text(HEAD + "".join(f"{name} {' '.join(kept[name])}\n" for name in sorted(kept)))


def keep_seen(tried: Iterable[Step]) -> None:
    """Writes the sums of the crates whose edits were all refused, of the steps that try edits."""
    ended = [(it.crate, it.is_done()) for it in tried]
    failed = {crate for crate, is_well in ended if not is_well}
    write_seen({crate: sums_of(crate) for crate, _ in ended if crate not in failed})


def in_turn(names: Iterable[str]) -> list[str]:
    """Crates in the order in which their edits are tried where time may run out: first those that the last run had no
    time for, then in an order that each commit draws anew."""
    words = ["git", "rev-parse", "HEAD"]
    head = subprocess.run(words, cwd=ROOT, text=True, stdout=subprocess.PIPE, stderr=subprocess.DEVNULL).stdout
    before = LEFT.read_text().split() if LEFT.exists() else []
    return sorted(names, key=lambda name: (name not in before, hashlib.sha256(f"{head} {name}".encode()).digest()))


def write_left(names: Iterable[str]) -> None:
    """Keeps the names of the crates whose edits a run had no time for. Where that can't be done, the next run draws."""
    try:
        LEFT.parent.mkdir(parents=True, exist_ok=True)
        LEFT.write_text("".join(f"{it}\n" for it in names))
    except OSError:
        pass
