#!/usr/bin/env python3
"""One step of a build or of a test run.

  library   proves CRATE and leaves what the crates above it read
  program   proves the program, builds it at out/CRATE and runs it on its stored input
  twice     the same as two compilers build it, each run
  tests     proves CRATE with its tests, builds them and runs each
  tried     compiles CRATE's tests, or a program that is not shipped, with checks and WITHOUT proof, and runs it as
            `tests` and `program` do: an overflow, an index out of bounds or what is never reached ends it
  edits     tries the crate's edits of the part WORDS, as 2/3; the prover must refuse each

What was never proved here is proved as a whole, and of a library the crates above it read what it states
alone: that is quickest. What was proved before, or a library whose edits are to be tried (--keep), is
proved over kept work, some functions at a time; but what two compilers build is proved as a whole each time.

The status is 0 where all is proved, passed and refused. What the toolchain's own gate holds a crate to
beside its proof is held here too. dev/build/build.py and dev/build/test.py start this; it takes no lock.
"""
import argparse
import glob
import os
import re
import shutil
import sys
import tempfile
from collections.abc import Callable, Iterator
from typing import Any, Optional

from groups import grouped, tried_together
from repository import crates, edits_of, hash_of, toolchain
from steps import Step
from unproved import compiled

rt = toolchain()
rtlib = rt.rtlib
# The verdicts of a try that the merge gate takes for a refusal: by name, or true in toolchains without names.
REFUSED = (True, getattr(rt, "REFUSED", True), getattr(rt, "AT_LIMIT", True))
# What the last line of a proof over kept work has more than one from nothing.
KEPT = " incremental=trusted"
# Has a proof look for contracts that no call can meet, so that any body would do: of tests and programs
# with each proof, of libraries when their edits are tried.
LOOKS_FOR_EMPTY = "--empty-contracts"
# What each build of code takes beside a check's words.
TOOLCHAIN = ["--toolchain", f"{rtlib.KIT}/toolchain"]


class Printed:
    """Standard output, with all that was written to it."""

    def __init__(self) -> None:
        self.text = ""

    def write(self, text: str) -> int:
        self.text += text
        return sys.stdout.write(text)

    def flush(self) -> None:
        sys.stdout.flush()

    def fileno(self) -> int:
        self.flush()
        return sys.stdout.fileno()


def text_faults(crate: Any) -> Iterator[str]:
    """What the text of a crate may not have, whatever its proof says."""
    code = rtlib.code_of(crate.folder)
    reached = [it for it, words in rt.REACHES.items() if it not in crate.allowed and re.search(words, code)]
    if reached:
        yield f"it names what only the handle {reached[0]} reaches, which HANDLES doesn't allow"
    if re.search(rt.RENAMES, code):
        yield "it renames std, or takes it whole"
    if re.search(rt.IGNORED, code):
        yield "it has a test under #[ignore]"
    if rtlib.fmt(crate.folder, "--check", crate.out):
        yield "its files are not laid out: run rt fmt in its folder"
    rtlib.stop_on_links(crate.folder)
    rtlib.stop_on_text(crate, "verdict")
    rt.stop_on_words(crate)


def proof_faults(crate: Any, printed: str, tests: bool) -> Iterator[str]:
    """What a proof may not have said, beside that the crate is proved."""
    last = ([it for it in printed.split("\n") if it.startswith("logic=")] or [""])[-1]
    if rtlib.chose_a_term(printed, crate.makes_rlib() and not tests):
        yield "a tactic chose a term that a contract may read"
    if rtlib.swallows_text(printed):
        yield "a macro call may hide text that only looks like code"
    if {it.name for it in [crate, *crate.below()]} & rtlib.writers_of_impls(printed):
        yield "a macro of this repository writes an impl"
    if rtlib.CATCHES_ALL.search(printed):
        yield "a pattern in a clause or a definition matches every value"
    if any(crate.says_search(*it) for it in rtlib.FILLED_IN.findall(printed)):
        yield "a clause or a definition calls a tactic"
    if not rtlib.VERDICT.search(last.replace(KEPT, "") + "\n"):
        yield f"the last line has a word that no verdict may rest on: {last}"
    if " bugs=" in last:
        yield "the check refused, or could not finish, a part of what the toolchain generated"
    beyond = crate.other_bounds(last) if tests else crate.miscounted(last)
    if beyond:
        yield beyond
    empty = empty_contract(printed)
    if empty:
        yield empty


def empty_contract(printed: str) -> Optional[str]:
    """What a proof said of a contract that no call can meet, if it found one."""
    found = rtlib.EMPTY.search(printed)
    return found and printed[found.start() :].split("\n", 1)[0]


def judged(crate: Any, status: int, tests: bool = False) -> int:
    """The status of a proof, 1 where the crate or what was printed of it has a fault."""
    if status:
        return status
    faults = [*([] if tests else text_faults(crate)), *proof_faults(crate, crate.out.text, tests)]
    for fault in faults:
        print(f"rt: {crate.name}: {fault}")
    return 1 if faults else 0


def library(crate: Any, flags: list[str], words: list[str]) -> int:
    if Step("library", crate.name).is_done():  # only the kept work is lacking
        return crate.call(rtlib.RATTLE, "check", *crate.words(flags), *rtlib.KEPT)
    # what was built by hand was not judged: it is built once more, over what that run kept
    shutil.rmtree(f"{crate.folder}/out/rlib", ignore_errors=True)
    if is_first("library", crate) and "--keep" not in words:
        return whole(crate, flags)
    return judged(crate, crate.build_rlib(flags, anew=False))


def is_first(kind: str, crate: Any) -> bool:
    """Whether such a step of a crate was never done here."""
    return not glob.glob(f"{crate.folder}/out/{kind}-*.done") and not crate.has_kept()


def whole(crate: Any, flags: list[str]) -> int:
    """Proves a library from nothing, and leaves its statements without its proofs: the status."""
    stamp, words = crate.stamp(), crate.words(flags, keeps=False)
    os.makedirs(f"{crate.folder}/out/rlib", exist_ok=True)
    # in one go: a check that shows each function, and a build over it, read the crate and its libraries twice
    status = judged(crate, crate.call(rtlib.RATTLE, "build", *words, "--statements", "-o", crate.rlib))
    if not status and stamp == crate.stamp():
        with open(f"{crate.folder}/out/rlib/stamp", "w", encoding="utf-8") as file:
            file.write(stamp)
    return status


def built(kind: str, crate: Any, flags: list[str], made: str, is_tests: bool = False) -> int:
    """Proves and builds a program, or a crate's tests: the status."""
    flags = [*flags, "--backend", "llvm", *["--test", LOOKS_FOR_EMPTY] * is_tests]
    if is_first(kind, crate):
        # in one go: processes that check some functions each read all libraries anew
        words = [*crate.words(flags, is_tests, keeps=False), *TOOLCHAIN]
        status = crate.call(rtlib.RATTLE, "build", *words, "-o", f"{made}.o")
    else:
        status = crate.compile(flags, f"{made}.o", is_tests)
    return judged(crate, status or crate.link(f"{made}.o", made), is_tests)


def program(crate: Any, flags: list[str], _words: list[str]) -> int:
    status = built("program", crate, flags, f"out/{crate.name}")
    return status or (0 if rt.run(crate, False) else 1)


def twice(crate: Any, flags: list[str], _words: list[str]) -> int:
    """Proves a program as a whole, since no proof over kept work can be handed on, and builds it by both
    compilers from that proof."""
    words = crate.words(flags, keeps=False)
    with tempfile.TemporaryDirectory(dir=f"{crate.folder}/out") as proof:
        checked = crate.call(rtlib.RATTLE, "check", *words, LOOKS_FOR_EMPTY, "-o", f"{proof}/checked")
        status = judged(crate, checked)
        for option in ("--logic-built", "--jobs"):  # a build that takes a proof takes neither
            del words[words.index(option) : words.index(option) + 2]
        for backend, ending in rt.BACKENDS.items():
            made, by = f"out/{crate.name}{ending}", ["--backend", backend, *TOOLCHAIN]
            build = ["build", *words, *by, "--crate-checked", f"{proof}/checked", "-o", f"{made}.o"]
            status = status or crate.call(rtlib.RATTLE, *build) or crate.link(f"{made}.o", made)
            status = status or (0 if rt.run(crate, False, ending) else 1)
    return status


def tests(crate: Any, flags: list[str], _words: list[str]) -> int:
    status = built("tests", crate, flags, f"out/{crate.name}_tests", is_tests=True)
    return status or (0 if rt.run(crate, True) else 1)


def tried(crate: Any, flags: list[str], _words: list[str]) -> int:
    is_tests = not crate.is_program
    made = f"{crate.folder}/out/{crate.name}{'_tests' * is_tests}"
    could, said = compiled(crate, made, is_tests, int(flags[1]))
    if not could:
        print(said)
    if not could or text_fault(crate):
        return 1
    return 0 if rt.run(crate, is_tests) else 1


def text_fault(crate: Any) -> bool:
    """Whether the text of tests has what it may not have; it is told."""
    faults = list(text_faults(crate))
    for fault in faults:
        print(f"rt: {crate.name}: {fault}")
    return bool(faults)


def verdicts_of(crate: Any, mine: list[str], flags: list[str], kept: str) -> dict[str, tuple[Any, str]]:
    """Tries edits, some in one check and the others alone: each with its verdict and what to say."""
    found: dict[str, tuple[Any, str]] = {}
    for group in grouped(crate.folder, mine):
        together = tried_together(crate, group, flags, kept)
        found.update({edit: (REFUSED[1], text) for edit, text in together.items()})
        for edit, _ in group:
            if edit not in found:
                found[edit] = rt.must_fail(crate, edit, flags, kept)
        print(f"so far: {len(found)} of {len(mine)} edits tried", flush=True)
    return found


def edits(crate: Any, _flags: list[str], words: list[str]) -> int:
    """Tries a part of the crate's edits, over the work of those before them, which begins with what the
    crate's own proof keeps; with the first part, whether a contract is one that no call can meet."""
    part, parts = map(int, words[0].split("/"))
    good, bad = edits_of(crate.name)
    for bad_edit in bad:
        print(f"rt: {bad_edit}: BAD EDIT: an edit stands right in must-fail/ and its name ends in .edit")
    mine, flags, refused = good[part - 1 :: parts], ["--jobs", "1"], 0
    with tempfile.TemporaryDirectory(prefix="rt-edits-") as room:
        kept = f"{room}/kept"
        shutil.copytree(f"{crate.folder}/out/incremental", kept)
        verdicts = verdicts_of(crate, mine, flags, kept)
        whole = rt.checked(crate, {}, [*flags, *[LOOKS_FOR_EMPTY] * (part == 1)], kept)
    for edit in mine:
        verdict, text = verdicts[edit]
        if verdict not in REFUSED or whole.returncode:
            verdict, text = rt.must_fail(crate, edit, flags)
        print(f"rt: {text}", flush=True)
        refused += verdict in REFUSED
    empty = empty_contract(whole.stdout)
    if empty:
        print(f"rt: {crate.name}: {empty}")
    return 0 if refused == len(mine) and not bad and not empty else 1


def main() -> int:
    kinds: dict[str, Callable[[Any, list[str], list[str]], int]] = {
        "library": library,
        "program": program,
        "twice": twice,
        "tests": tests,
        "tried": tried,
        "edits": edits,
    }
    parser = argparse.ArgumentParser(description=__doc__, formatter_class=argparse.RawDescriptionHelpFormatter)
    parser.add_argument("kind", choices=kinds, metavar="KIND")
    parser.add_argument("crate", choices=crates(), metavar="CRATE")
    parser.add_argument("jobs", metavar="JOBS", help="how many processes may work on it")
    parser.add_argument("words", nargs="*", metavar="WORDS")
    parser.add_argument("--keep", action="store_true", help="over kept work")
    arguments = parser.parse_args()
    kind, name, is_edits = arguments.kind, arguments.crate, arguments.kind == "edits"
    words = [*arguments.words, *["--keep"] * arguments.keep]
    crate = crates()[name]
    before = hash_of(name, is_edits)
    os.makedirs(f"{crate.folder}/out", exist_ok=True)
    crate.out = Printed()
    status = kinds[kind](crate, ["--jobs", arguments.jobs], words)
    hash_of.cache_clear()
    if not status and hash_of(name, is_edits) == before:
        Step(kind, name, [it for it in words if it != "--keep"]).done.write_text(before)
    return status


if __name__ == "__main__":
    sys.exit(main())
