#!/usr/bin/env python3
"""Lists what nothing uses, and words that mean two things: to be taken out, or named apart.

- A definition or a lemma of specs/ or proofs/ is used where an item other than itself names it, in any
  crate; an import alone is no use.
- A definition of specs/ is there for a clause: code names it, or a definition that is needed so. What proofs alone
  name stands in proofs/.
- A public function, type or trait of a library is used where another file names it, tests and `bench` left out;
  laws, which run nothing, are no calls, and OFFERED has those that are there for others.
- A public word of specs/ stands in one crate: of one that stands in two, each reader of a clause would
  have to look which is meant.

It prints each as FILE:LINE NAME with the reason, and the status is 1 where there is one.
"""
import argparse
import re
import sys
from collections import defaultdict
from collections.abc import Iterator
from pathlib import Path

sys.path.insert(0, str(Path(__file__).resolve().parents[1] / "build"))
from repository import ROOT, crates, is_program

# An item of specs/ or proofs/: its file, its line, its name, whether it is public, its words; the words of each file of
# code; what is reported.
Item = tuple[Path, int, str, bool, set[str]]
Code = list[tuple[Path, set[str]]]
Place = tuple[Path, int, str]
WORD = re.compile(r"[^\W\d][\w'-]*")
ITEM = re.compile(
    r"(?:pub |abbrev |unfoldable |record |data |mutual )*(?!module\b|ruleset\b|abbrev\b)([^\W\d][\w'-]*)(?= |$)[^=]*:"
)
# A further clause of an item.
CLAUSE = re.compile(r"(?!(?:module|ruleset|abbrev|pub)\b)([^\W\d][\w'-]*) [^:]*=")
# What begins a line of a file of definitions that is no item.
OTHER_LINES = ("use ", "pub use ", "pub mod ", "mod ", "infix", "--")
# The files of proofs whose items the prover names itself.
GOALS = ("Answers", "Invariants", "Proof", "Checks")
CALL = re.compile(r"^ *pub (?:(?:const )?fn|struct|enum|trait|type) (\w+)")
# What is there for tests, pages and measurements alone.
FOR_TESTS = {"test_samples", "test_callers", "test_whole", "test_buffers", "test_theorem", "bench"}
# Public calls that the program makes no use of, and what they are there for.
OFFERED = {
    "run_world": "the core, driven by a list of events: the theorem is stated of it",
    "frame_at": "a single frame of a body, for a reader that wants no others",
    "into_before": "the packets before a fault, for a reader of a recording that is held whole",
    "check_path": "whether a path that the verifier names shows its fault, for who doubts it",
    "knows": "whether a writer has a channel, for who gives it pieces of several",
    "RecordFault": "the fault of a call; who calls it has no word for it",
    "UpgradeFault": "the fault of a call; who calls it has no word for it",
    "NoMemory": "the fault of a call; who calls it has no word for it",
}


def items_of(file: Path) -> dict[str, tuple[int, bool, set[str]]]:
    """The items of a file of definitions or lemmas: each name with its line, whether it is public, and
    the words of its text. What has no name, as a ruleset or a module, has its line in place of one."""
    found: dict[str, tuple[int, bool, set[str]]] = {}
    name = ""
    for at, line in enumerate(file.read_text().split("\n"), 1):
        if line.startswith(OTHER_LINES) or not line.strip():
            continue
        if not line[0].isspace() and line[0] not in ")}":
            head = ITEM.match(line) or CLAUSE.match(line)
            name = head[1] if head else f"line {at}"
            found.setdefault(name, (at, "pub " in line, set()))
        if name:
            found[name][2].update(WORD.findall(line.split(" -- ")[0]))
    return found


def definitions() -> Iterator[Item]:
    """Each item of specs/ and proofs/."""
    for part in ("specs", "proofs"):
        for file in sorted(ROOT.glob(f"crates/*/{part}/**/*.antt")):
            for name, (at, is_public, words) in items_of(file).items():
                yield file, at, name, is_public, words


def code_words() -> Iterator[tuple[Path, set[str]]]:
    """The words of each file of code, without comments and imports."""
    for file in sorted(ROOT.glob("crates/*/src/**/*.rt")):
        text = "\n".join(line.split("//")[0] for line in file.read_text().split("\n"))
        text = re.sub(r"(?s)\b(?:ghost )?(?:pub )?use [^;]*;", "", text)
        yield file, set(WORD.findall(text))


def crate_of(file: Path) -> str:
    return file.relative_to(ROOT).parts[1]


def unused_definitions(items: list[Item], code: Code) -> Iterator[Place]:
    """The items that no other item and no code names."""
    named: dict[str, set[tuple[Path, str]]] = defaultdict(set)
    for file, _, name, _, words in items:
        for word in words:
            named[word].add((file, name))
    in_code = {word for _, words in code for word in words}
    for file, at, name, _, _ in items:
        if file.stem in GOALS or name.startswith("line ") or name in in_code:
            continue
        if not named[name] - {(file, name)}:
            yield file, at, name


def unneeded_definitions(items: list[Item], code: Code) -> Iterator[Place]:
    """The items of specs/ that no clause needs, though proofs name them. What has no name of its own is needed."""
    known = {word for _, words in code for word in words}
    left = [item for item in items if "specs" in item[0].parts]

    def is_needed(item: Item) -> bool:
        return item[2] in known or item[2].startswith("line ")

    while needed := [item for item in left if is_needed(item)]:
        left = [item for item in left if not is_needed(item)]
        known.update(*(words for *_, words in needed))
    for file, at, name, *_ in left:
        yield file, at, name


def unused_calls(code: Code) -> Iterator[Place]:
    """What libraries have in public that no other file names, but for laws and what is offered."""
    tests = {it for it in crates() if crates()[it].has_tests()} | FOR_TESTS
    callers = [(file, words) for file, words in code if crate_of(file) not in tests]
    for file, _ in code:
        if crate_of(file) in tests or is_program(crate_of(file)):
            continue
        for at, name in calls_in(file):
            if name not in OFFERED and not any(name in words for other, words in callers if other != file):
                yield file, at, name


def calls_in(file: Path) -> Iterator[tuple[int, str]]:
    """What a file has in public but laws: a law's doc begins with "Law"."""
    doc = ""
    for at, line in enumerate(file.read_text().split("\n"), 1):
        call = CALL.match(line)
        if call and not doc.startswith("Law"):
            yield at, call[1]
        said = line.strip()
        doc = doc or said[4:] if said.startswith("///") else "" if not said.startswith("#[") else doc


def doubles(items: list[Item]) -> Iterator[Place]:
    """The public words of specs/ that stand in more than one crate."""
    where: dict[str, dict[str, Place]] = defaultdict(dict)
    for file, at, name, is_public, _ in items:
        if is_public and "specs" in file.parts and not name.startswith("line "):
            where[name].setdefault(crate_of(file), (file, at, name))
    for places in where.values():
        if len(places) > 1:
            yield from places.values()


def main() -> int:
    argparse.ArgumentParser(description=__doc__, formatter_class=argparse.RawDescriptionHelpFormatter).parse_args()
    items, code = list(definitions()), list(code_words())
    found = [
        *((it, "nothing names it") for it in unused_definitions(items, code)),
        *((it, "no clause needs it") for it in unneeded_definitions(items, code)),
        *((it, "nothing but tests names it") for it in unused_calls(code)),
        *((it, "another crate has this word too") for it in sorted(doubles(items), key=lambda item: item[2])),
    ]
    for (file, at, name), reason in found:
        print(f"{file.relative_to(ROOT)}:{at} {name}: {reason}")
    if not found:
        print("nothing is unused, clauses need all of specs/, and each public word of it stands in one crate")
    return 1 if found else 0


if __name__ == "__main__":
    sys.exit(main())
