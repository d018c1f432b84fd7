"""Tries which edits that must fail are tried in one check, and how its refusals are told apart. No prover runs."""

import sys
from pathlib import Path

import pytest
from support import ROOT, judge, present

sys.path.insert(0, str(ROOT / "dev" / "build"))
import groups

CODE = """\
const MOST: u32 = 5;

fn one(x: u32) -> u32
    ensures { result ≡ 1 }
{
    x + 1
}

#[tactic(auto)]
fn two(x: u32) -> u32 {
    x + 2
}

fn three(x: u32) -> u32 {
    one(x) + 3
}

fn four(x: u32) -> u32 {
    three(x) + 4
}

const fn five(x: u32) -> u32 {
    x + 5
}

impl Add for Six {
    fn add(self) -> u32 {
        self.x + 6
    }
}
"""
EDITS = {
    "one": "x + 1", "two": "x + 2", "three": "one(x) + 3", "four": "three(x) + 4", "five": "x + 5", "six": "self.x + 6",
    "contract": "result ≡ 1", "constant": "u32 = 5;",
}  # fmt: skip


@pytest.fixture
def crate(work: Path) -> Path:
    (work / "src").mkdir()
    (work / "src/lib.rt").write_text(CODE)
    for name, old in EDITS.items():
        (work / f"{name}.edit").write_text(f"file: src/lib.rt\nold: {old}\nnew: 0\n")
    return work


def grouped(crate: Path, *names: str) -> list[list[str]]:
    found = groups.grouped(str(crate), [str(crate / f"{it}.edit") for it in names])
    return [[Path(edit).stem for edit, _ in group] for group in found]


def test_edits_of_functions_that_call_one_another_are_tried_apart(crate: Path) -> None:
    judge("functions that don't call one another go together", grouped(crate, "one", "two") == [["one", "two"]])
    judge("near callers don't", grouped(crate, "one", "three") == [["one"], ["three"]])
    judge("nor far ones", grouped(crate, "one", "four") == [["one"], ["four"]])


@pytest.mark.parametrize("name", ["five", "six", "contract", "constant"])
def test_an_edit_that_cannot_share_a_check_is_tried_alone(crate: Path, name: str) -> None:
    judge(f"{name} is tried alone", grouped(crate, "two", name) == [["two"], [name]])


def goal(line: int) -> str:
    return f"note: src/lib.rt:{line}:1: it is not proved that what the function ensures holds when it returns"


def refused(crate: Path, *lines: str) -> set[str]:
    group = [(it, present(groups.body_of(str(crate), str(crate / f"{it}.edit")))) for it in ("one", "two")]
    return set(groups.refusals(list(lines), "c", group))


def test_refusals_of_one_check_are_told_apart(crate: Path) -> None:
    one, two = "fn c::one: no proof: expected answers", "fn c::two: no proof: expected answers"
    above, other = "fn c::three: no proof: it calls `c::one`, which is not proved", "fn c::x::y+2: no proof: expected"
    both = [goal(3), goal(9), one, two]
    judge("both, the second by its attribute's line", refused(crate, *both, above) == {"one", "two"})
    judge("one that is proved isn't refused", refused(crate, goal(3), one, "fn c::two: proved") == {"one"})
    judge("nor one that only calls", refused(crate, goal(3), one, "fn c::two: no proof: it calls `c::one`") == {"one"})
    judge("nor one whose goal is elsewhere", refused(crate, goal(3), goal(15), one, two) == {"one"})
    judge("where a function that no edit changes is refused none counts", refused(crate, *both, other) == set())
