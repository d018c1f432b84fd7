"""Tries dev/build/stated.py: what a crate states changes with a clause, a type, a lemma or a definition, and with no
body, proof, comment or import of one."""

import sys

import pytest
from support import ROOT, judge

sys.path.insert(0, str(ROOT / "dev" / "build"))
import stated

CODE = """\
//! A module.
use std::alloc::{AllocError, Global};

/// The half.
#[tactic(auto, using(crate::proofs::Halves::half_of))]
pub fn half(number: u32) -> u32
    ensures { result ≡ half number }
{
    twice_back(number / 2)
}

fn twice_back(number: u32) -> u32
    ensures { result ≡ number }
{
    number
}

impl Least {
    pub const fn of(self) -> u32 {
        self.0 + 4
    }
}
"""
PROOFS = """\
-- Halves of numbers.
use Rattle.std.proofs.Common.{ℕ, ◌≡◌, refl}
use Rattle.low.specs.Halves.{half}

own : (n : ℕ) → half n ≡ half n
own n = refl

abbrev pub shown : ℕ → ℕ
shown n = half n

pub half_of : (n : ℕ) → half n ≡ shown n
unfolding half
half_of n = refl
"""


def code(old: str, new: str) -> bool:
    judge(f"{old!r} stands in the code", old in CODE)
    return stated.code_stated(CODE) != stated.code_stated(CODE.replace(old, new))


def lemmas(old: str, new: str) -> bool:
    judge(f"{old!r} stands in the lemmas", old in PROOFS)
    return stated.proofs_stated(PROOFS) != stated.proofs_stated(PROOFS.replace(old, new))


@pytest.mark.parametrize(
    "old, new",
    [
        ("twice_back(number / 2)", "twice_back(number >> 1)"),
        ("    number\n", "    let same = number;\n\n    same\n"),
        ("{ result ≡ number }", "{ number ≡ result }"),
        ("/// The half.", "/// Half of it."),
        ("using(crate::proofs::Halves::half_of)", "using(crate::proofs::Halves::half_at)"),
        ("{AllocError, Global}", "{Global}"),
    ],
)
def test_a_body_states_nothing(old: str, new: str) -> None:
    judge("what is stated is the same", not code(old, new))


@pytest.mark.parametrize(
    "old, new",
    [
        ("{ result ≡ half number }", "{ half number ≡ result }"),
        ("number: u32) -> u32\n    ensures { result ≡ half", "number: u64) -> u32\n    ensures { result ≡ half"),
        ("self.0 + 4", "self.0 + 8"),
        ("fn twice_back", "pub fn twice_back"),
    ],
)
def test_a_contract_and_a_constant_are_stated(old: str, new: str) -> None:
    judge("what is stated is another thing", code(old, new))


@pytest.mark.parametrize(
    "old, new", [("half_of n = refl", "half_of n = cc"), ("n ≡ half n\nown", "n ≡ n\nown"), ("-- Halves", "-- The")]
)
def test_a_proof_states_nothing(old: str, new: str) -> None:
    judge("what is stated is the same", not lemmas(old, new))


@pytest.mark.parametrize(
    "old, new",
    [("half n ≡ shown n", "shown n ≡ half n"), ("shown n = half n", "shown n = n"), ("pub half_of", "half_of")],
)
def test_a_lemma_and_what_unfolds_are_stated(old: str, new: str) -> None:
    judge("what is stated is another thing", lemmas(old, new))
