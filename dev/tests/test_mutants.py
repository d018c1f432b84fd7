"""Tries the planted bodies of dev/mutants/ as files: where they are planted, and by which test. Nothing is compiled."""

from __future__ import annotations

import re
import sys
from pathlib import Path

import pytest

ROOT = Path(__file__).resolve().parents[2]
sys.path.insert(0, str(ROOT / "dev" / "build"))
import mutants

FILES = sorted(mutants.PLANTED.rglob("*.edit"))
SHARED = "use crate::shared::here;\n"


def texts_of(folder: Path) -> str:
    return "\n".join(it.read_text() for it in sorted(folder.rglob("*.rt")))


@pytest.mark.parametrize("file", FILES, ids=lambda path: str(path.relative_to(mutants.PLANTED)))
def test_a_planted_body_can_be_planted_and_its_test_is_there(file: Path) -> None:
    mutant = mutants.planted(file, ROOT)
    place, _, name = mutant.test.partition("::")
    if ".py" not in place:
        code = texts_of(ROOT / "crates" / place / "src")
        assert f"fn {name or 'main'}(" in code
    elif name:
        assert f"def {name.partition('[')[0]}(" in (ROOT / place).read_text()
    assert (ROOT / place).exists() or (ROOT / "crates" / place).is_dir()


@pytest.mark.parametrize(
    ("lines", "why"),
    [
        ("file: a.py\nold: x = 2\nnew: x = 3\ntest: t.py::t", "0 times"),
        ("file: a.py\nold: x\nnew: y\ntest: t.py::t", "2 times"),
        ("file: a.py\nold: x = 1\nnew: x = 2", "it has no test"),
        ("file: a.py\ntest: t.py::t", "no pair"),
    ],
)
def test_an_edit_that_cannot_be_planted_says_why(
    tmp_path: Path, monkeypatch: pytest.MonkeyPatch, lines: str, why: str
) -> None:
    monkeypatch.setattr(mutants, "PLANTED", tmp_path)
    (tmp_path / "a.py").write_text("x = 1\nprint(x)\n")
    (tmp_path / "wrong.edit").write_text(lines)
    with pytest.raises(ValueError, match=re.escape(why)):
        mutants.planted(tmp_path / "wrong.edit", tmp_path)


def test_the_module_of_a_test_stays_with_those_that_it_names(tmp_path: Path) -> None:
    (tmp_path / "inner").mkdir()
    (tmp_path / "lib.rt").write_text("".join(f"#[cfg(test)]\nmod {it};\n" for it in ("inner", "other", "shared")))
    (tmp_path / "inner.rt").write_text("mod deep;\n")
    (tmp_path / "inner" / "deep.rt").write_text(f"{SHARED}fn a_promise_holds() {{}}\n")
    (tmp_path / "other.rt").write_text(f"{SHARED}fn another_promise_holds() {{}}\n")
    (tmp_path / "shared.rt").write_text("fn here() {}\n")
    mutants.keep_module_of(tmp_path, "a_promise_holds")
    assert sorted(str(it.relative_to(tmp_path)) for it in tmp_path.rglob("*.rt")) == [
        "inner.rt",
        "inner/deep.rt",
        "lib.rt",
        "shared.rt",
    ]
    assert (tmp_path / "lib.rt").read_text() == "#[cfg(test)]\nmod inner;\n#[cfg(test)]\nmod shared;\n"
