"""Tries how trials are run: what fails beside others is tried once more alone, and what lacks a program is left out."""

import sys
import tempfile
from collections.abc import Iterator
from pathlib import Path

import pytest

ROOT = Path(__file__).resolve().parents[2]
sys.path.insert(0, str(ROOT / "dev" / "build"))
import trials

FILE = """
from pathlib import Path

import pytest

def test_well(): pass

@pytest.mark.parametrize("name", ["a", "b::c d"])
def test_at_its_second_call(name):
    called = Path(__file__).with_name(name)
    was_called = called.exists()
    called.touch()
    assert was_called

@pytest.fixture
def failing_at_the_end():
    yield
    assert False

def test_whose_fixture_fails(failing_at_the_end): pass

def test_ill(): assert False

@getattr(pytest.mark, "wanted")("sh", "no-such-program")
def test_left_out(): assert False
"""
AGAIN, FAILS = "failed beside others, and passes alone", "failed beside others, and fails again alone"


@pytest.fixture
def folder() -> Iterator[Path]:
    """A folder of the repository, whose conftest.py counts for it."""
    (ROOT / "bin").mkdir(exist_ok=True)
    with tempfile.TemporaryDirectory(dir=ROOT / "bin") as made:
        yield Path(made)


def test_what_fails_beside_others_is_tried_once_more_and_named(folder: Path, capfd: pytest.CaptureFixture[str]) -> None:
    (folder / "test_these.py").write_text(FILE)
    assert trials.run_trials([str(folder)]) == trials.Counts(3, 2, 1)
    said = [line for line in capfd.readouterr().out.splitlines() if "beside others" in line]
    assert [(line.split("::", 1)[1].partition(" failed")[0], line.endswith(AGAIN)) for line in said] == [
        ("test_at_its_second_call[a]", True),
        ("test_at_its_second_call[b::c d]", True),
        ("test_whose_fixture_fails", False),
        ("test_ill", False),
    ]


def test_tests_of_parts_are_run_once(folder: Path) -> None:
    (folder / "test_these.py").write_text(FILE)
    assert trials.run([str(folder)]) == trials.Counts(1, 4, 1)


def test_of_eleven_that_fail_none_is_tried_again(folder: Path, capfd: pytest.CaptureFixture[str]) -> None:
    (folder / "test_many.py").write_text("".join(f"def test_{it}(): assert False\n" for it in range(11)))
    assert trials.run_trials([str(folder)]) == trials.Counts(0, 11)
    assert "beside others" not in capfd.readouterr().out


def test_a_file_that_cannot_be_read_is_a_failure(folder: Path) -> None:
    (folder / "test_none.py").write_text("def")
    assert trials.run_trials([str(folder)]).failed == 1
