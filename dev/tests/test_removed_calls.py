"""Tries how calls are taken out of the tools: which there are, what is left without one, and which tests have to see it."""

import ast
import sys
from pathlib import Path

import pytest

ROOT = Path(__file__).resolve().parents[2]
sys.path.insert(0, str(ROOT / "dev" / "build"))
import removed_calls

TEXT = '''"""A text, é."""

def f(x):
    """What it does."""
    made.add_argument("--x")
    say("é", x); end()
    if x:
        told(
            x,
            2,
        )
    found = used(x)
    return found
'''
LEFT = {
    "say('é', x)": TEXT.replace('say("é", x)', "pass"),
    "end()": TEXT.replace("end()", "pass"),
    "told(x, 2)": TEXT.replace("told(\n            x,\n            2,\n        )", "pass"),
}


def test_each_call_whose_value_is_not_used_is_taken_out_once() -> None:
    found = removed_calls.removed_in("f.py", TEXT)
    assert {it.call: it.text for it in found} == LEFT
    assert [it.line for it in found] == [6, 6, 8]
    for removed in found:
        ast.parse(removed.text)


FILES = [str(it.relative_to(ROOT)) for it in sorted((ROOT / removed_calls.TOOLS).glob("*/**/*.py"))]


@pytest.mark.parametrize("path", FILES)
def test_each_file_of_a_tool_has_tests_or_trials(path: str) -> None:
    tests, trials = removed_calls.tests_of(path)
    assert tests or trials
    assert all(removed_calls.paths_of([it]) for it in [*tests, *trials])


def test_a_folder_within_a_tool_has_its_own() -> None:
    tops = ("live/kept/hashes.py", "live/command.py", "tell/command.py")
    found = [removed_calls.tests_of(str(removed_calls.TOOLS / it)) for it in tops]
    assert found == [removed_calls.ROWS[it] for it in ("live/kept", "live", "tell")]
    assert removed_calls.tests_of(str(removed_calls.TOOLS / "verbs.py")) == ([], [])


def test_calls_are_named_by_folder_file_and_line() -> None:
    found = {place: removed_calls.removed_at(place) for place in ("", "publish", "publish/command.py")}
    counts = [len(it) for it in found.values()]
    assert counts[0] > counts[1] > counts[2] > 0
    one = found["publish/command.py"][3]
    assert one in removed_calls.removed_at(f"publish/command.py:{one.line}")
    assert {it.line for it in removed_calls.removed_at(f"publish/command.py:{one.line}")} == {one.line}
