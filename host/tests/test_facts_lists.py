"""Tries each list of the facts with two entries that differ, with many, and with a wrong entry among right ones: the
lists are those of the schema, so that a new one is seen."""

import json
from collections.abc import Callable
from typing import Any, NamedTuple

import pytest
from bpfrec.formats.facts import Expression, Facts, Interruption, NoFacts
from bpfrec.formats.marks import Mark
from expected_facts import facts_of_run
from support import ROOT, judge, judge_same

SCHEMA = json.loads((ROOT / "docs/user/formats/facts.schema.json").read_text())
LISTS = {key for key, value in SCHEMA["properties"].items() if value.get("type") == "array"}
# Those that nobody reads but people.
OF_PEOPLE = {"adapters", "counts"}
SECOND, MOMENT = 10**9, 1_764_590_400
MANY = 300


class Row(NamedTuple):
    """The entry of a list with a number, what is read of the list, and what that has to be for these numbers; and whether
    one of another form is left out, where others are refused."""

    entry: Callable[[int], dict[str, Any]]
    read: Callable[[Facts], object]
    wanted: Callable[[list[int]], object]
    leaves_out: bool = True


ROWS: dict[str, Row] = {
    "interfaces": Row(
        lambda it: {"interface": f"eth{it}", "channel": it + 1, "name": f"bus {it}"},
        lambda facts: (facts.interfaces, facts.names, facts.shown_names()),
        lambda given: (
            {it + 1: f"eth{it}" for it in given},
            {it + 1: f"bus {it}" for it in given},
            {it + 1: f"bus {it} (eth{it})" for it in given},
        ),
    ),
    "spans": Row(
        lambda it: {"channel": it + 1, "span": 7 * it},
        lambda facts: facts.spans,
        lambda given: {it + 1: 7 * it for it in given},
    ),
    "filters": Row(
        lambda it: {"channel": it + 1, "listing": f"1,6 0 0 {it},", "text": "", "expression": f"udp port {it}"},
        lambda facts: facts.expressions,
        lambda given: [Expression(it + 1, f"1,6 0 0 {it},", f"udp port {it}") for it in given],
    ),
    "origins": Row(
        lambda it: {"origin": f"{MOMENT + it}.{it:09}", "counter": 11 * it},
        lambda facts: [(it.counter, it.moment) for it in facts.origins],
        lambda given: [(11 * it, (MOMENT + it) * SECOND + it) for it in given],
        leaves_out=False,
    ),
    "losses": Row(
        lambda it: {
            "interface": f"eth{it}",
            "from": 1,
            "to": 2,
            "dropped": it,
            "missed": 2 * it,
            "skipped": 3 * it + 1,
        },
        lambda facts: facts.losses,
        lambda given: {
            "dropped": sum(given),
            "missed": 2 * sum(given),
            "skipped": 3 * sum(given) + len(given),
        },
        leaves_out=False,
    ),
    "interruptions": Row(
        lambda it: {"interface": f"eth{it}", "why": f"why {it}", "from": it, "to": None if it % 2 else it + 5},
        lambda facts: facts.interruptions,
        lambda given: [Interruption(f"eth{it}", f"why {it}", it, None if it % 2 else it + 5) for it in given],
    ),
    "marks": Row(
        lambda it: {"counter": 13 * it, "time": None, "text": f"mark {it}"},
        lambda facts: facts.marks,
        lambda given: [Mark(13 * it, f"mark {it}") for it in given],
    ),
}
ORIGINS = [("1764590400.250000000", 0, None)]


def facts_with(name: str, entries: list[object]) -> Facts:
    return Facts({**facts_of_run(ORIGINS), name: entries})


def test_each_list_of_the_schema_has_its_row() -> None:
    assert LISTS == set(ROWS) | OF_PEOPLE


@pytest.mark.parametrize("given", [[0, 1], [1, 0], list(range(MANY))], ids=["two", "two in the other order", "many"])
@pytest.mark.parametrize("name", ROWS)
def test_all_entries_of_a_list_are_read_in_their_order(name: str, given: list[int]) -> None:
    row = ROWS[name]
    found = row.read(facts_with(name, [row.entry(it) for it in given]))
    judge(f"{len(given)} of {name}", found == row.wanted(given), str(found)[:300])


@pytest.mark.parametrize("at", [0, 1, 2], ids=["first", "between", "last"])
@pytest.mark.parametrize("name", ROWS)
def test_a_wrong_entry_is_left_out_or_named_wherever_it_is(name: str, at: int) -> None:
    """Those on which times and counts stand are refused, with the place of the entry."""
    row = ROWS[name]
    entries: list[object] = [row.entry(it) for it in (0, 1)]
    entries.insert(at, 7)
    if row.leaves_out:
        judge_same(f"{name} without it", row.read(facts_with(name, entries)), row.wanted([0, 1]))
        return
    what = {"origins": "origin", "losses": "loss"}[name]
    with pytest.raises(NoFacts, match=f"^{what} {at + 1} of 3: "):
        facts_with(name, entries)
