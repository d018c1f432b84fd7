"""Tries the two texts of the status: JSON by docs/user/formats/status.schema.json, metrics by a reader of their own."""

import json
import re
import shutil
from pathlib import Path
from typing import NamedTuple

import pytest
from bpfrec.formats.clock_state import ClockState
from bpfrec_tools.live.run.ports import Sent
from bpfrec_tools.live.status.alarms import Name
from bpfrec_tools.live.status.as_json import kept_rates, offered_rates
from bpfrec_tools.live.status.view import Second
from schemas import FORMATS, faults, schema_of
from scripted import (
    BEGIN,
    Alarm,
    Counts,
    Flight,
    Setup,
    Status,
    View,
    Wire,
    alarms,
    as_json,
    metrics,
    told_of,
    wires_of,
)
from support import judge, judge_quietly, outcome

ODD_NAMES = [
    'a"b',
    "a\\b",
    "a\nb",
    "a{b}=c,d",
    "</script><b>",
    "\udcff\udc80",
    "\u202eeth\u00e9",
    "x" * 127,
    "",
    "\\n",
    '"} 1\nx 2',
]


@pytest.fixture(scope="module")
def flights(place: Path) -> dict[str, Flight]:
    """Runs in every state."""
    made, work = {}, place
    for name in ("waiting", "begun", "going", "losing", "without", "ended", "many"):
        (work / name).mkdir()
        wires = {1: Wire("eth0", kept=0), 2: Wire("eth1")}
        wires = {1: Wire(None)} if name == "without" else wires_of(64) if name == "many" else wires
        made[name] = Flight(work / name, wires, sync=0 if name == "without" else 1)
    for name in ("begun", "going", "losing", "without", "ended", "many"):
        made[name].begin()
    made["losing"].wires[1].dropped, made["losing"].wires[2].end = 5, 30
    made["losing"].wires[1].waited = 300
    made["going"].status.clock_seen(ClockState(True, 0.000125, "chrony (192.0.2.1)"), 0.001)
    made["losing"].status.clock_seen(ClockState(False, 16.0), 0.001)
    for name in ("going", "losing", "without", "ended", "many"):
        made[name].pass_seconds(70, syncs=name != "losing")
    made["losing"].append(b"damage" * 20)
    made["losing"].pass_seconds(2, syncs=False)
    for at in range(40):
        made["ended"].end_recording(["no 5 NoEnd 1"] if at == 7 else [] if at == 9 else ["yes other 0"])
        made["ended"].begin(f"f_{at}.ch11")
    made["ended"].end_recording()
    made["ended"].status.ended(made["ended"].now())
    return made


# ---- JSON


def object_of(view: View, told: tuple[Alarm, ...], age: float = 0.25) -> dict:
    text = as_json.with_age(as_json.text_of(view, told), age)
    judge_quietly("it is ASCII", text.isascii())
    return json.loads(text)


def test_the_status_is_as_its_schema_says(flights: dict) -> None:
    schema = schema_of("status")
    for name, flight in flights.items():
        wrong = faults(object_of(*told_of(flight)), schema)
        judge(f"{name}: it is as the schema says", not wrong, wrong[:5])
    names = {it.name for flight in flights.values() for it in told_of(flight)[1]}
    judge("with alarms of many kinds", len(names) >= 6, names)


def test_the_schema_refuses_what_is_missing_unknown_or_changed(flights: dict) -> None:
    schema, found = schema_of("status"), object_of(*told_of(flights["losing"]))
    changed = {
        "a key that is missing": {name: it for name, it in found.items() if name != "disk"},
        "a key that is unknown": {**found, "more": 1},
        "another form": {**found, "status": 2},
        "a negative age": {**found, "age": -0.1},
        "a text for a number": {**found, "uptime": "7"},
        "another level": {**found, "level": "bad"},
        "a channel without a history": {**found, "channels": [{**found["channels"][0], "history": {}}]},
        "a history of 61 seconds": changed_history(found),
        "a truth for a count": {**found, "audits": {"yes": True, "no": 0, "none": 0}},
        "an alarm of no name": {**found, "alarms": [{**found["alarms"][0], "name": "odd"}]},
    }
    unseen = [name for name, it in changed.items() if not faults(it, schema)]
    judge("each of these is refused", not unseen, unseen)


def changed_history(found: dict) -> dict:
    channel = json.loads(json.dumps(found["channels"][0]))
    channel["history"]["kept_frames"] = [0] * 61
    return {**found, "channels": [channel]}


@pytest.mark.parametrize("name", ODD_NAMES, ids=range(len(ODD_NAMES)))
def test_odd_names_stand_in_the_texts_as_they_are(work: Path, name: str) -> None:
    watched = Status(now=BEGIN)
    watched.recording_begun(1, str(work / f"x{name}".replace("/", "|")[:99]), [Setup(1, name)], BEGIN)
    watched.capture_counted(name, Counts(1, 2, 3, 4, 5, 6), BEGIN)
    watched.tick(BEGIN + 1)
    view = watched.model.view(BEGIN + 1)
    told = alarms.alarms_of(view, 65_536)
    plain = name.encode("utf-8", "replace").decode()
    judge("JSON has it", object_of(view, told)["channels"][0]["interface"] == plain)
    samples = read_metrics(metrics.with_age(metrics.text_of(view, told), 0))
    found = [it.labels["interface"] for it in samples if it.name == "bpfrec_channel_dropped_frames_total"]
    judge("and so have the metrics", found == [plain], found)


# ---- metrics


class Sample(NamedTuple):
    """A sample of the text format."""

    name: str
    labels: dict[str, str]
    value: float


NAME, VALUE = r"[a-zA-Z_:][a-zA-Z0-9_:]*", r'"((?:[^"\\\n]|\\[\\"n])*)"'
SAMPLE = re.compile(rf"({NAME})(?:\{{(.*)\}})? (\S+)")
LABEL = re.compile(rf"({NAME})={VALUE}(,|$)")
ESCAPES = {"\\\\": "\\", '\\"': '"', "\\n": "\n"}


def labels_in(text: str) -> dict[str, str]:
    found: dict[str, str] = {}
    at = 0
    while at < len(text):
        one = LABEL.match(text, at)
        assert one and one[1] not in found, f"labels: {text}"
        found[one[1]] = re.sub(r"\\.", lambda found: ESCAPES[found[0]], one[2])
        at = one.end()
    return found


def read_metrics(text: str) -> list[Sample]:
    """A reading of the text format 0.0.4: each family once, its HELP, its TYPE, and its samples behind them."""
    assert text.endswith("\n") and "\r" not in text
    samples, family, done = [], "", set()
    for line in text[:-1].split("\n"):
        if line.startswith("# HELP "):
            family = line.split(" ")[2]
            assert family not in done and len(line.split(" ")) > 3, f"{family} comes twice"
            done.add(family)
        elif line.startswith("# TYPE "):
            _, _, name, kind = line.split(" ")
            assert (
                name == family and kind in ("counter", "gauge") and name.endswith("_total") == (kind == "counter")
            ), line
        else:
            found = SAMPLE.fullmatch(line)
            assert found and found[1] == family, f"no sample of {family}: {line}"
            samples.append(Sample(found[1], labels_in(found[2] or ""), float(found[3])))
    keys = [(it.name, *sorted(it.labels.items())) for it in samples]
    assert len(keys) == len(set(keys)), "a sample comes twice"
    return samples


def test_metrics_are_read_by_a_reader_and_promtool(flights: dict) -> None:
    for name, flight in flights.items():
        text = metrics.with_age(metrics.text_of(*told_of(flight)), 0.25)
        judge(f"{name}: its metrics are read", len(read_metrics(text)) > 5)
        if shutil.which("promtool"):
            done = outcome("promtool", "check", "metrics", input=text)
            judge(f"{name}: also by promtool", done.returncode == 0, done)


def test_the_error_of_a_clock_is_there_to_the_microsecond(flights: dict) -> None:
    view, told = told_of(flights["going"])
    samples = {it.name: it.value for it in read_metrics(metrics.text_of(view, told))}
    found = (samples["bpfrec_clock_synchronised"], samples["bpfrec_clock_max_error_seconds"])
    judge("as a metric", found == (1, 0.000125), found)
    wanted = {"is_synchronised": True, "maximum_error": 0.000125, "source": "chrony (192.0.2.1)", "required": 0.001}
    judge("and in the object", object_of(view, told)["clock"] == wanted, object_of(view, told)["clock"])


def test_what_is_not_known_has_no_sample(flights: dict) -> None:
    names = {it.name for it in read_metrics(metrics.text_of(*told_of(flights["without"])))}
    holds = "bpfrec_channel_offered_frames_total" not in names and "bpfrec_channel_kept_frames_total" in names
    judge("of a feed nobody counts", holds)
    judge("of a clock of which nobody says anything", not any(it.startswith("bpfrec_clock") for it in names), names)


def test_the_page_has_each_metric_and_each_alarm(flights: dict) -> None:
    """And no other."""
    rows, alarm_rows = (FORMATS / "live.md").read_text().partition("### `/metrics`")[2].partition("### Alarms")[::2]
    named = {
        f"bpfrec_{it}"
        for row in re.findall(r"^\| (`.*?`) \| (?:gauge|counter)", rows, re.MULTILINE)
        for it in re.findall(r"`(\w+)`", row)
    }
    flights["losing"].status.published("192.0.2.1:5000", Sent(1, 0, 0), flights["losing"].now())
    told = {
        it.name
        for flight in flights.values()
        for it in read_metrics(metrics.with_age(metrics.text_of(*told_of(flight)), 0))
    }
    judge("the metrics are those of the page", named == told, named ^ told)
    listed = set(re.findall(r"^\| `(\w+)` \| (?:alarm|warning) \|", alarm_rows, re.MULTILINE))
    judge("the alarms too", listed == {it.value for it in Name}, listed)
    names = set(schema_of("status")["$defs"]["alarm"]["properties"]["name"]["enum"])
    judge("and those of the schema", names == listed, names ^ listed)


def seconds(*pairs: tuple[float | None, float]) -> tuple[Second, ...]:
    """Seconds with so many frames that came and that were kept, of 100 bytes each."""
    return tuple(
        Second(came, None if came is None else came * 100, kept, kept * 100, 0, 0, 0, 0, 0, None)
        for came, kept in pairs
    )


def test_rates_of_what_came_and_what_was_kept_are_of_the_same_ten_seconds() -> None:
    steady = seconds(*[(1_000.0, 1_000.0)] * 12)
    judge("a filter that keeps all", offered_rates(steady) == kept_rates(steady) == (1_000, 100_000))
    begun = seconds((1_000.0, 0.0), *[(1_000.0, 1_000.0)] * 9)
    judge("what waits for a packet", (offered_rates(begun), kept_rates(begun)) == ((1_000, 100_000), (900, 90_000)))
    silent = seconds(*[(1_000.0, 1_000.0)] * 30, *[(0.0, 0.0)] * 10)
    judge("a channel that fell silent keeps nothing either", offered_rates(silent) == kept_rates(silent) == (0, 0))
    unknown = seconds(*[(1_000.0, 1_000.0)] * 5, (None, 1_000.0))
    judge("one whose counts don't come", offered_rates(unknown) is None and kept_rates(unknown) == (1_000, 100_000))
    judge("none yet", (offered_rates(()), kept_rates(())) == (None, None))
