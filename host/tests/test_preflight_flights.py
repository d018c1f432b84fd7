"""Tries what live and preflight say of a flight that has faults."""

from pathlib import Path

import pytest
from bpfrec.formats.settings import settings_of
from bpfrec_tools.live.ahead import refuse_lacking
from bpfrec_tools.live.arguments import arguments_of, given_by, read
from bpfrec_tools.live.kept.names import Refusal
from bpfrec_tools.preflight.flights import judge_flight
from bpfrec_tools.preflight.live import judge_live
from bpfrec_tools.preflight.report import Report
from support import judge

RUN = '[run]\nout = "flight.ch11"\nevery = "10s"\n'
CHANNEL = '[[channel]]\ninterface = "eth0"\nfilter = "udp port 53"\n'
# What stands for the ID, and the faults, by line.
FAULTS = {
    "": [(4, "channel table 1: settings 3 Missing id")],
    'id = ["1"]\n': [(7, "channel table 1: settings 4 Value id: a list, and it must be a whole number")],
}


@pytest.mark.parametrize("line", FAULTS)
def test_what_only_follows_from_an_id_that_is_missing_is_no_fault(
    work: Path, monkeypatch: pytest.MonkeyPatch, capsys: pytest.CaptureFixture, line: str
) -> None:
    monkeypatch.chdir(work)
    Path("flight.toml").write_text(f"{RUN}{CHANNEL}{line}")
    report = Report()
    judge_live(["flight.toml"], report)
    lines = capsys.readouterr().out.splitlines()
    wanted = [f"flight.toml:{number}: {what}" for number, what in FAULTS[line]]
    judge("one fault", [it for it in lines if ": note: " not in it] == wanted and report.faults == 1, lines)
    judge("nothing is said of no interfaces", not any("records" in it for it in lines), lines)


def test_live_names_the_file_and_the_line(work: Path) -> None:
    for text, place in {CHANNEL: "s.toml:1", f"{RUN}{CHANNEL}": "s.toml:4", "channel = [{}]": "s.toml:1"}.items():
        with pytest.raises(Refusal) as caught:
            refuse_lacking(settings_of("s.toml", text), read(["s.toml", "o.ch11"]))
        line = f"bpfrec live: {place}: channel table 1: settings 3 Missing id"
        judge(place, (caught.value.status, caught.value.line) == (2, line), caught.value.line)
    refuse_lacking(settings_of("s.toml", "[[channel]]\nid = 1\n"), read(["s.toml", "o.ch11", "eth0=1"]))


def channels(*named: str) -> str:
    """Channels from 1 on, each with its name and its interface."""
    keys = [it.rpartition(" ")[::2] for it in named]
    tables = [f'[[channel]]\nid = {at}\nname = "{name}"\ninterface = "{it}"\n' for at, (name, it) in enumerate(keys, 1)]
    return "".join(tables)


NAMED = "and it must be a name in quotes"
WRONG = {
    "run = 3\n": ["flight.toml:1: run: a number, and it must be a table, as [run] begins it"],
    '[run]\nouf = "o"': ["flight.toml:2: [run] has no key ouf: did you mean out?"],
    "[run]\nquiet = true": ["bpfrec live: it takes SETTINGS and OUT: bpfrec live --help has its arguments"],
    f'{RUN}quiet = 3\npublish = ["x", "y"]\nspan = -3\n[[channel]]\nid = 1\nname = 4\ninterface = "e 0"': [
        f"flight.toml:9: channel 1: name: a number, {NAMED}",
        "flight.toml:4: [run] quiet: a number, and it must be true or false",
        "flight.toml:10: channel 1: no INTERFACE=CHANNEL: e 0=1",
        "flight.toml:5: --publish x: needs ADDRESS:PORT or [ADDRESS]:PORT, as 239.1.2.3:50000",
        "flight.toml:5: --publish y: needs ADDRESS:PORT or [ADDRESS]:PORT, as 239.1.2.3:50000",
        "flight.toml:6: --span needs a number from 0.000001 to 28147497, in seconds, or as 100ms, or 0",
    ],
    f'{RUN}direction = "sideways"\nclock = "hst"\ncheck_sequence = "none"\n': [
        "flight.toml:4: --direction needs one of both, in, out",
        "flight.toml:5: --clock needs one of host, adapter",
        "flight.toml:6: --check-sequence needs one of adapter, given, missing",
    ],
    f'{RUN}{channels("2 eth0", "bus A eth1", "bus A eth2", "eth4 eth3", "eth4 eth4")}': [
        "flight.toml:6: channel 1: name: 2 is a number, as IDs are",
        "flight.toml:14: channel 3: name: bus A names channel 2 too",
        "flight.toml:18: channel 4: name: eth4 names channel 5 too",
    ],
}


def test_live_refuses_a_name_that_another_channel_has(work: Path, monkeypatch: pytest.MonkeyPatch) -> None:
    monkeypatch.chdir(work)
    Path("flight.toml").write_text(RUN + channels("bus A eth0", "bus A eth1"))
    with pytest.raises(Refusal) as caught:
        read(["flight.toml"])
    line = "bpfrec live: flight.toml: channel 2: name: bus A names channel 1 too"
    judge("first", (caught.value.status, caught.value.line) == (2, line), caught.value.line)
    Path("flight.toml").write_text(RUN + channels("eth2 eth0", "bus B eth1"))
    with pytest.raises(Refusal, match="channel 1: name: eth2 is the interface of channel 2"):
        read(["flight.toml", "eth2=2"])


def test_an_interface_may_be_given_a_channel_by_its_name(work: Path, monkeypatch: pytest.MonkeyPatch) -> None:
    monkeypatch.chdir(work)
    Path("flight.toml").write_text(RUN + channels("bus A eth0", "bus B eth1"))
    given = read(["flight.toml", "bus B", "eth5=bus B:tcp[0] = 5", "eth6=1"])
    routes = [("eth5", 2, "tcp[0] = 5"), ("eth6", 1, None)]
    judge("by its name", [tuple(it) for it in given.routes] == routes, given.routes)
    judge("and no other operand is one", given.out == "bus B", given.out)
    Path("colon.toml").write_text(RUN + channels("bus eth0", "bus:A eth1"))
    named = [(it.channel, it.expression) for it in read(["colon.toml", "e=bus:A:arp", "f=bus:arp"]).routes]
    judge("a name may have a colon", named == [(2, "arp"), (1, "arp")], named)
    with pytest.raises(Refusal, match="^bpfrec live: eth5=bus C:arp: no channel bus C: 1 bus A, 2 bus B$"):
        read(["flight.toml", "out", "eth5=bus C:arp"])


@pytest.mark.parametrize("text", WRONG)
def test_each_fault_of_a_flight_is_named(
    work: Path, monkeypatch: pytest.MonkeyPatch, capsys: pytest.CaptureFixture, text: str
) -> None:
    monkeypatch.chdir(work)
    Path("flight.toml").write_text(text)
    line, report = given_by(["flight.toml"]), Report()
    assert line.flight
    judge_flight(line, line.flight, report)
    judge("each by its line", capsys.readouterr().out.splitlines() == WRONG[text], report.faults)
    given = arguments_of(line)
    judge("the rest", (given.targets, given.span, len(given.routes)) == ([], None, text.count("channel")), given)
