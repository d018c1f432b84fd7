"""Tries a flight in one TOML: its [run] are the options of live, and its channels name their interfaces."""

import json
import re
import shutil
from pathlib import Path

import pytest
import tomllib
from sample_feeds import capture_of
from support import BPFREC, LIVE, PREFLIGHT, ROOT, TOOLS, judge, judge_quietly, outcome, run

pytestmark = pytest.mark.wanted("bin/bpfrec", "bin/capture", "tcpdump")
FEED = ROOT / "examples/feeds/one.feed"
CHANNELS = """
[[channel]]
id = 1
interface = "one.pcap"
name = "bus A"
filter = "udp port 50001"

[[channel]]
id = 2
interface = "two.pcap"
filter = "arp"
"""


@pytest.fixture
def folder(work: Path) -> Path:
    """A folder with two captures, which stand for interfaces."""
    capture_of(FEED, work / "one.pcap", 1_764_590_400_250_000_000)
    shutil.copy(work / "one.pcap", work / "two.pcap")
    return work


def flight(folder: Path, run_table: str, channels: str = CHANNELS) -> Path:
    """A flight with this [run]."""
    path = folder / "flight.toml"
    path.write_text(f"[run]\n{run_table}\n{channels}")
    return path


def recorded(folder: Path, *words: object, status: int = 0) -> str:
    """What live prints of the recording that it makes."""
    done = outcome(LIVE, *words, cwd=folder)
    judge_quietly(f"{words}", done.returncode == status, done)
    return done.stdout


def test_a_flight_records_what_its_options_and_interfaces_say(folder: Path) -> None:
    path = flight(folder, 'out = "out.ch11"\nchapter11 = true\nmode = "0604"\nattribute = ["G\\\\SC:U"]\nquiet = true')
    told = recorded(folder, path)
    judge("both channels", "channel 1 versions 1 offered 60 kept 11" in told and "channel 2 " in told, told)
    judge("the audit says yes", told.endswith("yes other 0\n"))
    judge("each option counts", (folder / "out.ch11").stat().st_mode & 0o777 == 0o604 & ~0o22)
    judge("a list too", b"G\\SC:U" in (folder / "out.ch11.ch10").read_bytes())
    facts = json.loads((folder / "out.ch11.json").read_text())
    judge("facts keep the whole text", facts["settings"] == path.read_text())
    given = recorded(folder, "--quiet", "plain.ch11", "one.pcap=1:udp port 50001", "two.pcap=2:arp")
    judge("the same as by the command line", given == told.replace("out.ch11", "plain.ch11"))


def test_all_is_the_filter_of_all_frames(folder: Path) -> None:
    channel = '[[channel]]\nid = 1\nfilter = "all"\ninterface = "one.pcap"'
    told = recorded(folder, flight(folder, 'out = "out.ch11"\nquiet = true', channel))
    judge("of settings", "channel 1 versions 1 offered 60 kept 60 " in told, told)
    told = recorded(folder, "--quiet", "line.ch11", "one.pcap=1:all")
    judge("of the command line", "channel 1 versions 1 offered 60 kept 60 " in told, told)
    judge("by its name", ": all\n" in run(TOOLS / "info", "line.ch11", cwd=folder))


def test_the_command_line_wins(folder: Path) -> None:
    path = flight(folder, 'out = "out.ch11"\nmode = "0640"\nquiet = true')
    recorded(folder, path, "--mode", "0600", "other.ch11")
    judge("OUT and an option", (folder / "other.ch11").stat().st_mode & 0o777 == 0o600)
    judge_quietly("not that of the flight", not (folder / "out.ch11").exists())
    recorded(folder, path, "third.ch11", "one.pcap=2")
    interfaces = json.loads((folder / "third.ch11.json").read_text())["interfaces"]
    found = [(it["interface"], it["channel"]) for it in interfaces]
    judge("an interface", found == [("one.pcap", 2), ("one.pcap", 1)], interfaces)


WRONG = {
    'out = "o.ch11"\nevry = 5': "[run] has no key evry: did you mean every?",
    'out = "o.ch11"\nhelp = true': "[run] has no key help",
    'out = "o.ch11"\nquiet = "yes"': "[run] quiet: a text, and it must be true or false",
    'out = "o.ch11"\nmode = true': "[run] mode: true or false, and it must be a text or a number",
    'out = "o.ch11"\nmode = {a = 1}': "[run] mode: a table, and it must be a text or a number",
    'out = 5.5\nmode = "0999"': "--mode needs a mode of three octal digits, as 0640",
    "out = true": "[run] out: true or false, and it must be a text or a number",
}


@pytest.mark.parametrize("table", WRONG)
def test_what_run_can_not_have_is_refused_by_both(folder: Path, table: str) -> None:
    path = flight(folder, table)
    done = outcome(LIVE, path, cwd=folder)
    judge("live", done.returncode == 2 and WRONG[table] in done.stderr and done.stderr.count("\n") == 1, done)
    done = outcome(PREFLIGHT, path, cwd=folder)
    judge("preflight", done.returncode in (1, 2) and WRONG[table] in done.stdout + done.stderr, done)


@pytest.mark.parametrize(
    "line, told",
    [
        ("interface = 5", "channel 1: interface: a number, and it must be a name in quotes"),
        ('interface = "one.pcap"\nname = ""', "channel 1: name: a text, and it must be a name in quotes"),
    ],
)
def test_a_channel_that_names_nothing_is_refused(folder: Path, line: str, told: str) -> None:
    path = flight(folder, 'out = "o.ch11"', f'[[channel]]\nid = 1\nfilter = "arp"\n{line}\n')
    done = outcome(LIVE, path, cwd=folder)
    judge("refused", done.returncode == 2 and told in done.stderr, done)


def test_preflight_names_all_faults_and_says_what_will_happen(folder: Path) -> None:
    lines = 'publish = "239.1.2.3:50000,interface=nope"\non_alarm = "/no/such"\ncontrol = "/no/d/s"\nsign = "nokey"'
    path = flight(folder, f'out = "no/bad.ch11"\nstatus = "192.0.2.9:80"\n{lines}')
    done = outcome(PREFLIGHT, path, cwd=folder)
    faults = (
        "no such interface: nope",
        "/no/such is missing",
        "no folder /no/d",
        "nokey: ",
        "Cannot assign",
        "no/bad.ch11",
    )
    lacking = [it for it in faults if it not in done.stdout]
    judge("each fault is named", not lacking and done.returncode == 1, (lacking, done.stdout))
    path = flight(folder, 'out = "good.ch11"\nstatus = 0')
    told = run(PREFLIGHT, path, cwd=folder)
    for line in ("records one.pcap as channel 1 (bus A), two.pcap as channel 2", "into good.ch11", "0 faults"):
        judge(line, f"{line}\n" in told, told)
    again = run(PREFLIGHT, "--live", path, cwd=folder)
    first, second = (
        [it for it in text.splitlines() if not it.endswith(("available", "on its disk"))] for text in (told, again)
    )
    judge("live's own words do it too", first == second, again)


FAULTY = """
[run]
out = "o.ch11"
every = "10x"
sise = "2GB"
span = -3
[[channel]]
id = 1
interface = "no0"
filter = "udp prt 3"
[[channel]]
id = 1
interface = "no1"
name = 4
filter = "tcp prt 4"
[[channel]]
id = 2
interface = 7
filter = "arp"
"""
FAULTS = [
    "flight.toml:18: channel 2: interface: a number, and it must be a name in quotes",
    "flight.toml:14: channel 1: name: a number, and it must be a name in quotes",
    "flight.toml:5: [run] has no key sise: did you mean size?",
    "flight.toml:4: --every needs a number from 1 to 999999999, in seconds, or as 10m",
    "flight.toml:6: --span needs a number from 0.000001 to 28147497, in seconds, or as 100ms, or 0",
    "flight.toml:12: channel 1: settings 6 SameChannel 1",
    "flight.toml:10: filter udp prt 3 of channel 1: tcpdump: can't parse filter expression: syntax error",
    "flight.toml:15: filter tcp prt 4 of channel 1: tcpdump: can't parse filter expression: syntax error",
    "no1: no such interface",
    "no0: no such interface",
]


def test_options_that_do_not_go_together_are_all_named(folder: Path) -> None:
    lines = 'out = "o.ch11"\nstatus_name = "a"\nkeep = 3'
    wanted = ["bpfrec live: --keep and --keep-free need --every or --size", "bpfrec live: --status-name needs --status"]
    for line, faults in {
        "": wanted,
        'evry = "5s"': wanted[1:],
        'every = "5x"': wanted[1:],
        "status = {}": wanted[:1],
    }.items():
        told = outcome(PREFLIGHT, flight(folder, f"{lines}\n{line}"), cwd=folder).stdout.splitlines()
        found = [it for it in told if it.startswith("bpfrec live: ")]
        judge(f"but none that follows: {line}", found == faults, told)


def test_a_fault_of_a_flight_hides_no_other_and_brings_none(folder: Path) -> None:
    (folder / "flight.toml").write_text(FAULTY)
    done = outcome(PREFLIGHT, "flight.toml", cwd=folder)
    faults = [it for it in done.stdout.splitlines()[:-1] if not re.search(": note: |no permission", it)]
    judge("all", (done.returncode, faults) == (1, FAULTS), faults)
    live = outcome(LIVE, "flight.toml", cwd=folder)
    first = FAULTS[0].replace(":18", "")
    judge("live says the first", (live.returncode, live.stderr) == (2, f"bpfrec live: {first}\n"), live)


def test_record_knows_no_run(folder: Path) -> None:
    done = outcome(BPFREC, "record", flight(folder, 'out = "o.ch11"'), folder / "o.ch11")
    judge("as it was", (done.returncode, done.stderr) == (2, "settings 2 Unknown run\n"), done)


@pytest.mark.parametrize(
    "words", ["flight.toml --for 3s o.ch11", "--for 3s flight.toml o.ch11", "flight.toml --out o.ch11"]
)
def test_a_preflight_of_a_flight_takes_the_arguments_of_live(folder: Path, words: str) -> None:
    """Wherever they stand; of other settings they are none."""
    flight(folder, 'quiet = true\nsync = "2s"')
    told = outcome(PREFLIGHT, *words.split(), cwd=folder).stdout
    judge("OUT", "flight.toml: note: into o.ch11\n" in told and told.endswith("\n0 faults\n"), told)
    (folder / "flight.toml").write_text("limit = 3\n")
    done = outcome(PREFLIGHT, "flight.toml", "--for", "3s", cwd=folder)
    judge("an option that is none", done.returncode == 2 and "no such option: --for" in done.stderr, done)


def test_a_flight_may_come_by_standard_input(folder: Path) -> None:
    text = flight(folder, 'out = "out.ch11"\nquiet = true').read_text()
    for words in (["-"], ["--live", "-"], ["-", "--strict"]):
        done = outcome(PREFLIGHT, *words, cwd=folder, input=text)
        judge("it is judged", done.returncode == 0 and "-: note: into out.ch11\n" in done.stdout, done)
    done = outcome(LIVE, "-", "--strict", cwd=folder, input=text)
    judge("and recorded", done.returncode == 0 and "channel 1 versions 1 offered 60 kept 11" in done.stdout, done)
    judge("facts keep it", json.loads((folder / "out.ch11.json").read_text())["settings"] == text)
    done = outcome(LIVE, "-", cwd=folder, input="limit = [\n")
    judge("no TOML is refused", done.returncode == 2 and "bpfrec live: " in done.stderr, done)


def test_the_example_is_a_flight(folder: Path) -> None:
    example = ROOT / "examples/flight.toml"
    found = tomllib.loads(example.read_text())
    judge("of two interfaces", [it["interface"] for it in found["channel"]] == ["eth0", "eth1"])
    told = outcome(PREFLIGHT, example, cwd=folder).stdout
    faults = [
        it for it in told.splitlines() if "note: " not in it and not it.endswith(("no such interface", " faults"))
    ]
    judge(
        "which lacks nothing but interfaces",
        [it for it in faults if "permission" not in it and it != "1 fault"] == [],
        told,
    )


def test_a_channels_name_is_shown_beside_it_and_taken_for_it(folder: Path) -> None:
    recorded(folder, flight(folder, 'out = "out.ch11"\nquiet = true\nchapter11 = true'))
    facts = json.loads((folder / "out.ch11.json").read_text())
    named = [{"interface": "one.pcap", "channel": 1, "name": "bus A"}, {"interface": "two.pcap", "channel": 2}]
    judge("in the facts", facts["interfaces"] == named, facts["interfaces"])
    own = {"clock": "capture", "adapters": [], "synchronisation": {"begin": None, "end": None}}
    judge("no clock of the host", {it: facts[it] for it in own} == own, facts)
    told = run(TOOLS / "info", "out.ch11", cwd=folder)
    judge("by info", "  bus A (one.pcap)" in told and "  two.pcap" in told, told)
    run(TOOLS / "export", "--channel", "bus A", "out.ch11", "a.pcapng", cwd=folder)
    run(TOOLS / "export", "--channel", "1", "out.ch11", "b.pcapng", cwd=folder)
    judge("by export", (folder / "a.pcapng").read_bytes() == (folder / "b.pcapng").read_bytes())
    judge("which names it", b"bus A (one.pcap)" in (folder / "a.pcapng").read_bytes())
    judge("so does the setup record", b"bus A (one.pcap)" in (folder / "out.ch11.ch10").read_bytes())
    done = outcome(TOOLS / "export", "--channel", "bus C", "out.ch11", "c.pcapng", cwd=folder)
    judge("one that is none", done.returncode == 1 and "no channel bus C" in done.stderr, done)
