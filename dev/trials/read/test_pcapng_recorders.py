"""Tries bpfrec export on recordings of several recorders, and of many channels."""

import json
import resource
from pathlib import Path

import pytest
from frames import FRAMES, body_of, numbered, packet_of, program_packet, with_check_sequence
from pcapng_blocks import COMMENT, INTERFACE, PACKET, blocks_in
from seen_frames import seen_in
from several_recorders import facts_by, recording_at
from support import EXPORT, INFO, judge, outcome, run

pytestmark = pytest.mark.wanted("bin/bpfrec", "tshark", "capinfos")
# On a quiet machine that many channels take five seconds.
CHANNELS, PATIENCE = 65_535, 40


def captured(work: Path, *recordings: Path) -> tuple[list[str], list[tuple[int, int]]]:
    """The names of a capture's interfaces, and of each frame its interface and its number."""
    run(EXPORT, "--force", *recordings, work / "all.pcapng")
    told = run("capinfos", "-k", "-I", work / "all.pcapng")
    names = [it.split(" = ")[1] for it in told.splitlines() if it.strip().startswith("Name = ")]
    numbers = [int.from_bytes(it.bytes[14:22], "big") for it in seen_in(work / "all.pcapng")]
    return names, list(zip((it.interface for it in seen_in(work / "all.pcapng")), numbers))


TWO = {
    "interfaces": ("fc1", "eth0", "fc1", "eth1", ["eth0", "eth1"]),
    "hosts": ("fc1", "eth0", "fc2", "eth0", ["eth0 of fc1", "eth0 of fc2"]),
}


@pytest.mark.parametrize("name", TWO)
@pytest.mark.parametrize("is_turned", [False, True], ids=["", "turned"])
def test_two_recorders_are_two_interfaces(work: Path, name: str, is_turned: bool) -> None:
    host, interface, other_host, other_interface, names = TWO[name]
    one = recording_at(work / "one.ch11", [0, 20], 1, facts_by(host, interface))
    two = recording_at(work / "two.ch11", [10, 30], 2, facts_by(other_host, other_interface))
    told, seen = captured(work, *((two, one) if is_turned else (one, two)))
    judge("each has its name", told == (names[::-1] if is_turned else names), told)
    first, second = (1, 0) if is_turned else (0, 1)
    wanted = [(first, 1_000), (second, 2_000), (first, 1_001), (second, 2_001)]
    judge("and its frames", seen == wanted, seen)


def test_recordings_of_one_run_stay_one_interface(work: Path) -> None:
    """Also where the clock was set back between them: frames stand in the order in which they came."""
    set_back = [("1764590400.000000000", 0, None), ("1764586800.000000000", 15, "-3600.000000000")]
    one = recording_at(work / "one.ch11", [0, 10], 1, facts_by("fc1", "eth0"))
    two = recording_at(work / "two.ch11", [20, 30], 2, facts_by("fc1", "eth0", set_back))
    names, seen = captured(work, two, one)
    judge("one interface", names == ["eth0"], names)
    judge("in the order in which they came", [it for _, it in seen] == [1_000, 1_001, 2_000, 2_001], seen)


def test_a_clock_that_was_set_counts_as_right_among_recorders(work: Path) -> None:
    """The first recorder's clock was an hour behind until it was set."""
    late = [("1764586800.000000000", 0, None), ("1764590400.000000000", 10, "3600.000000000")]
    one = recording_at(work / "one.ch11", [0, 20, 40], 1, facts_by("fc1", "eth0", late))
    two = recording_at(work / "two.ch11", [10, 30, 50], 2, facts_by("fc2", "eth0"))
    _, seen = captured(work, one, two)
    judge("frames alternate", [it for it, _ in seen] == [0, 1, 0, 1, 0, 1], seen)


def test_recorders_by_tai_and_by_utc_are_merged_by_utc(work: Path) -> None:
    """The first has an adapter's clock, 37 s ahead; its first facts knew no scale yet."""
    by_tai = [("1764590437.000000000", 0, None, "TAI", 37)]
    unknown = [("1764590437.000000000", 0, None, None)]
    first = recording_at(work / "first.ch11", [0], 1, facts_by("fc1", "eth0", unknown))
    one = recording_at(work / "one.ch11", [10, 30, 50], 2, facts_by("fc1", "eth0", by_tai))
    two = recording_at(work / "two.ch11", [20, 40, 60], 3, facts_by("fc2", "eth0"))
    names, seen = captured(work, first, one, two)
    judge("one run has one interface", names == ["eth0 of fc1", "eth0 of fc2"], names)
    judge("frames alternate", [it for it, _ in seen] == [0, 0, 1, 0, 1, 0, 1], seen)


def test_frames_stand_in_their_order_where_counters_begin_at_0_again(work: Path) -> None:
    """Counters turn in the second recording of a run, as facts then say."""
    whole, turn = 1 << 48, "1764590400.000000000"
    before = [("1736442902.328934400", 0, None)]
    after = [*before, (turn, 0, None), (before[0][0], whole >> 1, None)]
    one = recording_at(work / "one.ch11", [whole - 40, whole - 30], 1, facts_by("fc1", "eth0", before))
    two = recording_at(work / "two.ch11", [whole - 20, 10], 2, facts_by("fc1", "eth0", after))
    three = recording_at(work / "three.ch11", [20, 30], 3, facts_by("fc1", "eth0", after))
    _, seen = captured(work, three, one, two)
    judge("in their order", [it for _, it in seen] == [1_000, 1_001, 2_000, 2_001, 3_000, 3_001], seen)


def test_a_run_takes_no_origin_of_another_with_the_same_first_one(work: Path) -> None:
    """Two recorders of one host with one origin, of which the second began once the clock had been set."""
    set_on = [("1764590400.000000000", 0, None), ("1764594000.000000000", 15, "3600.000000000")]
    hour = 3_600 * 10_000_000
    one = recording_at(work / "one.ch11", [0, 20, 40], 1, facts_by("fc1", "eth0", set_on))
    two = recording_at(work / "two.ch11", [hour + 10, hour + 30, hour + 50], 2, facts_by("fc1", "eth1"))
    _, seen = captured(work, one, two)
    judge("frames alternate", [it for it, _ in seen] == [0, 1, 0, 1, 0, 1], seen)


def test_channels_of_feeds_are_of_their_runs(work: Path) -> None:
    """Facts name no interface of a channel that has a feed: those of two runs stay apart."""
    runs = [facts_by("fc1", "eth0", [(f"{moment}.000000000", 0, None)]) for moment in (1_764_590_400, 1_764_590_401)]
    one = recording_at(work / "one.ch11", [0, 20], 1, {**runs[0], "interfaces": []})
    two = recording_at(work / "two.ch11", [10, 30], 2, {**runs[1], "interfaces": []})
    names, seen = captured(work, one, two)
    judge("two interfaces", len(names) == 2 and {it for it, _ in seen} == {0, 1}, (names, seen))


def test_interfaces_of_one_name_are_told_by_their_channels(work: Path) -> None:
    """An interface that was channel 1 in one run and channel 2 in another."""
    one = recording_at(work / "one.ch11", [0, 20], 1, facts_by("fc1", "eth0"))
    facts = facts_by("fc1", "eth0", [("1764590401.000000000", 0, None)])
    two = recording_at(
        work / "two.ch11", [10, 30], 2, {**facts, "interfaces": [{"interface": "eth0", "channel": 2}]}, channel=2
    )
    names, _ = captured(work, one, two)
    judge("each has another name", names == ["eth0 of fc1, channel 1", "eth0 of fc1, channel 2"], names)


@pytest.mark.parametrize("origin", ["1764590400", "1764590401"])
def test_two_runs_of_hosts_of_one_name_are_two_recorders(work: Path, origin: str) -> None:
    """Also where both have the origin that --origin names: then by the names of the runs."""
    runs = [facts_by("fc1", "eth0"), facts_by("fc1", "eth0", [(f"{origin}.000000000", 0, None)])]
    one = recording_at(work / "tap1.ch11", [0, 20], 1, {**runs[0], "recording": "tap1.ch11"})
    two = recording_at(work / "tap2.ch11", [10, 30], 2, {**runs[1], "recording": "tap2.ch11"})
    names, seen = captured(work, one, two)
    judge("two names", names == [f"eth0 of fc1, channel 1 of {it}.ch11" for it in ("tap1", "tap2")], names)
    judge("two interfaces", {it for it, _ in seen} == {0, 1}, seen)


def recording_of_filters(path: Path, filters: list[tuple[int, str]], counter: int) -> Path:
    """A recording of eth0 with a frame by each of these filters, which keep a number of bytes, with their words."""
    frame, parts = with_check_sequence(numbered(0)), []
    for version, (kept, _) in enumerate(filters):
        parts.append(program_packet(1, version, (6, 0, 0, kept)))
        parts.append(packet_of(1, body_of([(counter + version, 0, frame)]), version, FRAMES, counter + version, True))
    path.write_bytes(b"".join(parts))
    words = [{"channel": 1, "listing": f"1,6 0 0 {kept},", "expression": words} for kept, words in filters]
    facts = {**facts_by("fc1", "eth0"), "recording": path.name, "filters": words}
    Path(f"{path}.json").write_text(json.dumps(facts))
    return path


def test_a_filter_has_its_words_and_is_said_where_it_changes(work: Path) -> None:
    """Not where the next recording of a run goes on with it."""
    filters: list[list[tuple[int, str]]] = [[(1, "udp"), (2, "arp")], [(2, "arp"), (1, "udp")], [(1, "udp 1")]]
    for number, each in enumerate(filters):
        recording_of_filters(work / f"run_0000{number}.ch11", each, 10 * number)
    run(EXPORT, work / "run.ch11", work / "run.pcapng")
    blocks = blocks_in((work / "run.pcapng").read_bytes())
    first, *comments = [it.text(COMMENT) for it in blocks if it.kind in (INTERFACE, PACKET)]
    judge("ahead", first.startswith("filter version 0, 1 instructions: udp\nret #1\nchannel 1: "), first)
    changes = [
        "",
        "1, 1 instructions: arp\nret #2",
        "",
        "1, 1 instructions: udp\nret #1",
        "0, 1 instructions: udp 1\nret #1",
    ]
    judge("at each change", comments == [it and f"filter version {it}" for it in changes], comments)


def test_recordings_without_facts_are_of_a_recorder_each(work: Path) -> None:
    one, two = recording_at(work / "one.ch11", [0, 20], 1), recording_at(work / "two.ch11", [10, 30], 2)
    names, seen = captured(work, one, two)
    judge("named by the recordings", names == ["channel 1 of one.ch11", "channel 1 of two.ch11"], names)
    judge("and apart", seen == [(0, 1_000), (1, 2_000), (0, 1_001), (1, 2_001)], seen)


def test_help_promises_no_order_by_time(work: Path) -> None:
    told = " ".join(run(EXPORT, "--help").split())
    judge("it says where times step back", "merged by time" not in told and "times step back" in told, told)


# ---- many channels


def recording_of_channels(path: Path, count: int) -> Path:
    """A recording of a frame of each of so many channels."""
    frame = with_check_sequence(numbered(0, 60))
    with open(path, "wb") as file:
        for channel in range(1, count + 1):
            file.write(packet_of(channel, body_of([(channel, 0, frame)]), 0, FRAMES, channel, False))
    return path


@pytest.fixture(scope="module")
def many(place: Path) -> Path:
    return recording_of_channels(place / "many.ch11", CHANNELS)


def processor_seconds(out: Path, recording: Path, count: int) -> float:
    """How many seconds of a processor a capture of so many frames takes."""
    begun = resource.getrusage(resource.RUSAGE_CHILDREN).ru_utime
    done = outcome(EXPORT, "--as=pcapng", "--force", recording, out, seconds=PATIENCE)
    judge("all frames", (done.returncode, done.stdout) == (0, f"frames {count} skipped 0\n"), done)
    return resource.getrusage(resource.RUSAGE_CHILDREN).ru_utime - begun


def test_pcapng_takes_a_time_that_grows_as_the_channels_do(work: Path, many: Path) -> None:
    """Four times as many channels took six times as long where each looked at all. The best of four rounds counts."""
    few = recording_of_channels(work / "few.ch11", CHANNELS // 4)
    of_few, of_many = [], []
    for _ in range(4):
        of_few.append(processor_seconds(work / "out", few, CHANNELS // 4))
        of_many.append(processor_seconds(work / "out", many, CHANNELS))
        if min(of_many) < 5 * min(of_few):
            break
    judge("four times as long", min(of_many) < 5 * min(of_few), (of_few, of_many))


def test_info_of_all_channels_takes_seconds(many: Path) -> None:
    done = outcome(INFO, many, seconds=PATIENCE)
    judge("all channels", done.stdout.count("\nchannel ") == CHANNELS, done.stderr)


# ---- arguments


def test_a_channel_may_be_named_by_its_interface(work: Path) -> None:
    one = recording_at(work / "one.ch11", [0, 20], 1, facts_by("fc1", "eth0"))
    two = recording_at(work / "two.ch11", [10, 30], 2, facts_by("fc1", "eth1"))
    run(EXPORT, "--channel", "eth1", one, two, work / "eth1.pcapng")
    numbers = [int.from_bytes(it.bytes[14:22], "big") for it in seen_in(work / "eth1.pcapng")]
    judge("its frames alone", numbers == [2_000, 2_001], numbers)


def test_a_channel_may_be_named_with_its_host(work: Path) -> None:
    """As the capture of several calls it."""
    hosts = {1: facts_by("fc1", "eth0"), 2: facts_by("fc2", "eth0")}
    hosts[2]["interfaces"] = [{"interface": "eth0", "channel": 1, "name": "bus A"}]
    one, two = (recording_at(work / f"{it}.ch11", [10 * it, 30], it, hosts[it]) for it in hosts)
    for name, wanted in {"eth0 of fc1": [1_000, 1_001], "bus A (eth0) of fc2": [2_000, 2_001]}.items():
        run(EXPORT, "--force", "--channel", name, one, two, work / "slice.pcapng")
        numbers = [int.from_bytes(it.bytes[14:22], "big") for it in seen_in(work / "slice.pcapng")]
        judge(name, numbers == wanted, numbers)
    done = outcome(EXPORT, "--force", "--channel", "eth0 of fc3", one, two, work / "slice.pcapng")
    judge("one that is none", done.returncode == 1 and "no channel eth0 of fc3" in done.stderr, done)


@pytest.mark.parametrize("has_facts", [False, True])
def test_an_interface_that_is_not_known_is_refused(work: Path, has_facts: bool) -> None:
    one = recording_at(work / "one.ch11", [0], 1, facts_by("fc1", "eth0") if has_facts else None)
    done = outcome(EXPORT, "--channel", "eth9", one, work / "out.pcapng")
    told = "no channel eth9: 1 eth0" if has_facts else "no facts beside it, so --channel takes numbers, as 1"
    judge("refused", (done.returncode, done.stderr) == (1, f"bpfrec export: {one}: {told}\n"), done)


def test_a_time_of_day_is_refused_with_what_a_time_is(work: Path) -> None:
    done = outcome(EXPORT, "--from", "23:36", work / "one.ch11", work / "out.pcapng")
    told = "23:36 is no time, as 12.5, 23:36:10 or 2025-12-01T12:00:00.25Z: seconds since counter 0, or UTC with or without its date"
    judge("refused", done.returncode == 2 and told in done.stderr, done)


# ---- standard input


def test_a_pipe_is_read_as_standard_input(work: Path) -> None:
    one = recording_at(work / "one.ch11", [0, 20], 1)
    run(EXPORT, one, work / "wanted.pcapng")
    done = outcome("sh", "-c", f"cat {one} | {EXPORT} - {work}/out.pcapng")
    judge("it is read", (done.returncode, done.stdout) == (0, "frames 2 skipped 0\n"), done)
    judge("with the same frames", seen_in(work / "out.pcapng") == seen_in(work / "wanted.pcapng"))


def test_standard_input_given_twice_is_refused(work: Path) -> None:
    one = recording_at(work / "one.ch11", [0], 1)
    for words in ("- -", "- /dev/stdin"):
        done = outcome("sh", "-c", f"cat {one} | {EXPORT} {words} {work}/out.pcapng", seconds=10)
        judge("refused", done.returncode == 1 and "given twice" in done.stderr, done)
