"""Tries the spans of bpfrec live: which a channel gets, what the recorder and the capture get of it, and parts of
seconds."""

from pathlib import Path

import pytest
from bpfrec_tools.live.arguments import read
from bpfrec_tools.live.kept.names import Refusal
from bpfrec_tools.live.parts.folder import Folder, read_settings
from bpfrec_tools.live.parts.spans import USUAL_SPAN, judge_spans
from support import judge

KEEPS = "1,6 0 0 1,"
WAYS = ["rx0=1", "rx1=2", "rx2=3"]


@pytest.fixture
def settings(work: Path, monkeypatch: pytest.MonkeyPatch) -> Path:
    """Settings of three channels of interfaces, of which two have spans, and of two with feeds."""
    monkeypatch.setenv("TMPDIR", str(work))
    (work / "all").write_text(KEEPS)
    rest = ("", "span = 70\n", "span = 0\n", 'feed = "a"\n', 'feed = "b"\nspan = 90\n')
    tables = (f'[[channel]]\nid = {number}\nfilter = "{work}/all"\n{it}' for number, it in enumerate(rest, 1))
    path = work / "s.toml"
    path.write_text("".join(tables))
    return path


def made(*words: object) -> Folder:
    given = read([str(it) for it in words])
    assert given.settings
    return Folder(*read_settings(given.settings), given)


def spans_for_the_recorder(folder: Folder, work: Path) -> list:
    folder.make_all()
    _, written = read_settings(str(folder.make(1) / "settings.toml"))
    folder.remove_all()
    return [it.table.get("span") for it in written.channels]


@pytest.mark.parametrize(
    "words, first",
    [([], 5_000_000), (["--span", "100ms"], 1_000_000), (["--span", "2s"], 20_000_000), (["--span", "0"], 0)],
    ids=["default", "option", "seconds", "none"],
)
def test_a_span_of_settings_goes_ahead_of_the_option(settings: Path, work: Path, words: list, first: int) -> None:
    """For its channel, also where it is 0. What has no interface stays as it is."""
    folder = made(*words, settings, work / "o.ch11", *WAYS)
    judge("of each channel", folder.spans == {1: first, 2: 70, 3: 0, 4: 0, 5: 90}, folder.spans)
    judge("the recorder's settings have them", spans_for_the_recorder(folder, work) == [first, 70, 0, None, 90])
    wanted = [*(["--span", f"rx0={first}"] if first else []), "--span", "rx1=70"]
    judge("the capture gets those that are some", folder.span_arguments() == wanted, folder.span_arguments())


def test_a_span_of_a_channel_is_a_time_too(settings: Path, work: Path) -> None:
    text = settings.read_text()
    settings.write_text(text.replace("span = 70", 'span = "20ms"'))
    judge("in ticks", made(settings, work / "o.ch11", *WAYS).spans[2] == 200_000)
    settings.write_text(text.replace("span = 70", 'span = "20x"\nname = "bus A"'))
    line = f"bpfrec live: {settings}: channel 2: span: needs a number from 0.000001 to 28147497, in seconds"
    with pytest.raises(Refusal, match=line):
        read([str(settings), "o.ch11", *WAYS])


def test_channels_of_one_interface_share_its_marks(settings: Path, work: Path) -> None:
    """As often as the shortest span asks for; one without a span takes them too, and closes no packet by them."""
    folder = made("--span", 0, settings, work / "o.ch11", "rx0=1", "rx0=2", "rx1=3")
    judge("once for an interface", folder.span_arguments() == ["--span", "rx0=70"], folder.span_arguments())
    found = spans_for_the_recorder(folder, work)
    judge("each takes the marks that it gets", found == [2**48 - 1, 70, 0, None, 90], found)
    judge("and is said to have none", folder.spans[1] == 0)
    both = made("--span", "5us", settings, work / "o.ch11", "rx0=1", "rx0=2").span_arguments()
    judge("the shortest", both == ["--span", "rx0=50"], both)


def test_a_span_of_settings_that_is_none_is_refused_by_its_channel(settings: Path, work: Path) -> None:
    text = settings.read_text()
    for value, why in [
        ("-1", "-1 is not in 0 to 281474976710655"),
        ("281474976710656", "281474976710656 is not in 0 to 281474976710655"),
        ('"1x"', "a text, and it must be a whole number"),
        ("true", "true or false, and it must be a whole number"),
    ]:
        settings.write_text(text.replace("span = 70", f"span = {value}"))
        with pytest.raises(Refusal) as refused:
            judge_spans(read_settings(str(settings))[1])
        line = f"bpfrec live: {settings}: channel 2: settings 4 Value span: {why}"
        judge(value, (refused.value.status, refused.value.line) == (2, line), refused.value.line)


def test_parts_of_seconds_are_taken_and_others_refused() -> None:
    def asked(option: str, word: str) -> float | int | None:
        given = read([option, word, "o.ch11", "rx0"])
        return given.span if option == "--span" else given.sync

    spans = {"0.5": 5_000_000, "100ms": 10**6, "2s": 2 * 10**7, "1us": 10, "0": 0, "0ms": 0, "1h30m": 54 * 10**9}
    judge("spans, in ticks", {it: asked("--span", it) for it in spans} == spans)
    judge("the longest", asked("--span", "28147497") == 281_474_970_000_000)
    syncs = {"100ms": 0.1, "0.01": 0.01, "0": 0, "5s": 5, "10m": 600}
    judge("the sync", {it: asked("--sync", it) for it in syncs} == pytest.approx(syncs))
    judge("by default", (read(["o", "rx0"]).span, read(["o", "rx0"]).sync, USUAL_SPAN) == (None, 1, 5_000_000))
    parts = "in seconds, or as 100ms, or 0"
    for option, words, needed in [
        ("--span", ["-1", "1e3", "0.0000001", "0.5us", "28147498", "1ns", "x", ""], "from 0.000001 to 28147497"),
        ("--sync", ["9ms", "0.001", "9M", "-1"], "from 0.01 to 999999999"),
    ]:
        for word in words:
            with pytest.raises(Refusal) as refused:
                read([f"{option}={word}", "o.ch11", "rx0"])
            line = f"bpfrec live: {option} needs a number {needed}, {parts}"
            judge(f"{option} {word!r}", (refused.value.status, refused.value.line) == (2, line), refused.value.line)
