"""Looks at what the page of the status says of a run in Chromium: filters, scales, marks, UTC, recordings, pauses."""

import re
import time
from collections.abc import Callable

import pytest
from browser import Browser
from scripted import Flight, Marked, Wire, wires_of
from status_pages import DESKTOP, PHONE, PICTURES, TOO_WIDE, WALL, opened
from support import judge

pytestmark = pytest.mark.wanted("chromium")
LONG = "udp port 5004 and net 192.0.2.0/24 and not host 192.0.2.77 or " + "ether host 02:00:00:00:00:01 or " * 5 + "arp"
FILTERS = (
    "[...document.querySelectorAll('.filter')].map(it => [it.querySelector('b').textContent, it.lastChild.textContent])"
)
NAMES = "[...document.querySelectorAll('.interface')].map(it => it.textContent)"
TICKS = "[...document.querySelectorAll('path.change')].map(it => it.getAttribute('d'))"
TEXT = "document.getElementById('{}').textContent"


def mark(flight: Flight, text: str) -> None:
    moment = "2025-12-01T13:00:00.2500000Z"
    flight.status.marked(Marked(str(flight.path), 36_002_000_000, moment, text), flight.now())


def full() -> dict[int, Wire]:
    """64 channels, whose filters are long, files, expressions and all."""
    wires = wires_of(64)
    for channel, wire in wires.items():
        wire.filter = (LONG, "all", "udp port 5004", "a_listing_with_a_rather_long_name_of_the_left_wing.txt")[
            channel % 4
        ]
        wire.frames *= (1, 10, 300, 2_000)[channel % 4]
        wire.kept = 0 if wire.frames > 5_000 else 10
    wires[20].dropped = 3
    return wires


def test_each_channel_has_its_filter_in_words_and_its_changes(browser: Browser, flown: Callable) -> None:
    flight = flown({1: Wire("eth0", filter="udp port 5004", name="bus A"), 2: Wire("eth1")}, 10)
    flight.status.filter_changed(2, 1, "wire.txt")
    flight.status.filter_changed(2, 2, LONG)
    flight.pass_second()
    page = opened(browser, flight, DESKTOP)
    judge("in words", page.ask(FILTERS) == [["udp port 5004", ""], [LONG, "2 changes"]], page.ask(FILTERS))
    judge("each with its name", page.ask(NAMES) == ["bus A, eth0", "eth1"], page.ask(NAMES))
    judge("the second of a change has a tick", page.ask(TICKS) == ["", "M59.00 0h.15V30h-.15z"], page.ask(TICKS))
    flight.end_recording()
    flight.wires[2].filter = LONG
    flight.begin("next.ch11")
    flight.status.filter_changed(1, 1, "arp")
    flight.pass_second()
    judge("also those of recordings before", page.wait(f"{FILTERS}[0][1] === '1 change'", 3), page.ask(FILTERS))
    judge("a new recording is no change", page.ask(TICKS)[1].count("M") == 1, page.ask(TICKS))
    judge("which count on", page.ask(FILTERS) == [["arp", "1 change"], [LONG, "2 changes"]], page.ask(FILTERS))


@pytest.mark.parametrize("scheme", ["light", "dark"])
@pytest.mark.parametrize("size", [DESKTOP, WALL, PHONE], ids=["desktop", "wall", "phone"])
@pytest.mark.parametrize("count", [2, 12, 64])
def test_long_filters_and_marks_fit_their_screen(
    browser: Browser, flown: Callable, size: tuple[int, int], count: int, scheme: str
) -> None:
    flight = flown({channel: wire for channel, wire in full().items() if channel <= count})
    for text in ("gear up", "x" * 255, "engine 2 stop " * 15):
        flight.pass_seconds(7)
        mark(flight, text)
    for number in range(36):
        flight.end_recording(["no 5 NoEnd 2"] if number == 30 else ["yes other 0"])
        flight.begin(f"flight_{number:05}.ch11")
    flight.pass_second()
    page = opened(browser, flight, size, scheme == "dark")
    judge("nothing is wider than the page", page.ask(TOO_WIDE) <= 0, page.ask(TOO_WIDE))
    over = page.ask(
        "[...document.querySelectorAll('.filter b, .scale span, .state, .changes, td')].filter(it =>"
        " it.getBoundingClientRect().right > it.parentElement.getBoundingClientRect().right + 1).length"
    )
    judge("and nothing than what it stands in", over == 0, over)
    scales = page.ask("[...document.querySelectorAll('.scale')].map(it => it.scrollWidth - it.clientWidth)")
    judge("no scale is cut", max(scales) <= 0, max(scales))
    heights = page.ask("[...document.querySelectorAll('.scale')].map(it => it.scrollHeight - it.clientHeight)")
    judge("nor higher than its graph", max(heights) <= 1, max(heights))
    lines = page.ask("[...document.querySelectorAll('.rates')].map(it => it.getBoundingClientRect().height)")
    holds = count < 64 or size != WALL or max(lines) < 1.5 * min(lines)
    judge("the numbers of each have one line on a wall", holds, set(lines))
    least = page.ask(
        "Math.min(...[...document.querySelectorAll('main *')].map(it => parseFloat(getComputedStyle(it).fontSize)))"
    )
    judge("no letter is smaller than 12 pixels", least >= 12, least)
    page.picture(PICTURES / f"run_{count}_{size[0]}_{scheme}.png")
    widths = page.ask("[...document.querySelectorAll('#marks td')].map(it => it.getBoundingClientRect().width)")
    judge("marks have their room", len(widths) == 9 and min(widths) >= 75 and min(widths[2::3]) >= 200, widths)
    page.ask("document.getElementById('legend').scrollIntoView()")
    page.picture(PICTURES / f"run_{count}_{size[0]}_{scheme}_channels.png")
    page.ask("document.getElementById('marked').scrollIntoView()")
    page.picture(PICTURES / f"run_{count}_{size[0]}_{scheme}_below.png")
    judge("nobody complains", page.complaints() == [], page.complaints())


@pytest.mark.parametrize("frames, scale", [(8, "8.0"), (400, "400"), (12_345, "12.3 k"), (1_488_095, "1.49 M")])
def test_a_graph_has_its_scale_and_its_unit(browser: Browser, flown: Callable, frames: int, scale: str) -> None:
    flight = flown({1: Wire("eth0", frames=frames, kept=0)}, 12)
    page = opened(browser, flight, DESKTOP)
    texts = page.ask("[...document.querySelectorAll('.scale span, .span span')].map(it => it.textContent)")
    holds = texts == [f"{scale} frames/s", "0", "60 s ago", "now"]
    judge("from nothing to the highest bar, over a minute", holds, texts)
    places = page.ask(
        "(() => { const graph = document.querySelector('svg').getBoundingClientRect(); const [most, least] ="
        " [...document.querySelectorAll('.scale span')].map(it => it.getBoundingClientRect());"
        " return [most.top - graph.top, graph.bottom - least.bottom, graph.left - most.right]; })()"
    )
    judge("at its top, its bottom, and its left", all(-2 <= it <= 10 for it in places), places)


def test_the_page_has_utc_the_host_and_marks(browser: Browser, flown: Callable) -> None:
    flight = flown({1: Wire("eth0")}, 30)
    flight.status.host = "fc1.example"
    mark(flight, "gear <b>up</b>")
    flight.pass_second()
    page = opened(browser, flight, DESKTOP)
    asked = time.time()
    shown = page.ask(TEXT.format("utc"))
    near = {time.strftime("%H:%M:%S", time.gmtime(asked + it)) for it in (-2, -1, 0, 1)}
    judge("UTC", shown in near, (shown, near))
    holds = page.ask(TEXT.format("host")) == time.strftime("%Y-%m-%d, fc1.example", time.gmtime())
    judge("the day and the host", holds)
    row = page.ask("[...document.querySelectorAll('#marks td')].map(it => it.textContent)")
    holds = row == ["2025-12-01 13:00:00.250", "flight.ch11", "gear <b>up</b>"]
    judge("a mark with its time and its recording", holds, row)
    line = page.ask("document.querySelector('path.mark').getAttribute('d')")
    judge("and its place in the graph", line.startswith("M59.00 0h"), line)


def test_recordings_before_stand_in_a_list_with_an_end(browser: Browser, flown: Callable) -> None:
    flight = flown({1: Wire("eth0")}, 2)
    for number in range(40):
        flight.end_recording(["no 5 NoEnd 2"] if number == 38 else ["yes other 0"])
        flight.begin(f"f_{number:05}.ch11")
    flight.pass_second()
    page = opened(browser, flight, DESKTOP)
    rows = page.ask("[...document.querySelectorAll('#recordings tr')].map(it => it.textContent)")
    judge("the last ones", len(rows) == 32 and rows[0].startswith("f_00038.ch11"), rows[:2])
    judge("with their audits", rows[1].endswith("no 5 NoEnd 2") and rows[2].endswith("yes other 0"), rows[:3])
    judge("and how many more there were", page.ask(TEXT.format("earlier")) == "and 8 earlier recordings")


HEIGHTS = "document.querySelector('path.{}').getAttribute('d')"


def heights_of(drawn: str) -> list[float]:
    return [float(it) for it in re.findall(r"v-([0-9.]+)h", drawn)]


def test_behind_a_pause_each_bar_has_its_own_second(browser: Browser, flown: Callable) -> None:
    """Of a capture that stood still, and of a browser that slept meanwhile."""
    flight = flown({1: Wire("eth0", frames=400, kept=50)}, 30)
    page = opened(browser, flight, DESKTOP)
    page.call("Page.setWebLifecycleState", state="frozen")
    flight.pause(15)
    flight.pass_seconds(5)
    time.sleep(2.5)
    page.call("Page.setWebLifecycleState", state="active")
    holds = page.wait("document.querySelectorAll('path.offered')[0].getAttribute('d').split('M').length > 45", 6)
    judge("it goes on", holds)
    came, kept = (heights_of(page.ask(HEIGHTS.format(name))) for name in ("offered", "kept"))
    judge("what came is as high in each", len(came) >= 45 and min(came) >= 29.9, came)
    judge("what was kept half as high", set(kept) == {15.0}, kept)
    judge("so the scale stays", page.ask("document.querySelector('.scale span').textContent") == "400 frames/s")
