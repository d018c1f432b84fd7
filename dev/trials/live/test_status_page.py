"""Looks at the page of the status in Chromium: what it shows, at which widths, and what it says when nobody answers.

Its pictures go to bin/trials/status/, to be looked at.
"""

import html.parser
import json
import re
from collections.abc import Callable

import pytest
from bpfrec.formats.clock_state import ClockState
from browser import Browser, Page
from scripted import PAGE, Wire, wires_of
from status_pages import CHANNELS, DESKTOP, PHONE, PICTURES, TOO_WIDE, WALL, WORD, opened
from support import judge, judge_quietly

pytestmark = pytest.mark.wanted("chromium")
LONG_NAME = "enp130s0f1np1-alternative-name-of-an-interface-of-the-left-wing.100"
STATES = "[...document.querySelectorAll('.channel')].map(it => [it.className, it.querySelector('.state').textContent])"


def losing() -> dict[int, Wire]:
    """64 channels, five of which aren't well."""
    wires = wires_of(64)
    wires[5].end, wires[9].kept, wires[33].waited = 40, 0, 140
    wires[20].dropped, wires[20].drops_at = 30, (50, 51, 60)
    wires[41].dropped, wires[41].drops_at = 5, (3,)
    wires[50].interface = LONG_NAME
    return wires


# ---- the file


class Links(html.parser.HTMLParser):
    """What a page would fetch."""

    def __init__(self) -> None:
        super().__init__()
        self.found: list[str] = []

    def handle_starttag(self, tag: str, attributes: list) -> None:
        self.found += [value for name, value in attributes if name in ("src", "href", "action") and value != "data:,"]


def test_the_page_fetches_nothing_from_outside() -> None:
    links = Links()
    links.feed(PAGE.decode())
    text = PAGE.decode().replace("http://www.w3.org/2000/svg", "")
    judge("the page fetches nothing", links.found == [], links.found)
    holds = not re.search(r"https?:|@import|url\(|import\(|innerHTML|document\.write|eval", text)
    judge("nor by its style or script", holds)
    judge("nothing in it blinks", not re.search(r"animation|@keyframes|blink|transition", text))


# ---- what it shows


@pytest.mark.parametrize("scheme", ["light", "dark"])
@pytest.mark.parametrize("size", [DESKTOP, WALL, PHONE], ids=["desktop", "wall", "phone"])
@pytest.mark.parametrize("count", [1, 64])
def test_the_page_fits_its_screen(
    browser: Browser, flown: Callable, size: tuple[int, int], count: int, scheme: str
) -> None:
    flight = flown(losing() if count == 64 else {1: Wire(LONG_NAME, kept=20)})
    page = opened(browser, flight, size, scheme == "dark")
    judge("all channels are there", page.ask(CHANNELS) == count)
    judge("nothing is wider than the page", page.ask(TOO_WIDE) <= 0, page.ask(TOO_WIDE))
    judge("which is as wide as what it is looked at on", page.ask("window.innerWidth") == size[0])
    heights = page.ask("[...document.querySelectorAll('svg')].map(it => it.getBoundingClientRect().height)")
    judge("each has its drawing", len(heights) == count and min(heights) >= 20)
    drawn = page.ask("[...document.querySelectorAll('path.kept')].filter(it => it.getAttribute('d')).length")
    judge("and what was kept is drawn", drawn == (count if count == 1 else 63), drawn)
    least = page.ask(
        "Math.min(...[...document.querySelectorAll('main *')].map(it => parseFloat(getComputedStyle(it).fontSize)))"
    )
    judge("no letter is smaller than 12 pixels", least >= 12, least)
    big = page.ask("parseFloat(getComputedStyle(document.getElementById('word')).fontSize)")
    judge("and its state can be read at arm's length", big >= 27, big)
    page.picture(PICTURES / f"{count}_{size[0]}_{scheme}.png")
    judge("nobody complains", page.complaints() == [], page.complaints())
    address = flight.status.address()
    holds = set(page.requests()) <= {address, f"{address}status.json", "data:,"}
    judge("only its own data were fetched", holds, page.requests())


def test_each_alarm_has_its_colour_and_its_sentence(browser: Browser, flown: Callable) -> None:
    """Each alarm by its colour, its words and its sentence."""
    page = opened(browser, flown(losing()), DESKTOP)
    judge("the page says how many", page.ask(WORD) == "4 ALARMS, RECORDING", page.ask(WORD))
    judge("its band is red", page.ask("document.getElementById('band').className") == "alarm")
    found = dict(enumerate(page.ask(STATES), 1))
    wanted = {
        5: ["channel alarm", "SILENT"],
        9: ["channel alarm", "KEEPS NOTHING"],
        20: ["channel alarm", "LOSES FRAMES"],
        33: ["channel alarm", "PIPE WAITS"],
        41: ["channel warning", "LOST FRAMES"],
    }
    holds = found == {it: wanted.get(it, ["channel ok", "ok"]) for it in range(1, 65)}
    judge("each channel has its word", holds, found)
    rows = page.ask("[...document.querySelectorAll('#alarms li')].map(it => it.textContent)")
    judge("and its sentence", len(rows) == 5 and rows[0] == "ALARM: channel 5 (eth4): no frame came for 35 s", rows)
    judge("and the last is a warning", rows[-1].startswith("Warning: channel 41 (eth40): frames were lost: 5"), rows)
    links = page.ask("[...document.querySelectorAll('#alarms a')].map(it => document.querySelector(it.hash).className)")
    judge("each leads to its channel", links == ["channel alarm"] * 4 + ["channel warning"], links)
    judge("the title says it too", page.ask("document.title") == "4 ALARMS, RECORDING - bpfrec")
    names = page.ask("[...document.querySelectorAll('.interface')].map(it => it.textContent)")
    judge("a long name stands whole in the text", names[49] == LONG_NAME)
    over = page.ask(
        "[...document.querySelectorAll('.head > *')].filter(it => it.scrollWidth > it.clientWidth"
        " && getComputedStyle(it).overflowX === 'visible' && getComputedStyle(it).display === 'block').length"
    )
    judge("and lies over nothing", over == 0, over)
    lines = page.ask("[...document.querySelectorAll('.head')].map(it => it.getBoundingClientRect().height)")
    judge("nor breaks its line", lines[49] == lines[0], lines)
    page.resize(*WALL)
    cut = page.ask("[...document.querySelectorAll('.interface')].filter(it => it.scrollWidth > it.clientWidth).length")
    judge("usual names are never cut", cut == 1, cut)
    heights = page.ask("[...document.querySelectorAll('.rates')].map(it => it.getBoundingClientRect().height)")
    judge("and a channel's numbers have one line", len(set(heights)) == 1, set(heights))


def test_the_graph_spreads_a_packet_over_its_seconds(browser: Browser, flown: Callable) -> None:
    """Frames that are kept in packets of twenty seconds are as many each second."""
    page = opened(browser, flown({1: Wire("eth0", frames=40, kept=25)}), DESKTOP)
    drawn = page.ask("document.querySelector('path.kept').getAttribute('d')")
    heights = {float(it) for it in re.findall(r"v-([0-9.]+)h", drawn)}
    judge("a quarter of what came, in each second", heights == {7.5}, heights)
    came = {
        float(it)
        for it in re.findall(r"v-([0-9.]+)h", page.ask("document.querySelector('path.offered').getAttribute('d')"))
    }
    judge("of what came all", came == {30.0}, came)


CONTRAST = """(() => {
  const light = text => {
    const [r, g, b] = text.match(/[0-9.]+/g).slice(0, 3).map(it => it / 255)
      .map(it => it <= 0.03928 ? it / 12.92 : ((it + 0.055) / 1.055) ** 2.4);
    return 0.2126 * r + 0.7152 * g + 0.0722 * b;
  };
  const paper = it => {
    const found = getComputedStyle(it).backgroundColor;
    return found === 'rgba(0, 0, 0, 0)' && it.parentElement ? paper(it.parentElement) : found;
  };
  const seen = [...document.querySelectorAll('body *')].filter(it => it.children.length === 0 && it.textContent.trim()
    && !['SCRIPT', 'STYLE'].includes(it.tagName) && it.getClientRects().length);
  return seen.map(it => {
    const [one, two] = [light(getComputedStyle(it).color), light(paper(it))].sort((a, b) => b - a);
    return [(one + 0.05) / (two + 0.05), it.textContent];
  }).sort((a, b) => a[0] - b[0])[0];
})()"""


@pytest.mark.parametrize("scheme", ["light", "dark"])
def test_texts_stand_out_as_wcag_asks(browser: Browser, flown: Callable, scheme: str) -> None:
    """Texts stand out as WCAG 2 asks (4.5 to 1)."""
    page = opened(browser, flown(losing()), DESKTOP, scheme == "dark")
    least, text = page.ask(CONTRAST)
    judge(f"the least contrast is {least:.1f}", least >= 4.5, text)


def test_the_page_goes_on_with_the_run(browser: Browser, flown: Callable) -> None:
    flight = flown({1: Wire("eth0"), 2: Wire("eth1")}, 10)
    page = opened(browser, flight, DESKTOP)
    holds = page.ask(WORD) == "RECORDING" and page.ask("document.getElementById('band').className") == "ok"
    judge("all is well", holds)
    flight.wires[2].dropped = 7
    flight.pass_second()
    judge("what comes is shown within two seconds", page.wait(f"{WORD} === '1 ALARM, RECORDING'", 3), page.ask(WORD))
    flight.wires[3] = Wire("eth2")
    flight.counts["eth2"], flight.open[3] = [0] * 6, 0
    flight.end_recording(["no 5 NoEnd 2"], 1)
    flight.begin("next.ch11")
    flight.pass_second()
    judge("a channel that comes too", page.wait(f"{CHANNELS} === 3", 3))
    rows = page.ask("[...document.querySelectorAll('#recordings td')].map(it => it.textContent)")
    holds = rows[0] == "flight.ch11" and rows[2] == "no 5 NoEnd 2"
    judge("recordings before stand below, with their audit", holds, rows)
    page.picture(PICTURES / "audit_no.png")
    flight.end_recording()
    flight.status.ended(flight.now())
    judge("the end is told", page.wait(f"{WORD}.endsWith('ENDED')", 3), page.ask(WORD))


def test_the_clock_has_its_tile(browser: Browser, flown: Callable) -> None:
    flight = flown({1: Wire("eth0")}, 10)
    page = opened(browser, flight, PHONE)
    tile = "['clock', 'source'].map(it => document.getElementById(it).textContent).join('|')"
    for state, wanted in {
        ClockState(True, 0.000125, "chrony (192.0.2.1)"): "synchronised|chrony (192.0.2.1), off by at most 0.000125 s",
        ClockState(True, 0.0005): "synchronised|off by at most 0.000500 s",
        ClockState(False, 16.0): "not synchronised|",
        ClockState(): "-|",
    }.items():
        flight.status.clock_seen(state, 0.001)
        flight.pass_second()
        judge(wanted, page.wait(f"{tile} === {wanted!r}", 4), page.ask(tile))
        judge_quietly("it isn't wider than a phone", page.ask(TOO_WIDE) <= 0)


def test_a_lost_connection_never_looks_live(browser: Browser, flown: Callable) -> None:
    """What is old never looks live."""
    flight = flown({1: Wire("eth0"), 2: Wire("eth1", kept=0)})
    page = opened(browser, flight, DESKTOP)
    flight.status.server.stop()
    judge("it is said", page.wait(f"{WORD} === 'CONNECTION LOST'", 6), page.ask(WORD))
    judge("the band is neither green nor red", page.ask("document.getElementById('band').className") == "stale")
    looks = page.ask("(it => [it.filter, it.opacity])(getComputedStyle(document.querySelector('main')))")
    judge("and what stands below is grey", looks == ["grayscale(1)", "0.5"], looks)
    told = page.ask("document.getElementById('about').textContent")
    judge("with how old it is", re.fullmatch(r"no answer for \d+ s: what stands below is old", told), told)
    page.picture(PICTURES / "lost.png")


def test_a_run_that_stands_still(browser: Browser, flown: Callable) -> None:
    """The server answers, but what it tells is old."""
    flight = flown({1: Wire("eth0")})
    page = opened(browser, flight, DESKTOP)
    flight.status.server.answers.clock = lambda: flight.now() + 9.0
    judge("it is said", page.wait(f"{WORD} === 'CONNECTION LOST'", 6), page.ask(WORD))
    told = page.ask("document.getElementById('about').textContent")
    judge("and why", told.startswith("the recorder tells nothing new for 9 s"), told)
    flight.status.server.answers.clock = lambda: flight.now() + 0.1
    judge("it is live again", page.wait(f"{WORD} === 'RECORDING'", 6), page.ask(WORD))


def test_no_name_becomes_html(browser: Browser, flown: Callable) -> None:
    """No name becomes HTML, or a script."""
    name = "<img src=x onerror=\"document.title='bad'\"></script><script>document.title='bad'</script>"
    flight = flown({1: Wire("x")}, 5)
    flight.wires[1].interface, flight.counts = name, {}
    (flight.folder / "a").mkdir()
    flight.path = flight.folder / "a" / "b"
    flight.path.write_bytes(b"")
    flight.status.recording_begun(2, str(flight.path), flight.setups(), flight.now())
    flight.status.model.going[2].name = name
    flight.status.tick(flight.now() + 1)
    page = opened(browser, flight, DESKTOP)
    judge("the name is shown", page.ask("document.querySelector('.interface').textContent") == name)
    judge("also that of the recording", name in page.ask("document.getElementById('about').textContent"))
    judge("as a text", page.ask("document.querySelectorAll('img, body script').length") == 1)
    judge("and nothing of it ran", "bad" not in page.ask("document.title") and not page.complaints(), page.complaints())


def test_a_script_that_got_in_does_not_run(browser: Browser, flown: Callable) -> None:
    """A script that got in by whatever way doesn't run."""
    page = opened(browser, flown({1: Wire("eth0")}, 5), DESKTOP)
    page.ask(
        "(it => { it.textContent = 'window.wasRun = 1'; document.body.append(it) })(document.createElement('script'))"
    )
    judge("it isn't run", page.ask("window.wasRun === undefined"))
    found = page.ask("fetch('http://127.0.0.1:1/').catch(() => 0) && 1")
    holds = found == 1 and page.wait("1") and refused(page)
    judge("nor may anything else be asked", holds, json.dumps(page.complaints())[:500])


def refused(page: Page) -> bool:
    for _ in range(50):
        if any("Content Security Policy" in it for it in page.complaints()):
            return True
        page.wait("false", 0.1)
    return False
