"""The page of the status in Chromium, for trials that look at it; their pictures go to bin/trials/status/."""

from browser import Browser, Page
from scripted import Flight
from support import ROOT, judge_quietly, present

PICTURES = ROOT / "bin/trials/status"
DESKTOP, WALL, PHONE = (1366, 768), (1920, 1080), (390, 844)
WORD = "document.getElementById('word').textContent"
CHANNELS = "document.querySelectorAll('.channel').length"
# Pixels by which anything is wider than the page.
TOO_WIDE = "document.documentElement.scrollWidth - window.innerWidth"


def opened(browser: Browser, flight: Flight, size: tuple[int, int], is_dark: bool = False) -> Page:
    page = Page(browser, *size, is_dark)
    page.open(present(flight.status.address()))
    judge_quietly("the page shows channels", page.wait(f"{CHANNELS} > 0"), page.complaints())
    return page
