"""Chromium without a window, driven through two pipes by its DevTools protocol: opens pages, asks them, takes
pictures."""

import base64
import json
import os
import select
import subprocess
import time
from pathlib import Path
from typing import Any

SECONDS = 60
# By which the browser asks for nothing by itself, and runs as root in a container.
WORDS = (
    "--headless",
    "--no-sandbox",
    "--disable-gpu",
    "--disable-dev-shm-usage",
    "--disable-background-networking",
    "--disable-component-update",
    "--disable-extensions",
    "--hide-scrollbars",
    "--no-first-run",
    "--no-proxy-server",
    "--remote-debugging-pipe",
)


class Browser:
    """A browser with a profile of its own, and what its pages told."""

    def __init__(self, profile: Path) -> None:
        here_in, self.to = os.pipe()
        self.come, here_out = os.pipe()
        # The protocol is on its descriptors 3 and 4.
        command = f"exec chromium {' '.join(WORDS)} --user-data-dir='{profile}' 3<&{here_in} 4>&{here_out}"
        self.log = open(profile.with_suffix(".log"), "wb")
        self.process = subprocess.Popen(
            ["bash", "-c", command],
            pass_fds=(here_in, here_out),
            stdin=subprocess.DEVNULL,
            stdout=self.log,
            stderr=self.log,
            start_new_session=True,
        )
        os.close(here_in)
        os.close(here_out)
        self.held, self.number = b"", 0
        self.events: list[dict] = []

    def close(self) -> None:
        os.close(self.to)
        try:
            self.process.wait(5)
        except subprocess.TimeoutExpired:
            self.process.kill()
            self.process.wait()
        os.close(self.come)
        self.log.close()

    def message(self, end: float) -> dict:
        while b"\0" not in self.held:
            ready, _, _ = select.select([self.come], [], [], max(end - time.monotonic(), 0))
            part = os.read(self.come, 1 << 20) if ready else b""
            if not part:
                raise TimeoutError("the browser says nothing")
            self.held += part
        one, _, self.held = self.held.partition(b"\0")
        return json.loads(one)

    def call(self, method: str, session: str | None = None, **words: Any) -> dict:
        """What a method of the protocol answers."""
        self.number += 1
        asked = {"id": self.number, "method": method, "params": words, **({"sessionId": session} if session else {})}
        os.write(self.to, json.dumps(asked).encode() + b"\0")
        end = time.monotonic() + SECONDS
        while (told := self.message(end)).get("id") != self.number:
            self.events.append(told)
        if "error" in told:
            raise RuntimeError(f"{method}: {told['error']}")
        return told["result"]


class Page:
    """A page of a browser, of so many pixels."""

    def __init__(self, browser: Browser, width: int, height: int, is_dark: bool = False) -> None:
        self.browser = browser
        target = browser.call("Target.createTarget", url="about:blank")["targetId"]
        self.session = browser.call("Target.attachToTarget", targetId=target, flatten=True)["sessionId"]
        for name in ("Page", "Runtime", "Log", "Network"):
            self.call(f"{name}.enable")
        scheme = {"name": "prefers-color-scheme", "value": "dark" if is_dark else "light"}
        self.call("Emulation.setEmulatedMedia", features=[scheme])
        self.resize(width, height)

    def call(self, method: str, **words: Any) -> dict:
        return self.browser.call(method, self.session, **words)

    def resize(self, width: int, height: int) -> None:
        self.call(
            "Emulation.setDeviceMetricsOverride", width=width, height=height, deviceScaleFactor=1, mobile=width < 600
        )

    def open(self, url: str) -> None:
        self.call("Page.navigate", url=url)

    def ask(self, expression: str) -> Any:
        """What JavaScript says."""
        found = self.call("Runtime.evaluate", expression=expression, returnByValue=True)
        if "exceptionDetails" in found:
            raise RuntimeError(str(found["exceptionDetails"]))
        return found["result"].get("value")

    def wait(self, expression: str, seconds: float = 15) -> bool:
        """Whether it holds in that time."""
        end = time.monotonic() + seconds
        while time.monotonic() < end:
            if self.ask(expression):
                return True
            time.sleep(0.05)
        return False

    def picture(self, path: Path) -> None:
        path.write_bytes(base64.b64decode(self.call("Page.captureScreenshot", format="png")["data"]))

    def complaints(self) -> list[str]:
        """What the page or its policy found wrong."""
        self.ask("1")
        return [
            str(it["params"])
            for it in self.browser.events
            if it.get("sessionId") == self.session
            and (
                it["method"] in ("Runtime.exceptionThrown", "Log.entryAdded")
                or it["method"] == "Runtime.consoleAPICalled"
            )
        ]

    def requests(self) -> list[str]:
        """What the page asked for, by URL."""
        return [
            it["params"]["request"]["url"]
            for it in self.browser.events
            if it.get("sessionId") == self.session and it["method"] == "Network.requestWillBeSent"
        ]
