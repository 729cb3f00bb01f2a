"""Chromium without a window, driven over the DevTools protocol through two pipes."""

import base64
import fcntl
import json
import os
import select
import subprocess
import time

# The codes of keys, and the texts that they type.
KEYS = {
    "Tab": (9, None), "Enter": (13, "\r"), "Escape": (27, None), "Space": (32, " "), "PageUp": (33, None), "PageDown": (34, None),
    "End": (35, None), "Home": (36, None), "ArrowLeft": (37, None), "ArrowUp": (38, None), "ArrowRight": (39, None),
    "ArrowDown": (40, None), "Backspace": (8, None),
}
SHIFT = 8
WORDS = [
    "--headless=new", "--remote-debugging-pipe", "--no-sandbox", "--disable-gpu", "--disable-dev-shm-usage", "--hide-scrollbars",
    "--no-first-run", "--disable-extensions", "--disable-background-networking", "--disable-component-update", "--mute-audio",
]


class Browser:
    """One process of Chromium, with a profile of its own in a folder."""

    def __init__(self, folder: str, program: str = "chromium"):
        hears, self.writes = (_high(end) for end in os.pipe())
        self.reads, tells = (_high(end) for end in os.pipe())
        script = f'exec "$0" "$@" 3<&{hears} 4>&{tells} {hears}<&- {tells}>&-'
        words = ["bash", "-c", script, program, *WORDS, f"--user-data-dir={folder}/profile", "about:blank"]
        with open(f"{folder}/chromium.log", "w", encoding="utf-8") as log:
            self.process = subprocess.Popen(words, pass_fds=(hears, tells), stdout=log, stderr=log)
        os.close(hears)
        os.close(tells)
        self.held = b""
        self.last = 0
        self.events: list[dict] = []

    def send(self, method: str, session: str | None = None, **given) -> dict:
        """Sends a command, and gives its result. What comes meanwhile is kept in `events`."""
        self.last += 1
        message = {"id": self.last, "method": method, "params": given} | ({"sessionId": session} if session else {})
        os.write(self.writes, json.dumps(message).encode("utf-8") + b"\0")
        deadline = time.monotonic() + 60
        while True:
            found = self._message(deadline)
            if found.get("id") == self.last:
                if "error" in found:
                    raise RuntimeError(f"{method}: {found['error']}")
                return found["result"]
            if "method" in found:
                self.events.append(found)

    def _message(self, deadline: float) -> dict:
        while b"\0" not in self.held:
            if not select.select([self.reads], [], [], max(0, deadline - time.monotonic()))[0]:
                raise TimeoutError("chromium doesn't answer")
            got = os.read(self.reads, 1 << 20)
            if not got:
                raise RuntimeError("chromium has ended")
            self.held += got
        text, _, self.held = self.held.partition(b"\0")
        return json.loads(text)

    def page(self) -> "Page":
        """A new page."""
        target = self.send("Target.createTarget", url="about:blank")["targetId"]
        return Page(self, self.send("Target.attachToTarget", targetId=target, flatten=True)["sessionId"], target)

    def end(self):
        self.send("Browser.close")
        self.process.wait(20)


class Page:
    """A page, with hands on its mouse and its keys."""

    def __init__(self, browser: Browser, session: str, target: str):
        self.browser, self.session, self.target = browser, session, target
        for domain in ("Page", "Runtime", "Log", "Network"):
            self.send(f"{domain}.enable")

    def send(self, method: str, **given) -> dict:
        return self.browser.send(method, self.session, **given)

    def close(self):
        self.browser.send("Target.closeTarget", targetId=self.target)

    def open(self, url: str):
        self.send("Page.navigate", url=url)
        self.wait("document.readyState === 'complete'", "the page")

    def js(self, expression: str):
        """The value of an expression of JavaScript; promises are waited for."""
        found = self.send("Runtime.evaluate", expression=expression, awaitPromise=True, returnByValue=True)
        if "exceptionDetails" in found:
            raise RuntimeError(f"{expression}: {found['exceptionDetails']}")
        return found["result"].get("value")

    def wait(self, expression: str, what: str, seconds: float = 15):
        """Waits until an expression holds, and gives its value."""
        deadline = time.monotonic() + seconds
        while not (found := self.js(expression)):
            if time.monotonic() > deadline:
                raise TimeoutError(f"{what}: not within {seconds} seconds: {expression}")
            time.sleep(0.05)
        return found

    def text(self, name: str) -> str:
        """The text of the element of an id."""
        return self.js(f"document.getElementById({json.dumps(name)}).textContent.trim()")

    def size(self, width: int, height: int):
        """The size of the window; a narrow one is a telephone's."""
        self.send("Emulation.setDeviceMetricsOverride", width=width, height=height, deviceScaleFactor=1, mobile=width < 600)

    def scheme(self, name: str):
        """Whether the reader prefers dark or light."""
        self.send("Emulation.setEmulatedMedia", features=[{"name": "prefers-color-scheme", "value": name}])

    def key(self, name: str, shift: bool = False, times: int = 1):
        """Presses a key and lets it go."""
        code, text = KEYS[name]
        key = " " if name == "Space" else name
        given = {"key": key, "code": name, "windowsVirtualKeyCode": code, "modifiers": SHIFT if shift else 0}
        for _ in range(times):
            self.send("Input.dispatchKeyEvent", type="keyDown" if text else "rawKeyDown", **given, **({"text": text} if text else {}))
            self.send("Input.dispatchKeyEvent", type="keyUp", **given)

    def mouse(self, kind: str, x: float, y: float, held: bool = False, clicks: int = 0):
        given = {"button": "left" if held or clicks else "none", "buttons": int(held), "clickCount": clicks}
        self.send("Input.dispatchMouseEvent", type=kind, x=x, y=y, **given)

    def hover(self, x: float, y: float):
        self.mouse("mouseMoved", x, y)

    def click(self, x: float, y: float, clicks: int = 1):
        self.hover(x, y)
        for number in range(1, clicks + 1):
            self.mouse("mousePressed", x, y, held=True, clicks=number)
            self.mouse("mouseReleased", x, y, clicks=number)

    def drag(self, points: list[tuple[float, float]]):
        """Presses at the first point, goes to the others, and lets go at the last."""
        self.hover(*points[0])
        self.mouse("mousePressed", *points[0], held=True, clicks=1)
        for point in points[1:]:
            self.mouse("mouseMoved", *point, held=True)
        self.mouse("mouseReleased", *points[-1], clicks=1)

    def middle(self, selector: str) -> tuple[float, float]:
        """Where the middle of an element stands in the window; it is scrolled to."""
        found = self.js(f"""(() => {{ const element = document.querySelector({json.dumps(selector)});
            element.scrollIntoView({{ block: "center" }}); const box = element.getBoundingClientRect();
            return [box.left + box.width / 2, box.top + box.height / 2]; }})()""")
        return found[0], found[1]

    def press(self, selector: str):
        """Clicks in the middle of an element."""
        self.click(*self.middle(selector))

    def screenshot(self, path: str):
        """A picture of the whole page."""
        found = self.send("Page.captureScreenshot", format="png", captureBeyondViewport=True)
        with open(path, "wb") as file:
            file.write(base64.b64decode(found["data"]))

    def faults(self) -> list[str]:
        """What the console told as an error or a warning since the last call."""
        own = [event for event in self.browser.events if event.get("sessionId") == self.session]
        self.browser.events.clear()
        return [text for event in own if (text := _fault(event))]


def _fault(event: dict) -> str | None:
    given = event["params"]
    if event["method"] == "Runtime.exceptionThrown":
        return json.dumps(given["exceptionDetails"])
    if event["method"] == "Runtime.consoleAPICalled" and given["type"] in ("error", "warning", "assert"):
        return json.dumps(given["args"])
    if event["method"] == "Log.entryAdded" and given["entry"]["level"] in ("error", "warning"):
        return f"{given['entry']['text']} {given['entry'].get('url', '')}"
    return None


def _high(number: int) -> int:
    """A descriptor above those that a shell redirects by one digit."""
    moved = fcntl.fcntl(number, fcntl.F_DUPFD_CLOEXEC, 20)
    os.close(number)
    return moved
