"""Chromium without a window, driven over its pipe: messages in JSON, each ended by an octet of 0.

    with Browser() as browser:
        browser.open(path, "card")              the file, at the address #card; waits until the page has loaded
        browser.evaluate("1 + 1")               the value of an expression, awaited if it is a promise
        browser.wait("!document.hidden")        until an expression is true
        browser.keys("Tab", "Enter", "a")       keys pressed one after the other
        browser.device(400, dark=True)          width, colours
        browser.picture(path)                   a PNG of the page as it stands
        browser.requests, browser.errors        addresses that were asked for; what scripts complained of
"""

import base64
import json
import os
import select
import shutil
import subprocess
import tempfile
import time
from pathlib import Path

KEYS = {
    "Tab": 9, "Enter": 13, "Escape": 27, " ": 32, "End": 35, "Home": 36, "ArrowLeft": 37, "ArrowUp": 38,
    "ArrowRight": 39, "ArrowDown": 40, "Delete": 46,
}
TEXTS = {"Enter": "\r"}
WORDS = [
    "--headless", "--no-sandbox", "--disable-gpu", "--no-first-run", "--disable-extensions", "--hide-scrollbars",
    "--disable-background-networking", "--disable-component-update", "--disable-sync", "--mute-audio",
    "--force-color-profile=srgb", "--font-render-hinting=none", "--disable-dev-shm-usage", "--remote-debugging-pipe",
]
PATIENCE = 60


class Failure(Exception):
    """What a page or the browser did not do."""


class Browser:
    def __init__(self):
        self.profile = tempfile.mkdtemp()
        from_browser, to_us = os.pipe()
        from_us, to_browser = os.pipe()
        self.reads, self.writes = from_browser, to_browser
        os.set_inheritable(from_us, True)
        os.set_inheritable(to_us, True)
        # it reads from 3 and writes to 4
        start = f"exec 3<&{from_us} 4>&{to_us}; exec chromium \"$@\" about:blank"
        words = [*WORDS, f"--user-data-dir={self.profile}"]
        self.process = subprocess.Popen(["sh", "-c", start, "sh", *words], pass_fds=(from_us, to_us),
                                        stdin=subprocess.DEVNULL, stdout=subprocess.DEVNULL, stderr=subprocess.DEVNULL)
        os.close(from_us)
        os.close(to_us)
        self.number, self.rest, self.session = 0, b"", None
        self.requests, self.errors, self.loads = [], [], 0
        self.attach()

    def __enter__(self):
        return self

    def __exit__(self, *_):
        self.process.terminate()
        self.process.wait()
        os.close(self.reads)
        os.close(self.writes)
        shutil.rmtree(self.profile, ignore_errors=True)

    def attach(self):
        pages = [each for each in self.call("Target.getTargets")["targetInfos"] if each["type"] == "page"]
        target = pages[0]["targetId"] if pages else self.call("Target.createTarget", url="about:blank")["targetId"]
        self.session = self.call("Target.attachToTarget", targetId=target, flatten=True)["sessionId"]
        for domain in ("Page", "Runtime", "Network", "DOM"):
            self.call(f"{domain}.enable")

    def message(self, until):
        """The next message of the browser."""
        while b"\0" not in self.rest:
            ready, _, _ = select.select([self.reads], [], [], max(0, until - time.monotonic()))
            octets = os.read(self.reads, 1 << 20) if ready else b""
            if not octets:
                raise Failure("the browser does not answer")
            self.rest += octets
        first, _, self.rest = self.rest.partition(b"\0")
        return json.loads(first)

    def noted(self, message):
        """Keeps what an event says."""
        method, params = message.get("method"), message.get("params", {})
        if method == "Network.requestWillBeSent":
            self.requests.append(params["request"]["url"])
        elif method == "Runtime.exceptionThrown":
            details = params["exceptionDetails"]
            self.errors.append(details.get("exception", {}).get("description") or details["text"])
        elif method == "Page.loadEventFired":
            self.loads += 1

    def call(self, method, **params):
        """A command of the browser, and its answer."""
        self.number += 1
        message = {"id": self.number, "method": method, "params": params}
        if self.session:
            message["sessionId"] = self.session
        os.write(self.writes, json.dumps(message).encode() + b"\0")
        until = time.monotonic() + PATIENCE
        while True:
            answer = self.message(until)
            self.noted(answer)
            if answer.get("id") == self.number:
                if "error" in answer:
                    raise Failure(f"{method}: {answer['error']['message']}")
                return answer["result"]

    def open(self, path, address=""):
        """Loads the page anew."""
        self.call("Page.navigate", url="about:blank")
        self.requests, self.errors, self.loads = [], [], 0
        self.call("Page.navigate", url=f"file://{Path(path).resolve()}#{address}")
        self.wait("document.readyState === 'complete' && document.body.dataset.ready === 'yes'")

    def evaluate(self, expression):
        answer = self.call("Runtime.evaluate", expression=expression, returnByValue=True, awaitPromise=True,
                           userGesture=True)
        if "exceptionDetails" in answer:
            details = answer["exceptionDetails"]
            raise Failure(details.get("exception", {}).get("description") or details["text"])
        return answer["result"].get("value")

    def wait(self, expression, seconds=PATIENCE):
        until = time.monotonic() + seconds
        while not self.evaluate(expression):
            if self.errors:
                raise Failure(self.errors[0])
            if time.monotonic() > until:
                raise Failure(f"not within {seconds} s: {expression}")
            time.sleep(0.02)

    def keys(self, *names, shift=False):
        for name in names:
            text = TEXTS.get(name, name if len(name) == 1 else "")
            code = KEYS.get(name) or ord(name.upper())
            key = {"key": name, "windowsVirtualKeyCode": code, "modifiers": 8 if shift else 0}
            self.call("Input.dispatchKeyEvent", type="keyDown", text=text, **key)
            self.call("Input.dispatchKeyEvent", type="keyUp", **key)

    def insert(self, text):
        """Text put where the focus is, as a paste does."""
        self.call("Input.insertText", text=text)

    def files(self, selector, path):
        """Chooses a file in an input of the page."""
        found = self.call("Runtime.evaluate", expression=f"document.querySelector({json.dumps(selector)})")
        self.call("DOM.setFileInputFiles", files=[str(Path(path).resolve())], objectId=found["result"]["objectId"])

    def device(self, width, height=900, dark=False):
        self.call("Emulation.setDeviceMetricsOverride", width=width, height=height, deviceScaleFactor=1, mobile=False)
        scheme = {"name": "prefers-color-scheme", "value": "dark" if dark else "light"}
        self.call("Emulation.setEmulatedMedia", features=[scheme])

    def picture(self, path, whole=True):
        """A PNG of the page, the whole of it or what is in view."""
        shot = self.call("Page.captureScreenshot", format="png", captureBeyondViewport=whole)
        Path(path).write_bytes(base64.b64decode(shot["data"]))
