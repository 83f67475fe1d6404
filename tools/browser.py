"""A page in headless Chromium, by the Chrome DevTools Protocol over pipes: what tools/test-page and the pictures of docs share."""

import base64
import fcntl
import itertools
import json
import os
import shutil
import subprocess
import tempfile
import time

NAMES = ["chromium", "chromium-browser", "google-chrome"]
SECONDS = 60
FLAGS = ["--headless=new", "--disable-gpu", "--remote-debugging-pipe", "--no-first-run", "--hide-scrollbars", "--force-color-profile=srgb"]
FLAGS += ["--disable-background-networking", "--disable-component-update", "--disable-sync", "--font-render-hinting=none"]


def program():
    """The path of Chromium, or None."""
    return next(filter(None, map(shutil.which, NAMES)), None)


class Failed(Exception):
    """What the browser said."""


class Page:
    """A page; as a context, it ends its browser."""

    def __enter__(self):
        self.folder = tempfile.TemporaryDirectory()
        given, answers = os.pipe(), os.pipe()
        # Chromium takes requests from descriptor 3, and answers to 4.
        theirs = [fcntl.fcntl(it, fcntl.F_DUPFD, 10) for it in (given[0], answers[1])]
        words = [program(), *FLAGS, *["--no-sandbox"] * (os.geteuid() == 0), f"--user-data-dir={self.folder.name}", "about:blank"]
        how = {"close_fds": False, "preexec_fn": lambda: [os.dup2(it, number) for number, it in enumerate(theirs, 3)]}
        self.process = subprocess.Popen(words, stdin=subprocess.DEVNULL, stdout=subprocess.DEVNULL, stderr=subprocess.DEVNULL, **how)
        for it in (given[0], answers[1], *theirs):
            os.close(it)
        self.requests, self.answers, self.rest = os.fdopen(given[1], "wb"), answers[0], b""
        self.numbers, self.session, self.events = itertools.count(1), None, []
        target = self.call("Target.createTarget", url="about:blank")["targetId"]
        self.session = self.call("Target.attachToTarget", targetId=target, flatten=True)["sessionId"]
        for it in ("Page", "Runtime", "Log", "Network"):
            self.call(f"{it}.enable")
        return self

    def __exit__(self, *error):
        self.process.terminate()
        self.process.wait()
        self.requests.close()
        os.close(self.answers)
        # Helpers of the browser may still write there.
        shutil.rmtree(self.folder.name, ignore_errors=True)
        self.folder._finalizer.detach()

    def receive(self):
        while b"\0" not in self.rest:
            part = os.read(self.answers, 1 << 20)
            if not part:
                raise Failed("the browser ended")
            self.rest += part
        message, _, self.rest = self.rest.partition(b"\0")
        return json.loads(message)

    def call(self, method, **parameters):
        """Calls a method, and returns its result; events that come meanwhile are kept."""
        number = next(self.numbers)
        said = {"id": number, "method": method, "params": parameters, **({"sessionId": self.session} if self.session else {})}
        self.requests.write(json.dumps(said).encode() + b"\0")
        self.requests.flush()
        while True:
            got = self.receive()
            if got.get("id") == number:
                if "error" in got:
                    raise Failed(f"{method}: {got['error']['message']}")
                return got["result"]
            self.events.append(got)

    def evaluate(self, expression):
        """The value of an expression of JavaScript, which may be a promise."""
        got = self.call("Runtime.evaluate", expression=expression, awaitPromise=True, returnByValue=True)
        if "exceptionDetails" in got:
            raise Failed(got["exceptionDetails"].get("exception", {}).get("description", got["exceptionDetails"]["text"]))
        return got["result"].get("value")

    def load(self, address, is_ready="true"):
        """Goes to an address, and waits until an expression holds there."""
        self.call("Page.navigate", url=address)
        self.evaluate("document.readyState === 'complete' || new Promise((done) => addEventListener('load', done))")
        end = time.monotonic() + SECONDS
        while not self.evaluate(is_ready):
            if time.monotonic() > end:
                raise Failed(f"{address[:100]} isn't ready after {SECONDS} seconds: {self.thrown()}")
            time.sleep(0.01)

    def thrown(self):
        """What the page threw, or wrote to the console."""
        return [it["params"] for it in self.events if it.get("method") in ("Runtime.exceptionThrown", "Runtime.consoleAPICalled")]

    def press(self, key):
        code = {"Enter": 13, " ": 32, "End": 35, "Home": 36, "ArrowLeft": 37, "ArrowUp": 38, "ArrowRight": 39, "ArrowDown": 40, "Tab": 9}[key]
        for kind in ("rawKeyDown", "keyUp"):
            self.call("Input.dispatchKeyEvent", type=kind, key=key, code="Space" if key == " " else key, windowsVirtualKeyCode=code)

    def picture(self, width, height, is_dark=False):
        """A picture of the page's upper part, as PNG."""
        self.call("Emulation.setEmulatedMedia", features=[{"name": "prefers-color-scheme", "value": "dark" if is_dark else "light"}])
        self.call("Emulation.setDeviceMetricsOverride", width=width, height=height, deviceScaleFactor=1, mobile=False)
        return base64.b64decode(self.call("Page.captureScreenshot", format="png")["data"])
