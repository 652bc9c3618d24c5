"""A headless Chromium, asked over two pipes by its DevTools protocol.

CENSUS_CHROMIUM names it, or else it is found on the path.
"""

import base64
import collections
import contextlib
import fcntl
import json
import os
import select
import shutil
import subprocess
import time

from lib import fail

NAMES = ("chromium", "chromium-browser", "google-chrome")


def chromium():
    """The browser that is here, or none."""
    given = os.environ.get("CENSUS_CHROMIUM")
    return shutil.which(given) if given else next(filter(None, map(shutil.which, NAMES)), None)


def high(handle):
    """The same handle under a number from 10 on, so that 3 and 4 are free for the browser."""
    found = fcntl.fcntl(handle, fcntl.F_DUPFD, 10)
    os.close(handle)
    return found


class Browser:
    """A browser with one window, which goes at the end of the block. Its files are in the folder."""

    def __init__(self, folder, *words):
        self.folder, self.words = folder, words
        self.number, self.rest, self.session = 0, b"", None
        self.events = collections.deque()

    def __enter__(self):
        read, self.to = map(high, os.pipe())
        self.out, write = map(high, os.pipe())
        words = [chromium(), "--headless=new", "--no-sandbox", "--disable-gpu", "--hide-scrollbars", "--remote-debugging-pipe", "--no-first-run",
                 "--disable-background-networking", "--disable-dev-shm-usage", f"--user-data-dir={self.folder}", *self.words, "about:blank"]
        line = ["bash", "-c", f'exec "$@" 3<&{read} 4>&{write}', "browser", *words]
        quiet = {"stdin": subprocess.DEVNULL, "stdout": subprocess.DEVNULL, "stderr": subprocess.DEVNULL}
        self.runs = subprocess.Popen(line, pass_fds=(read, write), **quiet)
        os.close(read)
        os.close(write)
        pages = [target for target in self.ask("Target.getTargets")["targetInfos"] if target["type"] == "page"]
        self.session = self.ask("Target.attachToTarget", targetId=pages[0]["targetId"], flatten=True)["sessionId"]
        for domain in ("Page", "Runtime", "Log", "DOM", "Network"):
            self.ask(f"{domain}.enable")
        return self

    def __exit__(self, *_):
        with contextlib.suppress(OSError, SystemExit):
            self.session = None
            self.ask("Browser.close")
        try:
            self.runs.wait(10)
        except subprocess.TimeoutExpired:
            self.runs.kill()
            self.runs.wait()
        os.close(self.to)
        os.close(self.out)

    def message(self, seconds):
        """The next message, or none in this time."""
        while b"\0" not in self.rest:
            if not select.select([self.out], [], [], seconds)[0]:
                return None
            piece = os.read(self.out, 1 << 20)
            if not piece:
                fail("the browser ended")
            self.rest += piece
        first, _, self.rest = self.rest.partition(b"\0")
        return json.loads(first)

    def ask(self, method, **params):
        """What the browser answers to a method."""
        self.number += 1
        asked = {"id": self.number, "method": method, "params": params}
        if self.session:
            asked["sessionId"] = self.session
        os.write(self.to, json.dumps(asked).encode() + b"\0")
        end = time.monotonic() + 60
        while time.monotonic() < end:
            message = self.message(end - time.monotonic())
            if message and message.get("id") == self.number:
                if "error" in message:
                    fail(f"{method}: {message['error']}")
                return message["result"]
            if message:
                self.events.append(message)
        return fail(f"{method}: no answer in a minute")

    def run(self, text):
        """The value of an expression in the page."""
        found = self.ask("Runtime.evaluate", expression=text, returnByValue=True, awaitPromise=True)
        if "exceptionDetails" in found:
            fail(f"{text}: {found['exceptionDetails']}")
        return found["result"].get("value")

    def wait(self, text, seconds=60):
        """Waits until the expression is true in the page, and gives its value."""
        end = time.monotonic() + seconds
        while time.monotonic() < end:
            found = self.run(text)
            if found:
                return found
            time.sleep(0.02)
        return fail(f"{seconds} seconds, and not {text}; the page says {self.run('document.body.innerText')!r}")

    def open(self, address):
        """Opens a page, and waits until its scripts have begun."""
        self.ask("Page.navigate", url=address)
        self.wait("document.readyState === 'complete' && location.href !== 'about:blank'")

    def size(self, width, height=900):
        self.ask("Emulation.setDeviceMetricsOverride", width=width, height=height, deviceScaleFactor=1, mobile=False)

    def scheme(self, name):
        """Dark or light."""
        self.ask("Emulation.setEmulatedMedia", features=[{"name": "prefers-color-scheme", "value": name}])

    def picture(self, path):
        """A picture of what the window shows."""
        shot = self.ask("Page.captureScreenshot", format="png")
        with open(path, "wb") as file:
            file.write(base64.b64decode(shot["data"]))

    def faults(self):
        """What the console says that is wrong, so far."""
        self.run("0")
        found = []
        for event in self.events:
            params = event.get("params", {})
            if event.get("method") == "Runtime.exceptionThrown":
                found.append(json.dumps(params["exceptionDetails"]))
            elif event.get("method") == "Log.entryAdded" and params["entry"]["level"] in ("error", "warning"):
                found.append(params["entry"]["text"])
            elif event.get("method") == "Runtime.consoleAPICalled" and params["type"] in ("error", "warning", "assert"):
                found.append(json.dumps(params["args"]))
        return found
