"""Chromium without a window, on a page of a file: what it is told, and what it answers, in its own protocol over a pair of pipes."""
import base64
import contextlib
import json
import os
import select
import shutil
import signal
import subprocess

from common import Untested

# Nothing of these is looked for on a network.
FLAGS = ["--headless", "--no-sandbox", "--disable-gpu", "--disable-dev-shm-usage", "--no-first-run", "--disable-extensions", "--disable-background-networking", "--disable-component-update",
         "--disable-sync", "--hide-scrollbars", "--remote-debugging-pipe", "--allow-file-access-from-files", "--host-resolver-rules=MAP * ~NOTFOUND"]
SECONDS = 60
NAMES = ("chromium", "chromium-headless-shell", "google-chrome")


class Browser:
    """One page of a browser. Each call has its answer; events that come meanwhile are kept in `events`."""

    def __init__(self, folder):
        program = next(filter(None, map(shutil.which, NAMES)), None)
        if not program:
            raise Untested("no chromium")
        self.last, self.events, self.session, self.left = 0, [], None, b""
        to_browser, self.written = os.pipe()
        self.read_from, from_browser = os.pipe()
        # The browser reads its commands from 3 and writes its answers to 4.
        script = f'exec "$0" "$@" 3<&{to_browser} 4>&{from_browser}'
        self.process = subprocess.Popen(["bash", "-c", script, program, *FLAGS, f"--user-data-dir={folder}/browser", "about:blank"], pass_fds=(to_browser, from_browser), start_new_session=True,
                                        env={"PATH": os.environ["PATH"], "HOME": folder}, stdin=subprocess.DEVNULL, stdout=subprocess.DEVNULL, stderr=subprocess.DEVNULL)
        os.close(to_browser)
        os.close(from_browser)
        target = next(it for it in self.ask("Target.getTargets")["targetInfos"] if it["type"] == "page")
        self.session = self.ask("Target.attachToTarget", targetId=target["targetId"], flatten=True)["sessionId"]
        for part in ("Page", "Network", "Runtime", "Accessibility"):
            self.ask(part + ".enable")

    def message(self):
        while b"\0" not in self.left:
            if not select.select([self.read_from], [], [], SECONDS)[0]:
                raise AssertionError(f"the browser said nothing for {SECONDS} seconds")
            got = os.read(self.read_from, 1 << 20)
            if not got:
                raise Untested("the browser doesn't start")
            self.left += got
        text, self.left = self.left.split(b"\0", 1)
        return json.loads(text)

    def ask(self, method, **given):
        self.last += 1
        words = {"id": self.last, "method": method, "params": given, **({"sessionId": self.session} if self.session else {})}
        with contextlib.suppress(BrokenPipeError):
            os.write(self.written, json.dumps(words).encode() + b"\0")
        while True:
            got = self.message()
            if got.get("id") == self.last:
                if "error" in got:
                    raise AssertionError(f"{method}: {got['error']}")
                return got["result"]
            self.events.append(got)

    def wait(self, method):
        while not any(it.get("method") == method for it in self.events):
            self.events.append(self.message())
        return [it["params"] for it in self.events if it.get("method") == method]

    def open(self, path, fragment=""):
        """Loads the page anew. (A way to a part of the page that is shown loads nothing.)"""
        for url in ("about:blank", f"file://{path}{fragment}"):
            self.events.clear()
            self.ask("Page.navigate", url=url)
            self.wait("Page.loadEventFired")

    def value(self, expression):
        got = self.ask("Runtime.evaluate", expression=expression, returnByValue=True, awaitPromise=True)
        if "exceptionDetails" in got:
            raise AssertionError(got["exceptionDetails"])
        return got["result"].get("value")

    def size(self, width, height):
        self.ask("Emulation.setDeviceMetricsOverride", width=width, height=height, deviceScaleFactor=1, mobile=False)

    def key(self, name, text=""):
        codes = {"Tab": 9, "Enter": 13, " ": 32}
        for kind in ("keyDown", "keyUp"):
            self.ask("Input.dispatchKeyEvent", type=kind, key=name, windowsVirtualKeyCode=codes[name], **({"text": text} if text and kind == "keyDown" else {}))

    def picture(self, path):
        with open(path, "wb") as f:
            f.write(base64.b64decode(self.ask("Page.captureScreenshot", format="png")["data"]))

    def close(self):
        with contextlib.suppress(OSError, ProcessLookupError):
            os.killpg(self.process.pid, signal.SIGKILL)
        self.process.wait()
        os.close(self.written)
        os.close(self.read_from)
