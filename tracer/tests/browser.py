#!/usr/bin/env python3
"""Debian's chromium without a window, by the pipe that its tools use: numbered questions in JSON, each ended by a zero.
`browser.py PAGE.html >PICTURE.png` takes the picture of a page."""
import base64
import json
import os
import select
import shutil
import signal
import subprocess
import sys
import tempfile

NAME = "chromium"
# So many seconds pass only where it hangs.
LONG = 600


def is_there():
    return shutil.which(NAME) is not None


class Browser:
    def __init__(self):
        # Processes of the browser that outlive it by a moment may still write there.
        self.folder = tempfile.TemporaryDirectory(ignore_cleanup_errors=True)
        (asked, self.into), (self.out, answered) = os.pipe(), os.pipe()

        def prepare():
            # The browser reads 3 and writes 4.
            for old, new in zip([os.dup(asked), os.dup(answered)], (3, 4)):
                os.dup2(old, new)
        self.process = subprocess.Popen(
            [NAME, "--headless=new", "--no-sandbox", "--disable-gpu", "--disable-dev-shm-usage", "--no-first-run",
             "--remote-debugging-pipe", f"--user-data-dir={self.folder.name}", "about:blank"],
            preexec_fn=prepare, close_fds=False, start_new_session=True, stdin=subprocess.DEVNULL,
            stdout=subprocess.DEVNULL, stderr=subprocess.DEVNULL)
        os.close(asked)
        os.close(answered)
        self.number, self.rest, self.events, self.session = 0, b"", [], None
        target = self.ask("Target.createTarget", url="about:blank")["targetId"]
        self.session = self.ask("Target.attachToTarget", targetId=target, flatten=True)["sessionId"]
        for domain in ("Page", "Runtime", "Log"):
            self.ask(domain + ".enable")
        self.ask("Performance.enable")

    def message(self):
        while b"\0" not in self.rest:
            if not select.select([self.out], [], [], LONG)[0]:
                raise TimeoutError("the browser doesn't answer")
            piece = os.read(self.out, 1 << 20)
            if not piece:
                raise EOFError("the browser has ended")
            self.rest += piece
        first, _, self.rest = self.rest.partition(b"\0")
        return json.loads(first)

    def ask(self, method, **parameters):
        """The answer; what comes before it is kept."""
        self.number += 1
        asked = {"id": self.number, "method": method, "params": parameters}
        os.write(self.into, json.dumps(asked | ({"sessionId": self.session} if self.session else {})).encode() + b"\0")
        while (found := self.message()).get("id") != self.number:
            self.events.append(found)
        if "error" in found:
            raise ValueError(f"{method}: {found['error']}")
        return found["result"]

    def show_as(self, width, height, scheme):
        self.ask("Emulation.setDeviceMetricsOverride", width=width, height=height, deviceScaleFactor=1, mobile=width < 600)
        self.ask("Emulation.setEmulatedMedia", features=[{"name": "prefers-color-scheme", "value": scheme}])

    def open(self, file):
        """The page of a file, when it is there as a whole."""
        self.events.clear()
        self.ask("Page.navigate", url="file://" + os.path.abspath(file))
        while not any(event.get("method") == "Page.loadEventFired" for event in self.events):
            self.events.append(self.message())

    def messages(self):
        """What the page has said on the console, and the browser of it."""
        return [event["params"] for event in self.events
                if event.get("method") in ("Log.entryAdded", "Runtime.consoleAPICalled", "Runtime.exceptionThrown")]

    def value(self, expression):
        found = self.ask("Runtime.evaluate", expression=expression, returnByValue=True)
        if "exceptionDetails" in found:
            raise ValueError(found["exceptionDetails"])
        return found["result"].get("value")

    def seconds(self):
        """The processor's time that the page has taken."""
        return next(found["value"] for found in self.ask("Performance.getMetrics")["metrics"] if found["name"] == "ProcessTime")

    def picture(self):
        return base64.b64decode(self.ask("Page.captureScreenshot")["data"])

    def press(self, key, code=0, text=""):
        for kind in ("keyDown", "keyUp"):
            self.ask("Input.dispatchKeyEvent", type=kind, key=key, code=key, windowsVirtualKeyCode=code,
                     text=text if kind == "keyDown" else "")

    def close(self):
        os.killpg(self.process.pid, signal.SIGKILL)
        self.process.wait()
        os.close(self.into)
        os.close(self.out)
        self.folder.cleanup()


def main(page):
    browser = Browser()
    browser.show_as(1000, 1260, "light")
    browser.open(page)
    sys.stdout.buffer.write(browser.picture())
    browser.close()


if __name__ == "__main__":
    main(*sys.argv[1:])
