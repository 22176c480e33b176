"""A headless Chromium for the tests, held by the DevTools protocol over two pipes."""

import base64
import json
import os
import re
import select
import shutil
import subprocess
import tempfile
import time

NAMES = ("chromium", "chromium-browser", "google-chrome")
SECONDS = 60
FLAGS = ("--headless=new", "--no-sandbox", "--disable-gpu", "--remote-debugging-pipe", "--mute-audio", "--no-first-run",
         "--disable-extensions", "--autoplay-policy=user-gesture-required", "--hide-scrollbars", "--disable-dev-shm-usage")
KEYS = {"Enter": ("\r", 13), "Tab": ("", 9), " ": (" ", 32), "ArrowRight": ("", 39), "Home": ("", 36)}


def found():
    """The path of a Chromium, or None."""
    return next(filter(None, map(shutil.which, NAMES)), None)


def version():
    """The first number of its version; 0 where there is none."""
    told = subprocess.run([found(), "--version"], capture_output=True, text=True, check=False).stdout if found() else ""
    numbers = re.search(r"([0-9]+)\.[0-9]+", told)
    return int(numbers[1]) if numbers else 0


class Browser:
    """A browser with one page, as wide and high as is said, in light or dark."""

    def __init__(self, url, width=1280, height=900, scheme="light"):
        self._folder = tempfile.TemporaryDirectory(ignore_cleanup_errors=True)
        (to_read, self._to), (self._from, to_write) = os.pipe(), os.pipe()
        words = [found(), *FLAGS, f"--user-data-dir={self._folder.name}", "about:blank"]
        text = f'exec "$@" 3<&{to_read} 4>&{to_write}'
        self._process = subprocess.Popen(["sh", "-c", text, "sh", *words], pass_fds=(to_read, to_write),
                                         stdout=subprocess.DEVNULL, stderr=subprocess.DEVNULL)
        os.close(to_read)
        os.close(to_write)
        self._number, self._rest, self.said, self._session = 0, b"", [], None
        targets = self.call("Target.getTargets")["targetInfos"]
        page = next(target["targetId"] for target in targets if target["type"] == "page")
        self._session = self.call("Target.attachToTarget", targetId=page, flatten=True)["sessionId"]
        self.call("Runtime.enable")
        self.call("Page.enable")
        self.call("Emulation.setDeviceMetricsOverride", width=width, height=height, deviceScaleFactor=1, mobile=False)
        self.call("Emulation.setEmulatedMedia", features=[{"name": "prefers-color-scheme", "value": scheme}])
        self.call("Page.navigate", url=url)

    def call(self, method, **words):
        """Calls a method of the protocol, and gives its result."""
        self._number += 1
        order = {"id": self._number, "method": method, "params": words}
        if self._session:
            order["sessionId"] = self._session
        os.write(self._to, json.dumps(order).encode() + b"\0")
        until = time.monotonic() + SECONDS
        while time.monotonic() < until:
            for told in self._read(until):
                if told.get("id") == self._number:
                    if "error" in told:
                        raise RuntimeError(f"{method}: {told['error']}")
                    return told["result"]
        raise TimeoutError(method)

    def _read(self, until):
        """The messages that have come; what the page's console says is kept in `said`."""
        if not select.select([self._from], [], [], max(0, until - time.monotonic()))[0]:
            return []
        piece = os.read(self._from, 1 << 20)
        if not piece:
            raise ConnectionError("the browser has ended")
        self._rest += piece
        *whole, self._rest = self._rest.split(b"\0")
        messages = [json.loads(message) for message in whole]
        for message in messages:
            if message.get("method") in ("Runtime.exceptionThrown", "Runtime.consoleAPICalled"):
                self.said.append(json.dumps(message["params"])[:400])
        return messages

    def ask(self, expression):
        """The value of an expression in the page."""
        told = self.call("Runtime.evaluate", expression=expression, returnByValue=True, awaitPromise=True)
        if "exceptionDetails" in told:
            raise RuntimeError(f"{expression}: {told['exceptionDetails']}")
        return told["result"].get("value")

    def wait(self, expression, seconds=30):
        """Waits until an expression is true in the page, and gives whether it came to be."""
        until = time.monotonic() + seconds
        while time.monotonic() < until:
            if self.ask(expression):
                return True
            time.sleep(0.03)
        return False

    def click(self, selector, part=0.5):
        """Clicks with the mouse into an element, at this part of its width."""
        self.ask(f"document.querySelector({selector!r}).scrollIntoView({{block: 'nearest'}})")
        box = self.ask(f"JSON.stringify(document.querySelector({selector!r}).getBoundingClientRect())")
        box = json.loads(box)
        place = {"x": box["x"] + box["width"] * part, "y": box["y"] + box["height"] / 2}
        for kind in ("mouseMoved", "mousePressed", "mouseReleased"):
            self.call("Input.dispatchMouseEvent", type=kind, button="left", clickCount=1, **place)

    def press(self, key):
        """Presses a key."""
        text, code = KEYS.get(key, (key, ord(key[0].upper())))
        how = {"key": key, "windowsVirtualKeyCode": code}
        self.call("Input.dispatchKeyEvent", type="keyDown" if text else "rawKeyDown", text=text, **how)
        self.call("Input.dispatchKeyEvent", type="keyUp", **how)

    def type(self, text):
        """Types a text into what has the focus, in place of what stands there."""
        self.ask("document.activeElement.select()")
        self.call("Input.insertText", text=text)

    def picture(self, path):
        """Writes a picture of the page."""
        told = self.call("Page.captureScreenshot", format="png")
        with open(path, "wb") as file:
            file.write(base64.b64decode(told["data"]))

    def close(self):
        """Ends the browser, if that wasn't done before."""
        if self._process.returncode is not None:
            return
        self._process.kill()
        self._process.wait()
        os.close(self._to)
        os.close(self._from)
        self._folder.cleanup()
