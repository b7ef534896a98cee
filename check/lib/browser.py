"""A Chromium without a window, told what to do by its DevTools protocol over two pipes, where each message ends in a zero byte."""
import base64
import json
import os
import shutil
import subprocess
import tempfile

from lib.patience import patience, until


def is_here():
    return shutil.which("chromium") is not None


class Browser:
    """A browser that keeps its cookies as long as it runs. What is done is done in the tab of `self.session`."""

    def __init__(self, width=1280, height=800):
        self.profile = tempfile.TemporaryDirectory(ignore_cleanup_errors=True)
        asked, self.ask = os.pipe()
        self.told, tell = os.pipe()
        words = ["--headless=new", "--hide-scrollbars", "--no-sandbox", "--disable-gpu", f"--user-data-dir={self.profile.name}", "--remote-debugging-pipe"]
        # The browser reads what it is told from 3, and answers to 4.
        call = ["bash", "-c", f'exec "$0" "$@" 3<&{asked} 4>&{tell}', shutil.which("chromium"), *words, f"--window-size={width},{height}"]
        self.process = subprocess.Popen(call, pass_fds=(asked, tell), stderr=subprocess.DEVNULL)
        os.close(asked)
        os.close(tell)
        self.number, self.rest = 0, b""
        self.tab()

    def tab(self):
        """Opens a tab, and goes on in it. Its session leads back there."""
        self.session = None
        target = self.do("Target.createTarget", url="about:blank")["targetId"]
        self.session = self.do("Target.attachToTarget", targetId=target, flatten=True)["sessionId"]
        return self.session

    def message(self):
        while b"\0" not in self.rest:
            piece = os.read(self.told, 1 << 16)
            if not piece:
                raise OSError("the browser has ended")
            self.rest += piece
        message, self.rest = self.rest.split(b"\0", 1)
        return json.loads(message)

    def do(self, method, **words):
        """What the browser answers to a method of the protocol."""
        self.number += 1
        asked = {"id": self.number, "method": method, "params": words}
        if self.session:
            asked["sessionId"] = self.session
        os.write(self.ask, json.dumps(asked).encode() + b"\0")
        while True:
            message = self.message()
            if message.get("id") == self.number:
                if "error" in message:
                    raise OSError(f"{method}: {message['error']['message']}")
                return message["result"]

    def value(self, code):
        """The value of an expression in the page."""
        return self.do("Runtime.evaluate", expression=code, awaitPromise=True, returnByValue=True)["result"].get("value")

    def wait(self):
        """Waits until the page is there."""
        if not until(lambda: self.value("document.readyState") == "complete"):
            raise OSError("the page doesn't come")

    def open(self, url):
        found = self.do("Page.navigate", url=url)
        if "errorText" in found:
            raise OSError(found["errorText"])
        self.wait()

    def do_and_wait(self, code):
        """Does what leads to another page, a click for example, and waits until that is there."""
        self.value(f"window.isOld = true; {code}")
        self.wait_for_another(code)

    def has_another(self):
        """Whether another page is there, whole. One that is just left answers nothing."""
        try:
            return self.value("window.isOld === undefined && document.readyState === 'complete'")
        except OSError as fault:
            if "navigated or closed" in str(fault):
                return False
            raise

    def wait_for_another(self, what):
        """Waits until another page is there than the one that was marked as old."""
        if not until(self.has_another):
            raise OSError(f"no page comes after {what}")

    def back(self):
        """Goes back as by the button, and waits until the page is there."""
        history = self.do("Page.getNavigationHistory")
        entry = history["entries"][history["currentIndex"] - 1]["id"]
        self.value("window.isOld = true")
        self.do("Page.navigateToHistoryEntry", entryId=entry)
        self.wait_for_another("going back")

    def reload(self):
        """Reloads the page. A form that led to it is sent again."""
        self.value("window.isOld = true")
        self.do("Page.reload")
        self.wait_for_another("a reload")

    def key(self, name, code):
        """Presses a key."""
        for kind in ("rawKeyDown", "keyUp"):
            self.do("Input.dispatchKeyEvent", type=kind, key=name, code=name, windowsVirtualKeyCode=code)

    def click(self, x, y, count=1):
        """Clicks at a place of the page, so many times in short order."""
        for number in range(1, count + 1):
            for kind in ("mousePressed", "mouseReleased"):
                self.do("Input.dispatchMouseEvent", type=kind, x=x, y=y, button="left", clickCount=number)

    def media(self, **features):
        """What the page takes its surroundings for, as `prefers_color_scheme="dark"`."""
        found = [{"name": name.replace("_", "-"), "value": value} for name, value in features.items()]
        self.do("Emulation.setEmulatedMedia", media="screen", features=found)

    def size(self, width, height):
        """The page's width and height in pixels, as on a screen of that size."""
        self.do("Emulation.setDeviceMetricsOverride", width=width, height=height, deviceScaleFactor=1, mobile=False)

    def picture(self, path):
        """Saves what is seen of the page as a PNG."""
        with open(path, "wb") as file:
            file.write(base64.b64decode(self.do("Page.captureScreenshot", format="png")["data"]))

    def text(self):
        return self.value("document.body.innerText")

    def end(self):
        self.process.terminate()
        self.process.wait(timeout=patience())
        self.profile.cleanup()
