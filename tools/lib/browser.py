"""Headless Chromium, as tools/page-pictures and tools/try-walk drive it."""
import base64
import json
import os
import re
import shutil
import subprocess

# the command that CHROMIUM names, else chromium or google-chrome of the PATH, if there is one
CHROMIUM = os.environ.get("CHROMIUM") or shutil.which("chromium") or shutil.which("google-chrome")
KEYS = {"Enter": 13, "Tab": 9, "Escape": 27, "ArrowLeft": 37, "ArrowUp": 38, "ArrowRight": 39, "ArrowDown": 40, "Home": 36, "End": 35,
        "PageUp": 33, "PageDown": 34, " ": 32}


class Browser:
    """Headless Chromium, asked over a pipe by its protocol for developers."""

    def __init__(self, folder):
        their_in, self.out = os.pipe()
        self.back, their_out = os.pipe()
        words = ["--headless=new", "--remote-debugging-pipe", "--no-sandbox", "--disable-gpu", "--no-first-run", "--disable-extensions",
                 "--hide-scrollbars", "--disable-background-networking", "--disable-dev-shm-usage", "--user-data-dir=" + folder, "about:blank"]
        script = "exec 3<&%d 4>&%d; exec \"$@\"" % (their_in, their_out)
        self.process = subprocess.Popen(["bash", "-c", script, "bash", CHROMIUM or "chromium", *words], pass_fds=[their_in, their_out],
                                        stdin=subprocess.DEVNULL, stdout=subprocess.DEVNULL, stderr=subprocess.DEVNULL)
        os.close(their_in)
        os.close(their_out)
        self.rest, self.number, self.events, self.session = b"", 0, [], None

    def said(self):
        """The next thing that the browser says."""
        while b"\0" not in self.rest:
            more = os.read(self.back, 1 << 20)
            if not more:
                raise OSError("the browser has ended")
            self.rest += more
        one, self.rest = self.rest.split(b"\0", 1)
        return json.loads(one)

    def ask(self, method, **words):
        """Asks, and answers what is answered; what else is said meanwhile is kept in `events`."""
        self.number += 1
        asked = {"id": self.number, "method": method, "params": words}
        if self.session:
            asked["sessionId"] = self.session
        os.write(self.out, json.dumps(asked).encode() + b"\0")
        while True:
            said = self.said()
            if said.get("id") == self.number:
                if "error" in said:
                    raise OSError("%s: %s" % (method, said["error"]))
                return said["result"]
            self.events.append(said)

    def wait(self, method):
        """Waits until the browser says so."""
        while not any(event.get("method") == method for event in self.events):
            self.events.append(self.said())

    def tab(self):
        """Opens a tab, and speaks with it from now on."""
        self.session = None
        target = self.ask("Target.createTarget", url="about:blank")["targetId"]
        self.session = self.ask("Target.attachToTarget", targetId=target, flatten=True)["sessionId"]
        for method in "Page.enable", "Runtime.enable", "Log.enable", "Network.enable":
            self.ask(method)

    def look(self, width, height, scheme):
        """A window of that size, light or dark."""
        self.ask("Emulation.setDeviceMetricsOverride", width=width, height=height, deviceScaleFactor=1, mobile=False)
        self.ask("Emulation.setEmulatedMedia", media="screen", features=[{"name": "prefers-color-scheme", "value": scheme}])

    def open(self, address):
        """Opens a page, and waits until it is loaded and drawn."""
        for goal in "about:blank", address:
            self.events = []
            self.ask("Page.navigate", url=goal)
            self.wait("Page.loadEventFired")
        self.value("new Promise(done => requestAnimationFrame(() => requestAnimationFrame(() => done(1))))")

    def value(self, text):
        """What an expression of JavaScript is worth in the page."""
        found = self.ask("Runtime.evaluate", expression=text, awaitPromise=True, returnByValue=True)
        if "exceptionDetails" in found:
            raise OSError(found["exceptionDetails"]["text"])
        return found["result"].get("value")

    def key(self, key):
        """Presses a key."""
        text = "\r" if key == "Enter" else key if len(key) == 1 else None
        words = {"key": key, "windowsVirtualKeyCode": KEYS.get(key) or ord(key.upper())}
        more = {"text": text} if text else {}
        self.ask("Input.dispatchKeyEvent", type="keyDown" if text else "rawKeyDown", **words, **more)
        self.ask("Input.dispatchKeyEvent", type="keyUp", **words)

    def click(self, x, y):
        """Clicks at a place of the window."""
        self.ask("Input.dispatchMouseEvent", type="mouseMoved", x=x, y=y)
        for kind in "mousePressed", "mouseReleased":
            self.ask("Input.dispatchMouseEvent", type=kind, x=x, y=y, button="left", clickCount=1)

    def picture(self):
        """The whole page as a PNG, below the window too."""
        size = self.ask("Page.getLayoutMetrics")["cssContentSize"]
        clip = {"x": 0, "y": 0, "width": size["width"], "height": size["height"], "scale": 1}
        return base64.b64decode(self.ask("Page.captureScreenshot", format="png", captureBeyondViewport=True, clip=clip)["data"])

    def worked(self):
        """The seconds that the page has worked: scripts, layout and drawing."""
        return {m["name"]: m["value"] for m in self.ask("Performance.getMetrics")["metrics"]}["TaskDuration"]

    def faults(self):
        """What went wrong since the page was opened: what its script threw, and what it asked for outside it."""
        out = []
        for event in self.events:
            words = event.get("params", {})
            if event.get("method") == "Runtime.exceptionThrown":
                details = words["exceptionDetails"]
                out.append("threw " + details.get("exception", {}).get("description", details["text"]).split("\n")[0])
            elif event.get("method") == "Log.entryAdded" and words["entry"]["level"] == "error":
                out.append(words["entry"]["text"])
            elif event.get("method") == "Network.requestWillBeSent" and not re.match("(file|data|about|blob):", words["request"]["url"]):
                out.append("asked for " + words["request"]["url"])
        return out

    def end(self):
        self.session = None
        try:
            self.ask("Browser.close")
        except OSError:
            pass
        self.process.wait(20)
