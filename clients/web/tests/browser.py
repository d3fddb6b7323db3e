"""A headless Chromium, driven by the W3C WebDriver protocol through Debian's `chromedriver`: for the tests alone."""
import base64
import http.client
import json
import os
import re
import shutil
import subprocess
import tempfile
import time

KEYS = {"Enter": "\ue007", "Tab": "\ue004", "Delete": "\ue017", "Control": "\ue009", "Shift": "\ue008"}
KEYS |= {"Down": "\ue015", "Up": "\ue013", "Right": "\ue014", "Left": "\ue012", "Home": "\ue011", "End": "\ue010"}
ELEMENT = "element-6066-11e4-a52e-4f735466cecf"  # the protocol's name of an element's identifier


class Driver:
    """A running chromedriver, in which several browsers live."""

    def __init__(self):
        self.folder = tempfile.TemporaryDirectory(prefix="page_test_", ignore_cleanup_errors=True)
        streams = {"stdout": subprocess.PIPE, "stderr": subprocess.DEVNULL, "text": True}
        environment = {**os.environ, "TMPDIR": self.folder.name}
        self.child = subprocess.Popen(["chromedriver", "--port=0"], env=environment, **streams)
        self.port, self.browsers = None, []
        for line in self.child.stdout:
            if "started successfully on port " in line:
                self.port = int(line.split("on port ")[1].strip(". \n"))
                break

    def browser(self, width=1360, height=860, dark=False):
        self.browsers.append(Browser(self.port, width, height, dark))
        return self.browsers[-1]

    def __enter__(self):
        return self

    def __exit__(self, *_):
        """Ends the driver, and all browsers with it."""
        for it in self.browsers:
            try:
                it.call("DELETE", "")
            except (OSError, RuntimeError, ValueError, http.client.HTTPException):
                pass
        self.child.terminate()
        self.child.wait()
        self.folder.cleanup()


class Browser:
    """One browser window."""

    def __init__(self, port, width, height, dark):
        self.line, self.here = http.client.HTTPConnection("127.0.0.1", port, timeout=60), ""
        words = ["headless=new", "no-sandbox", "disable-gpu", "disable-dev-shm-usage", "no-first-run", "mute-audio"]
        words += ["disable-background-networking", "disable-component-update", "hide-scrollbars", "disable-extensions"]
        words.append(f"window-size={width},{height}")
        options = {"args": [f"--{it}" for it in words], "binary": shutil.which("chromium") or shutil.which("chrome")}
        logs = {"performance": "ALL", "browser": "ALL"}
        always = {"browserName": "chrome", "goog:chromeOptions": options, "goog:loggingPrefs": logs}
        self.here = "/session/" + self.call("POST", "/session", {"capabilities": {"alwaysMatch": always}})["sessionId"]
        self.size(width, height)
        self.dark(dark)

    def call(self, method, path, body=None):
        data = json.dumps(body if body is not None else {}) if method == "POST" else None
        self.line.request(method, self.here + path, data, {"Content-Type": "application/json"})
        said = json.loads(self.line.getresponse().read())["value"]
        if isinstance(said, dict) and "error" in said and "stacktrace" in said:
            raise RuntimeError(said["message"].split("\n")[0])
        return said

    def tools(self, command, **given):
        """Sends a command of the DevTools protocol."""
        return self.call("POST", "/goog/cdp/execute", {"cmd": command, "params": given})

    def size(self, width, height):
        self.tools("Emulation.setDeviceMetricsOverride", width=width, height=height, deviceScaleFactor=1, mobile=False)

    def dark(self, is_dark):
        features = [{"name": "prefers-color-scheme", "value": "dark" if is_dark else "light"}]
        self.tools("Emulation.setEmulatedMedia", features=features)

    def open(self, url):
        self.call("POST", "/url", {"url": "about:blank"})
        self.call("POST", "/url", {"url": url})

    def run(self, script, *given):
        return self.call("POST", "/execute/sync", {"script": script, "args": list(given)})

    def wait(self, script, *given, seconds=60):
        """What the expression gives, as soon as that is true."""
        end = time.monotonic() + seconds
        while True:
            found = self.run("return " + script, *given)
            if found:
                return found
            if time.monotonic() > end:
                raise AssertionError(f"never came: {script} {given}")
            time.sleep(0.02)

    def find(self, css, text=None):
        """The element that this selector finds, in view, with this text if one is given."""
        script = """[...document.querySelectorAll(arguments[0])].find(e =>
            (arguments[1] == null || e.textContent.trim() === arguments[1]) && e.getClientRects().length)"""
        return self.wait(script, css, text)

    def steadily(self, work, css, text=None):
        """Does something with an element, and again if it was replaced or moved meanwhile."""
        for attempt in range(20):
            element = self.find(css, text)[ELEMENT]
            try:
                return work(element)
            except RuntimeError as it:
                if attempt == 19 or not re.search("stale|intercepted|interactable|not found", str(it)):
                    raise
                time.sleep(0.05)

    def click(self, css, text=None):
        """Clicks an element as a mouse does."""
        self.steadily(lambda it: self.call("POST", f"/element/{it}/click"), css, text)

    def hover(self, css, text=None):
        def move(element):
            to = {"type": "pointerMove", "duration": 0, "x": 0, "y": 0, "origin": {ELEMENT: element}}
            mouse = {"type": "pointer", "id": "mouse", "parameters": {"pointerType": "mouse"}, "actions": [to]}
            self.call("POST", "/actions", {"actions": [mouse]})

        self.steadily(move, css, text)

    def keys(self, *names):
        """Presses keys, one after the other; those joined by `+` together, as "Control+z"."""
        actions = []
        for name in names:
            parts = [KEYS.get(it, it) for it in (name.split("+") if len(name) > 1 else [name])]
            actions += [{"type": "keyDown", "value": it} for it in parts]
            actions += [{"type": "keyUp", "value": it} for it in reversed(parts)]
        self.call("POST", "/actions", {"actions": [{"type": "key", "id": "keys", "actions": actions}]})

    def type(self, css, text):
        element = self.find(css)[ELEMENT]
        self.call("POST", f"/element/{element}/clear")
        self.call("POST", f"/element/{element}/value", {"text": text})

    def log(self, kind):
        return self.call("POST", "/se/log", {"type": kind})

    def shot(self, path):
        with open(path, "wb") as it:
            it.write(base64.b64decode(self.tools("Page.captureScreenshot", format="png")["data"]))

