"""A headless Chromium, by chromedriver's WebDriver protocol, with Python's standard library alone."""

import base64
import json
import shutil
import subprocess
import tempfile
import urllib.request
from pathlib import Path

PORT = 9517
ELEMENT = "element-6066-11e4-a52e-4f735466cecf"
KEYS = {"Tab": "\ue004", "Enter": "\ue007", "Home": "\ue011", "Left": "\ue012", "Up": "\ue013", "Right": "\ue014",
        "Down": "\ue015", "Escape": "\ue00c", "Shift": "\ue008"}


def is_there():
    return bool(shutil.which("chromium") and shutil.which("chromedriver"))


class Browser:
    """One window of a width and a height, in light or dark."""

    def __init__(self, wide, high, is_dark):
        self.folder = tempfile.TemporaryDirectory()
        self.driver = subprocess.Popen(["chromedriver", f"--port={PORT}"], stdout=subprocess.PIPE, text=True)
        while "successfully" not in self.driver.stdout.readline():
            assert self.driver.poll() is None, "chromedriver ended"
        self.address = f"http://127.0.0.1:{PORT}/session"
        self.address += "/" + self.post("", {"capabilities": {"alwaysMatch": self.capabilities(wide, high)}})["sessionId"]
        self.resize(wide, high, is_dark)

    def resize(self, wide, high, is_dark):
        self.protocol("Emulation.setDeviceMetricsOverride",
                      {"width": wide, "height": high, "deviceScaleFactor": 1, "mobile": False})
        theme = {"name": "prefers-color-scheme", "value": "dark" if is_dark else "light"}
        self.protocol("Emulation.setEmulatedMedia", {"features": [theme]})

    def capabilities(self, wide, high):
        words = ["--headless=new", "--no-sandbox", "--disable-gpu", "--disable-dev-shm-usage",
                 f"--user-data-dir={self.folder.name}", f"--window-size={max(wide, 500)},{high}"]
        return {"browserName": "chrome", "goog:chromeOptions": {"args": words}, "goog:loggingPrefs": {"browser": "ALL"}}

    def post(self, path, body, method="POST"):
        request = urllib.request.Request(self.address + path, json.dumps(body).encode() if method == "POST" else None,
                                         {"Content-Type": "application/json"}, method=method)
        with urllib.request.urlopen(request, timeout=300) as answer:
            return json.load(answer)["value"]

    def protocol(self, command, words=None):
        """A command of the DevTools protocol."""
        return self.post("/goog/cdp/execute", {"cmd": command, "params": words or {}})

    def open(self, path, link=""):
        """Opens a file anew, with a link into it, such as `#10-20`."""
        self.post("/url", {"url": "about:blank"})
        self.post("/url", {"url": "file://" + str(Path(path).resolve()) + link})

    def run(self, code, *words):
        """The answer of the code, as a function's body."""
        return self.post("/execute/sync", {"script": code, "args": list(words)})

    def settle(self):
        """Waits until the page has started and all it was asked for is drawn."""
        code = """const done = arguments[0], wait = () => requestAnimationFrame(() => window.scxsim ? draw() : wait()),
            draw = () => requestAnimationFrame(() => requestAnimationFrame(() => done()));
            wait();"""
        self.post("/execute/async", {"script": code, "args": []})

    def press(self, *keys):
        """Presses keys one after another, each a name of KEYS or a letter."""
        actions = [{"type": kind, "value": KEYS.get(key, key)} for key in keys for kind in ("keyDown", "keyUp")]
        self.post("/actions", {"actions": [{"type": "key", "id": "keys", "actions": actions}]})
        self.settle()

    def type(self, words):
        self.press(*words)

    def click(self, name):
        element = self.post("/element", {"using": "css selector", "value": "#" + name})[ELEMENT]
        self.post(f"/element/{element}/click", {})
        self.settle()

    def mouse(self, kind, x, y, **words):
        """An event of the mouse: mouseMoved, mousePressed, mouseReleased or mouseWheel."""
        self.protocol("Input.dispatchMouseEvent", {"type": kind, "x": x, "y": y, **words})
        self.settle()

    def touch(self, kind, *points):
        """An event of fingers: touchStart, touchMove or touchEnd, with the places where they are."""
        places = [{"x": x, "y": y, "id": number} for number, (x, y) in enumerate(points)]
        self.protocol("Input.dispatchTouchEvent", {"type": kind, "touchPoints": places})
        self.settle()

    def console(self):
        """The lines of the console since the last call."""
        return [line["message"] for line in self.post("/se/log", {"type": "browser"})]

    def picture(self, path):
        Path(path).write_bytes(base64.b64decode(self.post("/screenshot", None, "GET")))

    def close(self):
        self.post("", None, "DELETE")
        self.driver.terminate()
        self.driver.wait()
        self.folder.cleanup()
