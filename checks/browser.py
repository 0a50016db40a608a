"""A browser without a window, driven by the WebDriver protocol. Every request has a time limit, and the end kills what was started."""
import base64
import json
import os
import shutil
import signal
import socket
import subprocess
import tempfile
import time
from urllib.error import HTTPError, URLError
from urllib.request import ProxyHandler, Request, build_opener

LIMIT, WHOLE = 15, 60  # seconds for a request, and for all of a session
ELEMENT = "element-6066-11e4-a52e-4f735466cecf"  # the protocol's own key
FLAGS = ["--headless=new", "--no-sandbox", "--disable-gpu", "--disable-dev-shm-usage", "--no-first-run", "--disable-background-networking"]
KEYS = {"left": "\ue012", "up": "\ue013", "right": "\ue014", "down": "\ue015", "shift": "\ue008", "tab": "\ue004", "enter": "\ue007"}


def programs():
    """Chromium and its driver, or None where one of them is missing."""
    found = shutil.which("chromium"), shutil.which("chromedriver")
    return found if all(found) else None


class Browser:
    """A session of Chromium; `with` ends it, and the driver with all processes that it started."""

    def __init__(self, width=1200, height=900):
        self.chromium, self.driver = programs()
        self.size = width, height
        self.direct = build_opener(ProxyHandler({}))

    def __enter__(self):
        self.place = tempfile.mkdtemp()
        self.end = time.monotonic() + WHOLE
        with socket.socket() as free:
            free.bind(("127.0.0.1", 0))
            port = free.getsockname()[1]
        own = {**os.environ, "TMPDIR": self.place, "HOME": self.place}
        quiet = {"stdin": subprocess.DEVNULL, "stdout": subprocess.DEVNULL, "stderr": subprocess.DEVNULL}
        self.process = subprocess.Popen([self.driver, f"--port={port}"], env=own, start_new_session=True, **quiet)
        self.base = f"http://127.0.0.1:{port}"
        try:
            self._await()
            self._begin()
        except BaseException:
            self.__exit__()
            raise
        return self

    def _await(self):
        """Until the driver answers."""
        end = time.monotonic() + LIMIT
        while True:
            try:
                return self._ask("GET", "/status")
            except URLError:
                if time.monotonic() > end:
                    raise
                time.sleep(0.05)

    def _begin(self):
        flags = [*FLAGS, f"--user-data-dir={self.place}/profile", "--window-size={},{}".format(*self.size)]
        options = {"binary": self.chromium, "args": flags}
        wanted = {"browserName": "chrome", "goog:chromeOptions": options, "goog:loggingPrefs": {"browser": "ALL"}}
        made = self._ask("POST", "/session", {"capabilities": {"alwaysMatch": wanted}})
        self.base += f"/session/{made['sessionId']}"

    def __exit__(self, *_):
        """Ends the driver's processes, whether or not they answer: Chromium's belong to the driver's group or to its session."""
        try:
            if "/session/" in self.base:
                self._ask("DELETE", "", limit=3)
        except OSError:
            pass
        for each in (self.process.pid, *children_in(self.process.pid)):
            kill(each)
        self.process.wait(LIMIT)
        shutil.rmtree(self.place, ignore_errors=True)

    def _ask(self, method, path, body=None, limit=LIMIT):
        data = None if method == "GET" else json.dumps(body or {}).encode()
        request = Request(self.base + path, data, {"Content-Type": "application/json"}, method=method)
        try:
            with self.direct.open(request, timeout=min(limit, max(self.end - time.monotonic(), 1))) as answer:
                return json.load(answer)["value"]
        except HTTPError as fault:
            raise RuntimeError(json.load(fault)["value"]["message"].split("\n")[0]) from None

    # What one does with a page

    def open(self, url):
        self._ask("POST", "/url", {"url": url})

    def script(self, text, *arguments):
        return self._ask("POST", "/execute/sync", {"script": text, "args": list(arguments)})

    def texts(self, selector):
        """The texts of the elements that are shown, as the browser lays them out."""
        shown = "return [...document.querySelectorAll(arguments[0])].filter((e) => e.getClientRects().length).map((e) => e.innerText)"
        return self.script(shown, selector)

    def find(self, selector):
        return self._ask("POST", "/element", {"using": "css selector", "value": selector})[ELEMENT]

    def click(self, selector):
        self._ask("POST", f"/element/{self.find(selector)}/click")

    def write(self, selector, text):
        element = self.find(selector)
        self._ask("POST", f"/element/{element}/clear")
        self._ask("POST", f"/element/{element}/value", {"text": text})

    def drag(self, start, *ends):
        """Presses the button at a place of the window, moves through others and lets go there."""
        moves = [{"type": "pointerMove", "duration": 20, "x": round(x), "y": round(y)} for x, y in ends]
        first = {"type": "pointerMove", "duration": 0, "x": round(start[0]), "y": round(start[1])}
        steps = [first, {"type": "pointerDown", "button": 0}, *moves, {"type": "pointerUp", "button": 0}]
        self._act({"type": "pointer", "id": "mouse", "parameters": {"pointerType": "mouse"}, "actions": steps})

    def press(self, *names):
        """Presses the keys one after the other and holds them, and lets go of all."""
        keys = [KEYS[name] for name in names]
        steps = [{"type": "keyDown", "value": key} for key in keys] + [{"type": "keyUp", "value": key} for key in reversed(keys)]
        self._act({"type": "key", "id": "keys", "actions": steps})

    def _act(self, source):
        self._ask("POST", "/actions", {"actions": [source]})

    def log(self):
        """What the browser wrote to its console since the last time."""
        return [entry["message"] for entry in self._ask("POST", "/se/log", {"type": "browser"})]

    def resize(self, width, height=0):
        """Lays the page out for a window of another size, or for its own size again."""
        named = "setDeviceMetricsOverride" if width else "clearDeviceMetricsOverride"
        sizes = {"width": width, "height": height, "deviceScaleFactor": 1, "mobile": True} if width else {}
        self._ask("POST", "/goog/cdp/execute", {"cmd": f"Emulation.{named}", "params": sizes})

    def picture(self):
        return base64.b64decode(self._ask("GET", "/screenshot"))


def children_in(session):
    """The processes of a session."""
    found = []
    for name in filter(str.isdigit, os.listdir("/proc")):
        try:
            if os.getsid(int(name)) == session and int(name) != session:
                found.append(int(name))
        except OSError:
            pass
    return found


def kill(process):
    try:
        os.kill(process, signal.SIGKILL)
    except OSError:
        pass
