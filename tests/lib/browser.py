"""Debian's chromium without a window, driven by its chromedriver in the forms of W3C WebDriver, over plain HTTP."""
import base64
import contextlib
import http.client
import json
import os
import signal
import subprocess
import time

from served import end_with_parent, free_port, put_file, started_here

WAIT = 600  # seconds for what a page shows: no time that it is to keep, but one after which it never comes
ANSWER = 300  # seconds for a step of the browser, its start included: the same
TOLD = 600  # letters of what a page shows, where something never came
ELEMENT = "element-6066-11e4-a52e-4f735466cecf"  # the key of an element's name, fixed by WebDriver
KEYS = {"tab": "\ue004", "shift": "\ue008", "ctrl": "\ue009", "alt": "\ue00a", "enter": "\ue007",
        "escape": "\ue00c", "space": "\ue00d", "end": "\ue010", "home": "\ue011", "left": "\ue012", "up": "\ue013",
        "right": "\ue014", "down": "\ue015", "delete": "\ue017", "f2": "\ue032"}


def start_driver(port, folder):
    env = {**os.environ, "TMPDIR": folder, "HOME": folder}
    how = {"stdout": subprocess.DEVNULL, "stderr": subprocess.DEVNULL, "env": env, "preexec_fn": end_with_parent}
    child = subprocess.Popen(["chromedriver", f"--port={port}"], **how)
    started_here.append(child)
    return child


class NeverCame(LookupError):
    """What a page was to show, why not, and what it shows in one line."""

    def __init__(self, what, why, shown):
        told = " / ".join(shown.split("\n"))[:TOLD]
        super().__init__(f"never came: {what}{f' ({why})' if why else ''}; shown: {told}")


class Browser:
    wait = WAIT  # (which tests make shorter)

    def __init__(self, folder, *more):
        self.port = free_port()
        self.driver = start_driver(self.port, folder)
        words = ["--headless=new", "--no-sandbox", "--disable-gpu", "--disable-dev-shm-usage", "--no-first-run",
                 "--disable-background-networking", "--disable-component-update", "--disable-breakpad",
                 f"--user-data-dir={folder}/profile", f"--crash-dumps-dir={folder}", "--window-size=1000,800", *more]
        times = {"script": ANSWER * 1000, "pageLoad": ANSWER * 1000}
        asked = {"goog:chromeOptions": {"args": words}, "goog:loggingPrefs": {"browser": "ALL"}, "timeouts": times}
        self.session = ""
        new = self.started({"capabilities": {"alwaysMatch": asked}})
        self.session, self.process = f"/session/{new['sessionId']}", new["capabilities"]["goog:processID"]

    def started(self, asked):
        """A new session. The driver itself gives a browser a minute to start, which a loaded machine may not keep."""
        end = time.monotonic() + ANSWER
        while True:
            try:
                return self.ask("POST", "/session", asked)
            except (ConnectionError, LookupError):
                if time.monotonic() > end:
                    raise
                time.sleep(0.1)

    def ask(self, method, path, body=None):
        line = http.client.HTTPConnection("127.0.0.1", self.port, timeout=ANSWER)
        try:
            line.request(method, self.session + path, json.dumps(body or {}) if method == "POST" else None)
            value = json.loads(line.getresponse().read())["value"]
        finally:
            line.close()
        if isinstance(value, dict) and "error" in value:
            raise LookupError(f"{value['error']}: {value['message'].splitlines()[0]}")
        return value

    def close(self):
        """Ends the browser and its driver, also where the driver has ended before. Then nothing writes any more."""
        with contextlib.suppress(OSError, LookupError):
            self.ask("DELETE", "")
        self.driver.kill()
        self.driver.wait()
        with contextlib.suppress(ProcessLookupError):
            os.kill(self.process, signal.SIGKILL)
        end = time.monotonic() + ANSWER
        while os.path.exists(f"/proc/{self.process}/exe") and time.monotonic() < end:
            time.sleep(0.05)

    def go(self, address):
        self.ask("POST", "/url", {"url": address})

    def script(self, text, *words):
        return self.ask("POST", "/execute/sync", {"script": text, "args": list(words)})

    def later(self, text, *words):
        """What a script gives to the last of its arguments."""
        return self.ask("POST", "/execute/async", {"script": text, "args": list(words)})

    def tab(self):
        """Opens another tab, and gives the names of the one before and of this one."""
        before, new = self.ask("GET", "/window"), self.ask("POST", "/window/new", {"type": "tab"})["handle"]
        self.turn_to(new)
        return before, new

    def tabs(self):
        return self.ask("GET", "/window/handles")

    def turn_to(self, tab):
        self.ask("POST", "/window", {"handle": tab})

    def close_tab(self):
        self.ask("DELETE", "/window")

    def crash_tab(self):
        """Ends the process of this tab, as a fault of its own would."""
        try:
            self.devtools("Page.crash")
        except LookupError:
            self.close_tab()

    def devtools(self, command, **params):
        return self.ask("POST", "/goog/cdp/execute", {"cmd": command, "params": params})

    def media(self, **features):
        """What its user wishes, as prefers_color_scheme="dark"; by itself nothing."""
        its = [{"name": it.replace("_", "-"), "value": value} for it, value in features.items()]
        self.devtools("Emulation.setEmulatedMedia", features=its)

    def size(self, width, height):
        its = {"width": width, "height": height, "deviceScaleFactor": 1, "mobile": width < 500}
        self.devtools("Emulation.setDeviceMetricsOverride", **its)

    def complaints(self):
        """What the browser wrote to its console since the last call: faults of scripts, and what the policy forbade."""
        return [it["message"] for it in self.ask("POST", "/se/log", {"type": "browser"}) if it["level"] == "SEVERE"]

    def picture(self, path):
        put_file(path, base64.b64decode(self.ask("GET", "/screenshot")))

    def until(self, what, task, seconds=None):
        """The first true value of the task, within so many seconds."""
        end, last = time.monotonic() + (seconds or self.wait), None
        while time.monotonic() < end:
            try:
                found = task()
                if found:
                    return found
            except LookupError as fault:
                last = fault
            time.sleep(0.03)
        raise NeverCame(what, last, self.shown())

    def find(self, path):
        """The element at an XPath, which has to be there."""
        return self.ask("POST", "/element", {"using": "xpath", "value": path})[ELEMENT]

    def act(self, path, action, body=None, is_patient=True):
        """Does it to the element at an XPath, once it is there and, for who is patient, the page is not at work."""
        def done():
            if is_patient and self.script("return document.querySelector('main[aria-busy]') !== null"):
                return False
            self.ask("POST", f"/element/{self.find(path)}/{action}", body)
            return True
        self.until(f"{action} {path}", done)

    def press(self, words, inside=""):
        """Presses the button of these words, by the mouse."""
        self.act(f"{inside}//button[normalize-space()='{words}' or @aria-label='{words}']", "click")

    def press_anyway(self, words):
        """As `press`, also while the page is at work."""
        self.act(f"//button[normalize-space()='{words}']", "click", is_patient=False)

    def follow(self, words):
        self.act(f"//main//a[normalize-space()='{words}']", "click")

    def fill(self, label, text):
        """Puts text into the field of that label, in the dialog that is open."""
        path = f"//dialog[@open]//*[@id=//label[normalize-space()='{label}']/@for]"
        self.act(path, "clear")
        self.act(path, "value", {"text": text})

    def point(self, path="//html", x=0, y=0):
        """Moves the mouse over the element at an XPath, so many pixels from its middle."""
        move = {"type": "pointerMove", "origin": {ELEMENT: self.find(path)}, "x": x, "y": y}
        self.ask("POST", "/actions", {"actions": [{"type": "pointer", "id": "mouse", "actions": [move]}]})

    def keys(self, *words):
        """Strikes keys, each a name of KEYS or a text."""
        self.move([(kind, key) for word in words for key in KEYS.get(word, word) for kind in ("keyDown", "keyUp")])

    def chord(self, held, key):
        """Strikes a key while another is held."""
        held, key = (KEYS.get(it, it) for it in (held, key))
        self.move([("keyDown", held), ("keyDown", key), ("keyUp", key), ("keyUp", held)])

    def move(self, struck):
        moves = [{"type": kind, "value": key} for kind, key in struck]
        self.ask("POST", "/actions", {"actions": [{"type": "key", "id": "keys", "actions": moves}]})

    def shown(self):
        """The text of the page, as a reader sees it."""
        return self.script("return document.body.innerText")

    def sees(self, text, where="body", seconds=None):
        """Waits until that text is shown. The texts in `where` are what it looks at."""
        self.until(text, lambda: text in self.text_of(where), seconds)
        return True

    def text_of(self, where):
        """What is shown there."""
        return self.script("return [...document.querySelectorAll(arguments[0])].filter((it) => it.checkVisibility())"
                           ".map((it) => it.innerText).join('\\n')", where)
