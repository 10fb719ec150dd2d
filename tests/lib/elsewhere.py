"""Other browsers than tests/lib/browser.py has, with the same calls: Debian's Firefox, which speaks Marionette over
plain TCP (Debian has no geckodriver, which hands WebDriver's commands on to it), and Chromium as a phone, by touch."""
import contextlib
import json
import os
import re
import socket
import subprocess
import time

from browser import ANSWER, ELEMENT, Browser
from served import end_with_parent, free_port, put_file, started_here

PREFERENCES = """user_pref("marionette.port", %d);
user_pref("network.http.phishy-userpass-length", 255);
user_pref("app.normandy.enabled", false);
user_pref("app.update.enabled", false);
user_pref("browser.shell.checkDefaultBrowser", false);
user_pref("datareporting.policy.dataSubmissionEnabled", false);
user_pref("intl.accept_languages", "en");
user_pref("network.captive-portal-service.enabled", false);
user_pref("network.connectivity-service.enabled", false);
user_pref("services.settings.server", "data:,none");
"""
COMMANDS = {"POST /url": "Navigate", "POST /execute/sync": "ExecuteScript", "POST /execute/async": "ExecuteAsyncScript",
            "POST /element": "FindElement", "POST /element/ID/click": "ElementClick",
            "POST /element/ID/clear": "ElementClear", "POST /element/ID/value": "ElementSendKeys",
            "POST /actions": "PerformActions", "GET /screenshot": "TakeScreenshot", "GET /window": "GetWindowHandle",
            "GET /window/handles": "GetWindowHandles", "POST /window": "SwitchToWindow",
            "POST /window/new": "NewWindow", "DELETE /window": "CloseWindow", "POST /window/rect": "SetWindowRect"}
TO_TOUCH = "arguments[0].scrollIntoView({ block: 'center' }); return arguments[0].tagName"


class Firefox(Browser):
    def __init__(self, folder):
        self.port, profile = free_port(), os.path.join(folder, "firefox")
        os.makedirs(profile)
        put_file(os.path.join(profile, "user.js"), PREFERENCES % self.port)
        how = {"stdin": subprocess.DEVNULL, "stdout": subprocess.DEVNULL, "stderr": subprocess.DEVNULL}
        words = ["firefox-esr", "--headless", "--marionette", "--no-remote", "--profile", profile]
        self.driver = subprocess.Popen(words, env={**os.environ, "HOME": folder, "TMPDIR": folder},
                                       preexec_fn=end_with_parent, **how)
        started_here.append(self.driver)
        self.line, self.count = self.connected(), 0
        self.file = self.line.makefile("rb")
        self.received()
        self.command("NewSession", {"capabilities": {"alwaysMatch": {"timeouts": {"script": ANSWER * 1000}}}})
        self.command("SetWindowRect", {"width": 1000, "height": 800})

    def connected(self):
        end = time.monotonic() + ANSWER
        while True:
            try:
                return socket.create_connection(("127.0.0.1", self.port), ANSWER)
            except OSError:
                if time.monotonic() > end or self.driver.poll() is not None:
                    raise
            time.sleep(0.1)

    def received(self):
        """A message: its length, a colon, JSON."""
        length = b""
        while not length.endswith(b":"):
            piece = self.file.read(1)
            if not piece:
                raise ConnectionError("Firefox has ended")
            length += piece
        return json.loads(self.file.read(int(length[:-1])))

    def command(self, name, params):
        self.count += 1
        text = json.dumps([0, self.count, f"WebDriver:{name}", params]).encode()
        self.line.sendall(b"%d:%b" % (len(text), text))
        _, number, fault, value = self.received()
        assert number == self.count
        if fault:
            raise LookupError(f"{fault['error']}: {fault['message'].splitlines()[0]}")
        return value

    def ask(self, method, path, body=None):
        element = re.search("/element/([^/]+)/", path)
        name = COMMANDS[f"{method} {path.replace(element[1], 'ID') if element else path}"]
        value = self.command(name, {**(body or {}), **({"id": element[1]} if element else {}),
                                    **({"full": False} if name == "TakeScreenshot" else {})})
        return value["value"] if isinstance(value, dict) and [*value] == ["value"] else value

    def close(self):
        with contextlib.suppress(OSError, LookupError, ValueError):
            self.command("DeleteSession", {})
        self.line.close()
        self.driver.kill()
        self.driver.wait()


class Phone(Browser):
    """Chromium, as it is on a phone: where others click, a finger touches."""

    def __init__(self, folder):
        super().__init__(folder)
        self.size(390, 844)
        self.devtools("Emulation.setTouchEmulationEnabled", enabled=True, maxTouchPoints=1)

    def ask(self, method, path, body=None):
        element = re.fullmatch("/element/([^/]+)/click", path)
        # (what a select offers a phone shows past the page)
        if not element or self.script(TO_TOUCH, {ELEMENT: element[1]}) == "OPTION":
            return super().ask(method, path, body)
        at = {"type": "pointerMove", "origin": {ELEMENT: element[1]}, "x": 0, "y": 0}
        finger = {"type": "pointer", "id": "finger", "parameters": {"pointerType": "touch"},
                  "actions": [at, {"type": "pointerDown", "button": 0}, {"type": "pointerUp", "button": 0}]}
        return super().ask("POST", "/actions", {"actions": [finger]})
