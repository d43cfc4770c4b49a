"""Chromium without a window, driven by chromedriver in the protocol WebDriver.

Both are found on the PATH. `shared()` is the browser of all tests of a process, or None if there is
none or it doesn't start, and `why()` says why not.
"""

import atexit
import base64
import functools
import http.client
import json
import os
import re
import shutil
import subprocess
from pathlib import Path

#: The seconds that the browser has for an answer.
SECONDS = 120

ARGUMENTS = ("--headless=new", "--no-sandbox", "--disable-gpu", "--disable-dev-shm-usage",
             "--hide-scrollbars", "--force-color-profile=srgb", "--window-size=1440,860")

#: WebDriver's names of keys.
KEYS = {"Enter": "\ue007", "Escape": "\ue00c", "Space": " ", "End": "\ue010", "Home": "\ue011",
        "ArrowLeft": "\ue012", "ArrowUp": "\ue013", "ArrowRight": "\ue014",
        "ArrowDown": "\ue015"}


class BrowserError(Exception):
    """What the browser says that it can't do."""


class Browser:
    """A browser with one page. `version` is Chromium's."""

    def __init__(self):
        driver, chromium = shutil.which("chromedriver"), shutil.which("chromium")
        if not driver or not chromium:
            raise BrowserError("no Chromium here")
        self._driver = subprocess.Popen([driver, "--port=0"], stdout=subprocess.PIPE,
                                        stderr=subprocess.DEVNULL, text=True)
        self._session = None
        try:
            self._port = self._port_of_driver()
            wanted = {"browserName": "chrome", "goog:loggingPrefs": {"browser": "ALL"},
                      "goog:chromeOptions": {"args": ARGUMENTS, "binary": chromium}}
            told = self._ask("POST", "/session", {"capabilities": {"alwaysMatch": wanted}})
            self._session = f"/session/{told['sessionId']}"
            self.version = told["capabilities"]["browserVersion"]
        except (BrowserError, OSError, LookupError, ValueError) as error:
            self.close()
            raise BrowserError(f"Chromium doesn't start: {error}") from error

    def _port_of_driver(self):
        for line in self._driver.stdout:
            found = re.search(r"successfully on port (\d+)", line)
            if found:
                return int(found[1])
        raise BrowserError("chromedriver ended")

    def _ask(self, verb, path, given=None):
        connection = http.client.HTTPConnection("127.0.0.1", self._port, timeout=SECONDS)
        try:
            body = None if given is None else json.dumps(given).encode()
            connection.request(verb, path, body, {"Content-Type": "application/json"})
            told = json.loads(connection.getresponse().read())["value"]
        finally:
            connection.close()
        if isinstance(told, dict) and "error" in told:
            raise BrowserError(f"{told['error']}: {told['message'].splitlines()[0]}")
        return told

    def _do(self, name, **given):
        return self._ask("POST", f"{self._session}/{name}", given)

    def open(self, address):
        """Loads a page, and waits for it."""
        self._do("url", url=address)

    def js(self, code, *given):
        """What a script in the page returns."""
        return self._do("execute/sync", script=code, args=list(given))

    def press(self, *names):
        """Presses keys, each by its name."""
        steps = [{"type": kind, "value": KEYS[name]} for name in names
                 for kind in ("keyDown", "keyUp")]
        self._do("actions", actions=[{"type": "key", "id": "keyboard", "actions": steps}])

    def command(self, name, **given):
        """A command of the DevTools protocol."""
        return self._do("goog/cdp/execute", cmd=name, params=given)

    def enter_frame(self):
        """Goes on in the first frame of the page."""
        self._do("frame", id=0)

    def said(self):
        """What the page's console said since the last time."""
        return [it["message"] for it in self._do("se/log", type="browser")]

    def look(self, width=1440, height=860, dark=False, phone=False):
        """Has the size of a window or a phone, and a light or dark theme."""
        self.command("Emulation.setDeviceMetricsOverride", width=width, height=height,
                     deviceScaleFactor=1.5 if phone else 1, mobile=phone)
        theme = {"name": "prefers-color-scheme", "value": "dark" if dark else "light"}
        self.command("Emulation.setEmulatedMedia", features=[theme])

    def picture(self):
        """A picture of the page, as the bytes of a PNG file."""
        return base64.b64decode(self._ask("GET", f"{self._session}/screenshot"))

    def seconds(self):
        """The processor time that the page's process has taken: on a loaded machine the clock says
        nothing."""
        ticks, found = 0, [self._driver.pid]
        for number in found:
            for it in Path(f"/proc/{number}/task").glob("*/children"):
                found += map(int, _read(it).split())
            if "--type=renderer" in _read(Path(f"/proc/{number}/cmdline")):
                fields = _read(Path(f"/proc/{number}/stat")).rpartition(")")[2].split()
                ticks += sum(map(int, fields[11:13]))
        return ticks / os.sysconf("SC_CLK_TCK")

    def close(self):
        """Ends the browser and its driver."""
        try:
            if self._session is not None:
                self._ask("DELETE", self._session)
        except (BrowserError, OSError, ValueError):
            pass
        self._driver.terminate()
        self._driver.wait()
        self._driver.stdout.close()


def _read(path):
    """The text of a file of /proc, or none if its process has ended."""
    try:
        return path.read_text(errors="replace")
    except OSError:
        return ""


@functools.lru_cache(maxsize=None)
def _started():
    try:
        browser = Browser()
    except (BrowserError, OSError) as error:
        return None, str(error)
    owner = os.getpid()
    atexit.register(lambda: os.getpid() == owner and browser.close())
    return browser, ""


def shared():
    """The browser, or None."""
    return _started()[0]


def why():
    """Why there is no browser."""
    return _started()[1]
