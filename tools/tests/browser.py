"""A browser without a window, directed by the WebDriver protocol (W3C) of chromedriver."""

import base64
import json
import pathlib
import re
import subprocess
import time
import urllib.request
from collections.abc import Callable
from types import TracebackType
from typing import Any

ARGUMENTS = ("--headless", "--no-sandbox", "--disable-gpu", "--host-resolver-rules=MAP * ~NOTFOUND, EXCLUDE 127.0.0.1")
"""How Chromium is started: without a window, as root, and with no name of a host but this machine's."""

SECONDS = 30
"""How long a call waits for what it is told to wait for."""

MOST_SECONDS = 240
"""How long a page may take to open, or a script to end, on a machine that does much else."""


class Browser:
    """A session of Chromium, which ends with its `with` block."""

    def __init__(self, folder: pathlib.Path, width: int = 1200, height: int = 900) -> None:
        """Starts Chromium with a profile in a folder, and a window of so many pixels."""
        self._driver = subprocess.Popen(["chromedriver", "--port=0"], stdout=subprocess.PIPE, stderr=subprocess.DEVNULL,
                                        text=True)
        self._base = f"http://127.0.0.1:{self._port()}/session"
        arguments = [*ARGUMENTS, f"--user-data-dir={folder}", f"--window-size={width},{height}"]
        limits = {"script": 1000 * MOST_SECONDS, "pageLoad": 1000 * MOST_SECONDS}
        wanted = {"goog:chromeOptions": {"args": arguments}, "goog:loggingPrefs": {"browser": "ALL"},
                  "timeouts": limits}
        made = self._call("POST", "", {"capabilities": {"alwaysMatch": wanted}})
        self._base += f"/{made['sessionId']}"

    def __enter__(self) -> "Browser":
        return self

    def __exit__(self, sort: type[BaseException] | None, fault: BaseException | None,
                 trace: TracebackType | None) -> None:
        """Ends Chromium and its driver."""
        try:
            self._call("DELETE", "")
        finally:
            self._driver.terminate()
            self._driver.wait()
            if self._driver.stdout:
                self._driver.stdout.close()

    def _port(self) -> int:
        """The port on which the driver listens."""
        for line in self._driver.stdout or ():
            if found := re.search(r"started successfully on port (\d+)", line):
                return int(found[1])
        raise OSError("chromedriver does not start")

    def _call(self, method: str, path: str, body: dict[str, Any] | None = None) -> Any:
        """What the driver answers to a call."""
        data = None if body is None else json.dumps(body).encode()
        request = urllib.request.Request(self._base + path, data, {"Content-Type": "application/json"}, method=method)
        with urllib.request.urlopen(request, timeout=2 * MOST_SECONDS) as answer:
            return json.load(answer)["value"]

    def open(self, address: str) -> None:
        """Opens a page, and waits until it has loaded."""
        self._call("POST", "/url", {"url": address})

    def script(self, text: str, *arguments: Any) -> Any:
        """What a script of the page returns: the body of a function, whose `arguments` are these."""
        return self._call("POST", "/execute/sync", {"script": text, "args": list(arguments)})

    def wait(self, text: str, *arguments: Any, until: Callable[[Any], bool] = bool, seconds: float = SECONDS) -> Any:
        """What a script returns once that passes a test, which it has to do within some seconds, 30 where none are
        said."""
        end = time.monotonic() + seconds
        while not until(value := self.script(text, *arguments)):
            if time.monotonic() > end:
                raise TimeoutError(f"{text} returns {value!r} after {seconds} s")
            time.sleep(0.05)
        return value

    def keys(self, text: str) -> None:
        """Types text where the page has its focus; a key without a sign is one of WebDriver's, as "\\ue004" for Tab."""
        actions = [{"type": action, "value": key} for key in text for action in ("keyDown", "keyUp")]
        self._call("POST", "/actions", {"actions": [{"type": "key", "id": "keyboard", "actions": actions}]})

    def press(self, *keys: str) -> None:
        """Presses keys together, and lets them go: "\\ue009" is Control, "\\ue007" Enter."""
        actions = [{"type": "keyDown", "value": key} for key in keys]
        actions += [{"type": "keyUp", "value": key} for key in reversed(keys)]
        self._call("POST", "/actions", {"actions": [{"type": "key", "id": "keyboard", "actions": actions}]})

    def cdp(self, command: str, words: dict[str, Any]) -> Any:
        """What Chromium answers to a command of its own protocol."""
        return self._call("POST", "/goog/cdp/execute", {"cmd": command, "params": words})

    def errors(self) -> list[str]:
        """The errors that the console has shown since the last call."""
        entries = self._call("POST", "/se/log", {"type": "browser"})
        return [entry["message"] for entry in entries if entry["level"] == "SEVERE"]

    def picture(self, path: pathlib.Path) -> None:
        """Writes what the window shows as a PNG file."""
        path.write_bytes(base64.b64decode(self._call("GET", "/screenshot")))
