"""Headless Firefox, driven by its own protocol (Marionette): Debian has no geckodriver, without
which Selenium doesn't drive it."""
import base64
import json
import pathlib
import shutil
import socket
import subprocess
import tempfile
import time
from typing import Any, List, Tuple

from browser import ANSWER, Browser, KEYS, Place, SCRIPT, patience

# seconds in which it begins to listen, and in which it ends
BEGIN, LONGEST_END = 60, 10
SETTINGS = """user_pref("marionette.port", {port});
user_pref("datareporting.policy.dataSubmissionEnabled", false);
user_pref("browser.shell.checkDefaultBrowser", false);
user_pref("browser.download.folderList", 2);
user_pref("browser.download.dir", "{folder}");
"""


class Firefox(Browser):
    name = "Firefox"

    def begin(self) -> None:
        self.folder = tempfile.mkdtemp()
        with socket.create_server(("127.0.0.1", 0)) as free:
            port = free.getsockname()[1]
        settings = SETTINGS.format(port=port, folder=self.folder)
        (pathlib.Path(self.folder) / "user.js").write_text(settings)
        program = "firefox-esr" if shutil.which("firefox-esr") else "firefox"
        self.process = subprocess.Popen(
            [program, "--headless", "--marionette", "--profile", self.folder, "--no-remote",
             "--window-size=1280,900"],
            stdout=subprocess.DEVNULL, stderr=subprocess.DEVNULL)
        self.rest, self.last, self.socket = b"", 0, socket.socket()
        self.socket = connected(port)
        self.receive()
        self.call("WebDriver:NewSession", capabilities={})
        self.limit(SCRIPT * patience())

    @staticmethod
    def is_there() -> bool:
        return bool(shutil.which("firefox-esr") or shutil.which("firefox"))

    def close(self) -> None:
        try:
            self.socket.settimeout(LONGEST_END)
            self.call("Marionette:Quit", flags=["eForceQuit"])
        except (OSError, RuntimeError):
            pass
        try:
            self.process.wait(LONGEST_END)
        except subprocess.TimeoutExpired:
            self.process.kill()
            self.process.wait()
        self.socket.close()
        shutil.rmtree(self.folder, ignore_errors=True)

    def receive(self) -> Any:
        while b":" not in self.rest:
            self.rest += self.read()
        size, _, self.rest = self.rest.partition(b":")
        while len(self.rest) < int(size):
            self.rest += self.read()
        text, self.rest = self.rest[:int(size)], self.rest[int(size):]
        return json.loads(text)

    def read(self) -> bytes:
        got = self.socket.recv(1 << 20)
        if not got:
            raise RuntimeError("the browser ended")
        return got

    def call(self, command: str, **parameters: Any) -> Any:
        self.last += 1
        text = json.dumps([0, self.last, command, parameters]).encode()
        self.socket.sendall(str(len(text)).encode() + b":" + text)
        _, _, error, result = self.receive()
        if error:
            raise RuntimeError(error)
        return result

    def run(self, script: str) -> Any:
        return self.call("WebDriver:ExecuteAsyncScript", script=script, args=[],
                         newSandbox=False, sandbox=None)["value"]

    def limit(self, seconds: float) -> None:
        self.call("WebDriver:SetTimeouts", script=round(1000 * seconds))

    def open(self, url: str, width: int = 1280, height: int = 860, scheme: str = "light") -> None:
        self.call("WebDriver:Navigate", url="about:blank")
        self.call("WebDriver:Navigate", url=url)

    def give(self, selector: str, *paths: Place) -> None:
        it = self.call("WebDriver:FindElement", using="css selector", value=selector)["value"]
        self.call("WebDriver:ElementSendKeys", id=next(iter(it.values())),
                  text="\n".join(map(str, paths)))

    def key(self, key: str) -> None:
        actions = [{"type": kind, "value": KEYS.get(key, key)} for kind in ("keyDown", "keyUp")]
        self.call("WebDriver:PerformActions",
                  actions=[{"type": "key", "id": "keys", "actions": actions}])

    def pdf(self) -> bytes:
        return base64.b64decode(self.call("WebDriver:Print")["value"])

    def saves_in(self, folder: pathlib.Path) -> pathlib.Path:
        return pathlib.Path(self.folder)

    def picture(self, path: Place, whole: bool = False) -> None:
        shot = self.call("WebDriver:TakeScreenshot", full=whole)["value"]
        pathlib.Path(path).write_bytes(base64.b64decode(shot))

    def problems(self) -> List[Any]:
        return []  # its protocol doesn't say

    def requests(self) -> List[str]:
        found: List[str] = self.js("performance.getEntriesByType('resource').map(it => it.name)")
        return found


def connected(port: int) -> socket.socket:
    """A connection to a browser that begins to listen there."""
    address: Tuple[str, int] = ("127.0.0.1", port)
    end = time.monotonic() + BEGIN * patience()
    while time.monotonic() < end:
        try:
            return socket.create_connection(address, ANSWER * patience())
        except OSError:
            time.sleep(0.2)
    raise RuntimeError("the browser doesn't begin")
