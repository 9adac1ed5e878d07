"""Chromium without a window, driven over a pipe: pages, scripts in them, keys, screenshots.

    python3 tools/tests/browser.py FOLDER

writes the screenshots of docs/ into FOLDER, over the program that was built.
"""
import base64
import contextlib
import json
import os
import select
import shutil
import subprocess
import sys
import tempfile
import threading
import time
from collections.abc import Iterator
from typing import Any

WAIT = 30  # seconds


class Browser:
    """One tab of a browser."""

    def __init__(self, path: str) -> None:
        self.folder = tempfile.TemporaryDirectory(ignore_cleanup_errors=True)
        theirs_in, self.to = os.pipe()
        self.come, theirs_out = os.pipe()
        words = [path, "--headless=new", "--no-sandbox", "--disable-gpu", "--no-first-run", "--disable-dev-shm-usage",
                 "--disable-extensions", "--disable-background-networking", f"--user-data-dir={self.folder.name}",
                 "--remote-debugging-pipe", "--window-size=1280,1000", "about:blank"]
        # The descriptors 3 and 4 are what the browser reads and writes.
        script = f'exec 3<&{theirs_in} 4>&{theirs_out}; exec "$@"'
        self.process = subprocess.Popen(["bash", "-c", script, "browser", *words], stdin=subprocess.DEVNULL,
                                        stdout=subprocess.DEVNULL, stderr=subprocess.DEVNULL,
                                        pass_fds=(theirs_in, theirs_out), start_new_session=True)
        os.close(theirs_in)
        os.close(theirs_out)
        self.number, self.left, self.session = 0, b"", ""
        self.requested: list[str] = []
        target = self.call("Target.createTarget", url="about:blank")["targetId"]
        self.session = self.call("Target.attachToTarget", targetId=target, flatten=True)["sessionId"]
        for domain in "Page", "Runtime", "Network":
            self.call(f"{domain}.enable")

    def __enter__(self) -> "Browser":
        return self

    def __exit__(self, *_: object) -> None:
        with contextlib.suppress(OSError):
            os.killpg(self.process.pid, 9)
        self.process.wait()
        os.close(self.to)
        os.close(self.come)
        self.folder.cleanup()

    def call(self, method: str, **given: Any) -> Any:
        """The result of a call of the browser."""
        self.number += 1
        asked = {"id": self.number, "method": method, "params": given}
        if self.session:
            asked["sessionId"] = self.session
        os.write(self.to, json.dumps(asked).encode() + b"\0")
        until = time.monotonic() + WAIT
        while True:
            found = self.message(until)
            if found.get("method") == "Network.requestWillBeSent":
                self.requested.append(found["params"]["request"]["url"])
            if found.get("id") == self.number:
                if "error" in found:
                    raise AssertionError(f"{method}: {found['error']}")
                return found["result"]

    def message(self, until: float) -> Any:
        while b"\0" not in self.left:
            if not select.select([self.come], [], [], max(0, until - time.monotonic()))[0]:
                raise AssertionError("the browser does not answer")
            piece = os.read(self.come, 1 << 20)
            if not piece:
                raise AssertionError("the browser ended")
            self.left += piece
        one, _, self.left = self.left.partition(b"\0")
        return json.loads(one)

    def open(self, address: str) -> None:
        self.run("window.isBefore = true")
        self.call("Page.navigate", url=address)
        self.until("window.isBefore === undefined && document.readyState === 'complete'")

    def run(self, script: str) -> Any:
        """The value of an expression in the page, which may be a promise."""
        found = self.call("Runtime.evaluate", expression=script, awaitPromise=True, returnByValue=True)
        if "exceptionDetails" in found:
            raise AssertionError(f"{script}: {found['exceptionDetails']}")
        return found["result"].get("value")

    def until(self, script: str) -> None:
        """Waits until an expression holds."""
        until = time.monotonic() + WAIT
        while not self.run(script):
            if time.monotonic() > until:
                raise AssertionError(f"{script} does not come to hold")
            time.sleep(0.02)

    def key(self, name: str, code: int, text: str = "") -> None:
        for kind in "keyDown", "keyUp":
            self.call("Input.dispatchKeyEvent", type=kind, key=name, code=name, windowsVirtualKeyCode=code,
                      **({"text": text} if text and kind == "keyDown" else {}))

    def type(self, text: str) -> None:
        self.call("Input.insertText", text=text)

    def look(self, *, dark: bool = False, width: int = 1280, scale: float = 1, height: int = 1000) -> None:
        """How the page is shown: in light or dark, in a window of this width, enlarged by this factor."""
        self.call("Emulation.setEmulatedMedia", features=[
            {"name": "prefers-color-scheme", "value": "dark" if dark else "light"}])
        self.call("Emulation.setDeviceMetricsOverride", width=int(width / scale), height=int(height / scale),
                  deviceScaleFactor=scale, mobile=False)

    def picture(self, path: str) -> None:
        """Writes a screenshot of the whole page."""
        found = self.call("Page.captureScreenshot", format="png", captureBeyondViewport=True)
        with open(path, "wb") as file:
            file.write(base64.b64decode(found["data"]))


@contextlib.contextmanager
def served(program: str) -> Iterator[Any]:
    """The page over a module of its own, on a free port."""
    sys.path[:0] = [os.path.dirname(os.path.dirname(os.path.abspath(__file__)))]
    from sothvelm.module import Module  # noqa: PLC0415
    from sothvelm.page import Desk, PageServer  # noqa: PLC0415
    with Module(program, hosts=1, accept=4096) as module:
        desk = Desk(module.host_ports[0], module.console_port, module.header, module.words)
        with PageServer(0, desk, "Over a module of its own with the test set of LMK pairs; leave the officers' words "
                        "empty, which it knows.") as server:
            thread = threading.Thread(target=server.serve_forever, daemon=True)
            thread.start()
            try:
                yield server
            finally:
                server.shutdown()
                desk.close()


def pictures(folder: str) -> None:
    """The screenshots of docs/: a refusal in light, the day in dark, and enlarged to 200 %."""
    from sothvelm.module import find_program  # noqa: PLC0415
    with served(find_program()) as server, Browser(shutil.which("chromium") or "chromium") as browser:
        browser.look()
        browser.open(f"http://127.0.0.1:{server.server_port}/")
        browser.run("choose('CA'); fill(row.example); at('field1').value = at('field0').value")
        browser.run("send()")
        browser.run("look()")
        browser.picture(os.path.join(folder, "page_refused.png"))
        browser.look(dark=True)
        for _ in range(13):
            browser.run("next()")
        browser.run("look()")
        browser.picture(os.path.join(folder, "page_day_dark.png"))
        browser.look(scale=2)
        browser.run("choose('JA'); fill(row.example); send()")
        browser.run("window.scrollTo(0, 0)")
        browser.picture(os.path.join(folder, "page_enlarged.png"))


if __name__ == "__main__":
    sys.path[:0] = [os.path.dirname(os.path.dirname(os.path.abspath(__file__)))]
    pictures(sys.argv[1])
