"""A chromium without a window, told what to do by JSON over two pipes."""
from __future__ import annotations

import base64
import json
import os
import select
import shutil
import subprocess
import tempfile
import time
from pathlib import Path

NAMES = ("chromium", "chromium-browser", "google-chrome")
PATIENCE = 20.0


def find() -> str | None:
    return next(filter(None, map(shutil.which, NAMES)), None)


class Browser:
    """One page of a browser. It reads commands at descriptor 3 and replies at descriptor 4; each message ends with a zero byte."""

    def __init__(self, path: str, width: int = 1280, height: int = 900, dark: bool = False):
        self.room = tempfile.mkdtemp(prefix="chromium-")
        commands, replies = os.pipe(), os.pipe()
        ends = (commands[0], replies[1])
        self.process = subprocess.Popen(
            [
                "bash", "-c", 'exec 3<&"$1" 4>&"$2"; shift 2; exec "$@"', "bash", str(ends[0]), str(ends[1]),
                path, "--headless", "--no-sandbox", "--disable-gpu", "--hide-scrollbars", "--remote-debugging-pipe", "--no-first-run",
                f"--user-data-dir={self.room}", "about:blank",
            ],
            stdin=subprocess.DEVNULL, stdout=subprocess.DEVNULL, stderr=subprocess.DEVNULL, pass_fds=ends, start_new_session=True,
        )
        for number in ends:
            os.close(number)
        self.commands, self.replies = commands[1], replies[0]
        self.buffer = b""
        self.count = 0
        self.page = ""
        target = self.ask("Target.createTarget", url="about:blank")["targetId"]
        self.page = self.ask("Target.attachToTarget", targetId=target, flatten=True)["sessionId"]
        self.ask("Page.enable")
        self.ask("Runtime.enable")
        self.ask("Emulation.setDeviceMetricsOverride", width=width, height=height, deviceScaleFactor=1, mobile=width < 600)
        self.ask("Emulation.setEmulatedMedia", features=[{"name": "prefers-color-scheme", "value": "dark" if dark else "light"}])

    def __enter__(self) -> Browser:
        return self

    def __exit__(self, *what) -> None:
        os.close(self.commands)
        try:
            self.process.wait(PATIENCE)
        except subprocess.TimeoutExpired:
            self.process.kill()
            self.process.wait()
        os.close(self.replies)
        # What is left of the browser may still write there.
        shutil.rmtree(self.room, ignore_errors=True)

    def ask(self, method: str, **parameters) -> dict:
        """The result of a command."""
        self.count += 1
        message = {"id": self.count, "method": method, "params": parameters}
        if self.page:
            message["sessionId"] = self.page
        os.write(self.commands, json.dumps(message).encode() + b"\0")
        until = time.monotonic() + PATIENCE
        while True:
            reply = self.hear(until)
            if reply.get("id") == self.count:
                if "error" in reply:
                    raise RuntimeError(f"{method}: {reply['error']}")
                return reply["result"]

    def hear(self, until: float) -> dict:
        while b"\0" not in self.buffer:
            if not select.select([self.replies], [], [], max(until - time.monotonic(), 0))[0]:
                raise TimeoutError("the browser does not reply")
            part = os.read(self.replies, 1 << 16)
            if not part:
                raise EOFError("the browser has ended")
            self.buffer += part
        message, _, self.buffer = self.buffer.partition(b"\0")
        return json.loads(message)

    def show(self, address: str) -> None:
        self.ask("Page.navigate", url=address)
        self.wait_for("document.readyState === 'complete'")

    def value(self, expression: str):
        """The value of an expression in the page; nothing while the browser goes from one page to another."""
        try:
            return self.ask("Runtime.evaluate", expression=expression, returnByValue=True)["result"].get("value")
        except RuntimeError:
            return None

    def wait_for(self, expression: str, seconds: float = 5.0) -> float:
        """Waits until an expression of the page holds; how long that took."""
        began = time.monotonic()
        while not self.value(f"Boolean({expression})"):
            if time.monotonic() - began > seconds:
                raise TimeoutError(f"not within {seconds} s: {expression}")
            time.sleep(0.01)
        return time.monotonic() - began

    def picture(self, path: Path, **more) -> None:
        data = self.ask("Page.captureScreenshot", format="png", **more)["data"]
        path.write_bytes(base64.b64decode(data))
