"""A headless Chromium with one page, spoken to over a pipe."""
import base64
import json
import os
import pathlib
import shutil
import subprocess
import sys
import time
from typing import Any


class Browser:
    """A headless Chromium with one page, spoken to over a pipe."""

    def __init__(self, folder: pathlib.Path) -> None:
        reading, their_writing = os.pipe()
        their_reading, self.writing = os.pipe()
        options = [
            "--headless=new",
            "--remote-debugging-pipe",
            "--ignore-certificate-errors",
            "--disable-gpu",
            f"--user-data-dir={folder}/profile",
        ]
        if os.geteuid() == 0:
            options.append("--no-sandbox")
        command = ["sh", "-c", f'exec "$@" 3<&{their_reading} 4>&{their_writing}', "sh", chromium(), *options, "about:blank"]
        self.process = subprocess.Popen(command, pass_fds=(their_reading, their_writing), stderr=subprocess.DEVNULL)
        os.close(their_reading)
        os.close(their_writing)
        self.pipe, self.count, self.session = os.fdopen(reading, "rb"), 0, ""
        self.events: list[dict[str, Any]] = []
        self.rest = b""
        target = self.call("Target.createTarget", url="about:blank")["targetId"]
        self.session = self.call("Target.attachToTarget", targetId=target, flatten=True)["sessionId"]
        self.call("Page.enable")
        self.call("Runtime.enable")

    def message(self) -> dict[str, Any]:
        """The next message: they end with a zero byte."""
        while b"\0" not in self.rest:
            part = os.read(self.pipe.fileno(), 1 << 20)
            assert part, "the browser ended"
            self.rest += part
        text, _, self.rest = self.rest.partition(b"\0")
        found: dict[str, Any] = json.loads(text)
        return found

    def call(self, method: str, **parameters: object) -> dict[str, Any]:
        """Calls a method of the browser; keeps the exceptions that the page throws meanwhile."""
        self.count += 1
        asked = {"id": self.count, "method": method, "params": parameters}
        if self.session:
            asked["sessionId"] = self.session
        os.write(self.writing, json.dumps(asked).encode() + b"\0")
        while (answer := self.message()).get("id") != self.count:
            if answer.get("method") == "Runtime.exceptionThrown":
                self.events.append(answer["params"]["exceptionDetails"])
        if "error" in answer:
            raise AssertionError(f"{method}: {answer['error']}")
        found: dict[str, Any] = answer["result"]
        return found

    def value(self, expression: str) -> Any:
        """What an expression comes to in the page; a promise is waited for."""
        result = self.call("Runtime.evaluate", expression=expression, awaitPromise=True, returnByValue=True)
        assert "exceptionDetails" not in result, result
        return result["result"].get("value")

    def wait_for(self, expression: str, seconds: float = 60) -> None:
        end = time.monotonic() + seconds
        while not self.value(expression):
            assert time.monotonic() < end, f"not within {seconds} s: {expression}"
            time.sleep(0.05)

    def size(self, width: int, height: int = 900) -> None:
        self.call("Emulation.setDeviceMetricsOverride", width=width, height=height, deviceScaleFactor=1, mobile=width < 800)

    def picture(self, path: pathlib.Path) -> None:
        """Takes a picture of the page, of at most 6,000 pixels from its top."""
        box = self.value("[document.documentElement.clientWidth, document.documentElement.scrollHeight]")
        clip = {"x": 0, "y": 0, "width": box[0], "height": min(box[1], 6_000), "scale": 1}
        data = self.call("Page.captureScreenshot", format="png", captureBeyondViewport=True, clip=clip)["data"]
        path.write_bytes(base64.b64decode(data))

    def choose_file(self, selector: str, path: pathlib.Path) -> None:
        root = self.call("DOM.getDocument")["root"]["nodeId"]
        node = self.call("DOM.querySelector", nodeId=root, selector=selector)["nodeId"]
        self.call("DOM.setFileInputFiles", nodeId=node, files=[str(path)])

    def close(self) -> None:
        self.process.terminate()
        self.process.wait()


def chromium() -> str:
    for name in "chromium", "chromium-browser", "google-chrome":
        if path := shutil.which(name):
            return path
    sys.exit("no Chromium: install the package `chromium`")
