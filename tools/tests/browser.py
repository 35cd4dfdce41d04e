"""A headless Chromium, driven by the DevTools protocol over a pair of pipes."""
from __future__ import annotations

import base64
import json
import os
import select
import shutil
import subprocess
import tempfile
import time
from typing import Any, Callable, Dict, List, Optional

PATIENCE = 300
WIDTH, HEIGHT = 1200, 800
PROGRAMS = ("chromium", "chromium-browser", "google-chrome")
KEYS = {"Enter": ("\r", 13), "ArrowLeft": ("", 37), "ArrowRight": ("", 39), "ArrowUp": ("", 38), "ArrowDown": ("", 40), "Tab": ("\t", 9), "+": ("+", 187), "-": ("-", 189)}


def browser() -> Optional[str]:
    """The path of Chromium; None where it is not there."""
    return next(filter(None, map(shutil.which, PROGRAMS)), None)


class Fault(Exception):
    """What the browser refused, or did not do in time."""


class Browser:
    """Chromium with one page."""

    def __init__(self, width: int = WIDTH, height: int = HEIGHT) -> None:
        self.folder = tempfile.TemporaryDirectory(prefix="browser-", ignore_cleanup_errors=True)
        read_commands, self.commands = os.pipe()
        self.replies, write_replies = os.pipe()

        # (Chromium reads commands at 3 and writes replies at 4, which here may be closed, or in use)
        pipes = (read_commands, write_replies)
        words = [
            "bash", "-c", 'exec "$0" "$@" 3<&%d 4>&%d' % pipes, str(browser()),
            "--headless=new", "--no-sandbox", "--disable-gpu", "--disable-dev-shm-usage", "--remote-debugging-pipe",
            f"--user-data-dir={self.folder.name}", f"--window-size={width},{height}", "--no-first-run", "--disable-background-networking",
            "--disable-component-update", "about:blank",
        ]  # fmt: skip
        quiet = {"stdin": subprocess.DEVNULL, "stdout": subprocess.DEVNULL, "stderr": subprocess.DEVNULL}
        self.process = subprocess.Popen(words, pass_fds=pipes, **quiet)
        os.close(read_commands)
        os.close(write_replies)
        self.buffer, self.count, self.session = b"", 0, ""
        self.events: List[Dict[str, Any]] = []
        self.open_page(width, height)

    def open_page(self, width: int, height: int) -> None:
        """Takes the first page."""
        targets = self.wait_for(lambda: [one for one in self.send("Target.getTargets")["targetInfos"] if one["type"] == "page"])
        self.session = self.send("Target.attachToTarget", targetId=targets[0]["targetId"], flatten=True)["sessionId"]
        for domain in ("Page", "Runtime", "Network", "Log"):
            self.send(f"{domain}.enable")
        self.send("Emulation.setDeviceMetricsOverride", width=width, height=height, deviceScaleFactor=1, mobile=False)

    def close(self) -> None:
        """Ends the browser."""
        self.process.kill()
        self.process.wait(PATIENCE)
        os.close(self.commands)
        os.close(self.replies)
        self.folder.cleanup()

    def message(self) -> Dict[str, Any]:
        """The next message."""
        while b"\0" not in self.buffer:
            if not select.select([self.replies], [], [], PATIENCE)[0]:
                raise Fault("the browser says nothing")
            piece = os.read(self.replies, 1 << 20)
            if not piece:
                raise Fault("the browser ended")
            self.buffer += piece
        line, _, self.buffer = self.buffer.partition(b"\0")
        return json.loads(line)

    def send(self, method: str, **words: Any) -> Dict[str, Any]:
        """The result of a command."""
        self.count += 1
        command = {"id": self.count, "method": method, "params": words, **({"sessionId": self.session} if self.session else {})}
        os.write(self.commands, json.dumps(command).encode() + b"\0")
        while True:
            message = self.message()
            if message.get("id") == self.count:
                if "error" in message:
                    raise Fault(f"{method}: {message['error']['message']}")
                return message["result"]
            self.events.append(message)

    def wait_for(self, look: Callable[[], Any], seconds: float = PATIENCE) -> Any:
        """What is looked for, once it is there."""
        end = time.monotonic() + seconds
        while time.monotonic() < end:
            found = look()
            if found:
                return found
            time.sleep(0.05)
        raise Fault("it did not come in time")

    def run(self, script: str) -> Any:
        """The value of a script."""
        result = self.send("Runtime.evaluate", expression=script, returnByValue=True, awaitPromise=True)
        if "exceptionDetails" in result:
            raise Fault(result["exceptionDetails"].get("exception", {}).get("description", "the script failed"))
        return result["result"].get("value")

    def text(self, selector: str) -> str:
        """The text of an element; empty where there is none."""
        return str(self.run(f"(document.querySelector({json.dumps(selector)}) || {{}}).innerText || ''"))

    def go(self, address: str) -> None:
        """Opens an address, and waits until the page has read its map."""
        self.events.clear()
        self.send("Page.navigate", url=address)
        self.wait_for(lambda: "mapping" in self.text("#about"))

    def click(self, x: float, y: float) -> None:
        """A click of the mouse."""
        for kind in ("mousePressed", "mouseReleased"):
            self.send("Input.dispatchMouseEvent", type=kind, x=x, y=y, button="left", clickCount=1)

    def drag(self, x: float, y: float, to_x: float, to_y: float) -> None:
        """Drags with the mouse."""
        self.send("Input.dispatchMouseEvent", type="mousePressed", x=x, y=y, button="left", clickCount=1)
        for step in range(1, 6):
            place = {"x": x + (to_x - x) * step / 5, "y": y + (to_y - y) * step / 5}
            self.send("Input.dispatchMouseEvent", type="mouseMoved", button="left", buttons=1, **place)
            time.sleep(0.03)
        time.sleep(0.3)
        self.send("Input.dispatchMouseEvent", type="mouseReleased", x=to_x, y=to_y, button="left", clickCount=1)

    def wheel(self, x: float, y: float, turn: int) -> None:
        """Turns the wheel."""
        self.send("Input.dispatchMouseEvent", type="mouseWheel", x=x, y=y, deltaX=0, deltaY=turn)

    def touch(self, kind: str, *points: Any) -> None:
        """Touches: touchStart, touchMove or touchEnd."""
        self.send("Input.dispatchTouchEvent", type=kind, touchPoints=[{"x": x, "y": y, "id": number} for number, (x, y) in enumerate(points)])

    def press(self, key: str) -> None:
        """Presses a key."""
        text, code = KEYS[key]
        words = {"key": key, "windowsVirtualKeyCode": code, "code": key if len(key) > 1 else "Equal" if key == "+" else "Minus"}
        self.send("Input.dispatchKeyEvent", type="keyDown", **words, **({"text": text} if text else {}))
        self.send("Input.dispatchKeyEvent", type="keyUp", **words)

    def type(self, text: str) -> None:
        """Types a text where the focus is."""
        self.send("Input.insertText", text=text)

    def screenshot(self, path: str) -> None:
        """Writes a picture of the page."""
        with open(path, "wb") as file:
            file.write(base64.b64decode(self.send("Page.captureScreenshot")["data"]))

    def faults(self) -> List[str]:
        """What the page did wrong: exceptions, and what its policy refused."""
        self.run("0")
        found = []
        for event in self.events:
            if event.get("method") == "Runtime.exceptionThrown":
                details = event["params"]["exceptionDetails"]
                found.append(details.get("exception", {}).get("description", details["text"]))
            if event.get("method") == "Log.entryAdded" and event["params"]["entry"]["level"] == "error":
                found.append(event["params"]["entry"]["text"])
        return found
