"""Drives Chromium without a window, over its debugging pipe, for dev/player-test. Nothing but Chromium is needed."""
import fcntl
import json
import os
import select
import subprocess
import tempfile
import time

FLAGS = [
    "--headless=new",
    "--no-sandbox",
    "--remote-debugging-pipe",
    "--hide-scrollbars",
    "--allow-file-access-from-files",
    "--mute-audio",
]


def pipe():
    """Returns the ends of a pipe, with numbers past those that Chromium takes."""
    low = os.pipe()
    high = [fcntl.fcntl(it, fcntl.F_DUPFD_CLOEXEC, 10) for it in low]
    for it in low:
        os.close(it)
    return high


class Browser:
    """One page of one Chromium."""

    def __init__(self, program="chromium"):
        self.folder = tempfile.TemporaryDirectory(ignore_cleanup_errors=True)  # some of its processes end later
        to_browser, self.outgoing = pipe()
        self.incoming, from_browser = pipe()
        fill = 'exec 3<&%d 4>&%d; exec "$@"' % (to_browser, from_browser)  # Chromium reads at 3 and writes at 4
        order = ["bash", "-c", fill, "bash", program, *FLAGS, f"--user-data-dir={self.folder.name}", "about:blank"]
        self.process = subprocess.Popen(
            order, pass_fds=(to_browser, from_browser), stdout=subprocess.DEVNULL, stderr=subprocess.DEVNULL
        )
        os.close(to_browser)
        os.close(from_browser)
        self.number, self.rest, self.events, self.session = 0, b"", [], None
        targets = self.send("Target.getTargets")["targetInfos"]
        page = next(it["targetId"] for it in targets if it["type"] == "page")
        self.session = self.send("Target.attachToTarget", targetId=page, flatten=True)["sessionId"]
        for domain in ("Page", "Runtime", "Log"):
            self.send(f"{domain}.enable")

    def close(self):
        self.process.terminate()
        self.process.wait()
        os.close(self.outgoing)
        os.close(self.incoming)
        self.folder.cleanup()

    def read(self, seconds):
        """Returns the next message, or None if none comes in time."""
        end = time.monotonic() + seconds
        while b"\0" not in self.rest:
            if not select.select([self.incoming], [], [], max(0, end - time.monotonic()))[0]:
                return None
            more = os.read(self.incoming, 1 << 20)
            if not more:
                raise EOFError("Chromium has ended")
            self.rest += more
        message, _, self.rest = self.rest.partition(b"\0")
        return json.loads(message)

    def send(self, method, **parameters):
        """Sends a command, and returns its result. What comes in between are events."""
        self.number += 1
        message = {"id": self.number, "method": method, "params": parameters}
        if self.session:
            message["sessionId"] = self.session
        os.write(self.outgoing, json.dumps(message).encode() + b"\0")
        while True:
            answer = self.read(120)
            if answer is None:
                raise TimeoutError(f"Chromium does not answer {method}")
            if answer.get("id") == self.number:
                if "error" in answer:
                    raise RuntimeError(f"{method}: {answer['error']['message']}")
                return answer["result"]
            self.events.append(answer)

    def value(self, expression):
        """Returns what an expression is in the page."""
        said = self.send("Runtime.evaluate", expression=expression, returnByValue=True, awaitPromise=True)
        if "exceptionDetails" in said:
            raise RuntimeError(f"{expression[:100]}: {said['exceptionDetails']}")
        return said["result"].get("value")

    def visit(self, address):
        """Goes to another document, and waits until it is loaded."""
        self.events.clear()
        self.send("Page.navigate", url=address)
        while not any(it.get("method") == "Page.loadEventFired" for it in self.events):
            event = self.read(120)
            if event is None:
                raise TimeoutError(f"Chromium does not load {address[:80]}")
            self.events.append(event)

    def open(self, address):
        """Opens an address anew, also if the page is open with another fragment."""
        self.visit("about:blank")
        self.visit(address)

    def troubles(self):
        """Returns the lines on the console, and the errors, since the page was opened."""
        kinds = {"Runtime.consoleAPICalled", "Runtime.exceptionThrown", "Log.entryAdded"}
        return [json.dumps(it["params"])[:400] for it in self.events if it.get("method") in kinds]

    def window(self, width, height, ratio=1, touch=False):
        self.send(
            "Emulation.setDeviceMetricsOverride", width=width, height=height, deviceScaleFactor=ratio, mobile=touch
        )
        self.send("Emulation.setTouchEmulationEnabled", enabled=touch)

    def calm(self, is_calm):
        """Says whether pages that are opened from now on are asked for less motion."""
        features = [{"name": "prefers-reduced-motion", "value": "reduce" if is_calm else ""}]
        self.send("Emulation.setEmulatedMedia", features=features)

    def key(self, key, text=None):
        """Presses a key, such as " " or "ArrowLeft"."""
        plain = text if text is not None else key if len(key) == 1 else ""
        self.send("Input.dispatchKeyEvent", type="keyDown", key=key, text=plain)
        self.send("Input.dispatchKeyEvent", type="keyUp", key=key)

    def mouse(self, kind, x, y, **facts):
        self.send("Input.dispatchMouseEvent", type=kind, x=x, y=y, **facts)

    def click(self, x, y):
        for kind in ("mouseMoved", "mousePressed", "mouseReleased"):
            self.mouse(
                kind,
                x,
                y,
                button="none" if kind == "mouseMoved" else "left",
                clickCount=0 if kind == "mouseMoved" else 1,
            )
