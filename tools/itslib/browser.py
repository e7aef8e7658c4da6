"""A headless Chromium and a page in it, driven by its DevTools protocol over a WebSocket. Python's standard library alone;
nothing but the loopback address is connected to."""

import base64
import json
import os
import shutil
import socket
import struct
import subprocess
import tempfile
import time
import urllib.request
from typing import Any, List, Optional

from .session import Wrong

NAMES = ("chromium", "chromium-browser", "google-chrome", "chrome")
FLAGS = ["--headless=new", "--no-sandbox", "--disable-gpu", "--hide-scrollbars", "--no-first-run", "--disable-extensions",
         "--disable-background-networking", "--disable-component-update", "--remote-debugging-port=0"]
PATIENCE = 900.0     # seconds until something is taken to have failed: a machine may have much else to do


class Socket:
    """A WebSocket that sends and receives texts."""

    def __init__(self, address: str):
        host, path = address[len("ws://"):].split("/", 1)
        name, port = host.split(":")
        self.socket = socket.create_connection((name, int(port)), timeout=PATIENCE)
        self.waiting = b""
        key = base64.b64encode(os.urandom(16)).decode()
        self.socket.sendall(("GET /%s HTTP/1.1\r\nHost: %s\r\nUpgrade: websocket\r\nConnection: Upgrade\r\n"
                             "Sec-WebSocket-Key: %s\r\nSec-WebSocket-Version: 13\r\n\r\n" % (path, host, key)).encode())
        while b"\r\n\r\n" not in self.waiting:
            self.more()
        self.waiting = self.waiting.split(b"\r\n\r\n", 1)[1]

    def more(self) -> None:
        """Waits for more bytes."""
        got = self.socket.recv(1 << 16)
        if not got:
            raise Wrong("Chromium closed the connection")
        self.waiting += got

    def take(self, count: int) -> bytes:
        """Takes so many bytes."""
        while len(self.waiting) < count:
            self.more()
        taken, self.waiting = self.waiting[:count], self.waiting[count:]
        return taken

    def send(self, text: str) -> None:
        """Sends a text, in one frame that is masked with zeros."""
        data = text.encode()
        size = len(data)
        head = (struct.pack("!BB", 0x81, 0x80 | size) if size < 126 else
                struct.pack("!BBH", 0x81, 0xfe, size) if size < 1 << 16 else struct.pack("!BBQ", 0x81, 0xff, size))
        self.socket.sendall(head + bytes(4) + data)

    def receive(self) -> str:
        """Receives a text, which may come in several frames."""
        text = b""
        while True:
            first, size = self.take(2)
            size &= 0x7f
            if size == 126:
                size = struct.unpack("!H", self.take(2))[0]
            elif size == 127:
                size = struct.unpack("!Q", self.take(8))[0]
            data = self.take(size)
            if first & 0x0f in (0, 1):
                text += data
                if first & 0x80:
                    return text.decode()


def chromium() -> Optional[str]:
    """The program Chromium, if there is one."""
    return next((found for found in (shutil.which(name) for name in NAMES) if found), None)


def wrong_in(events: List[dict]) -> List[str]:
    """What went wrong in a page, by its events: exceptions, and connections to anything but the file and what it has made itself."""
    thrown = [event["params"]["exceptionDetails"] for event in events if event["method"] == "Runtime.exceptionThrown"]
    asked = [event["params"]["request"]["url"] for event in events if event["method"] == "Network.requestWillBeSent"]
    return (["%s %s" % (one.get("text", ""), one.get("exception", {}).get("description", "")) for one in thrown] +
            ["it asks for " + url for url in asked if not url.startswith(("file:", "blob:"))])


class Browser:
    """A headless Chromium with one page."""

    def __init__(self) -> None:
        program = chromium()
        if not program:
            raise Wrong("no Chromium is found (Debian's package is called chromium)")
        self.folder = tempfile.mkdtemp()
        self.process = subprocess.Popen([program] + FLAGS + ["--user-data-dir=" + self.folder, "about:blank"],
                                        stdin=subprocess.DEVNULL, stdout=subprocess.DEVNULL, stderr=subprocess.DEVNULL)
        self.events: List[dict] = []
        self.wrong: List[str] = []     # what went wrong in the pages that were open before this one
        self.asked = 0
        self.width = 0
        try:
            self.socket = Socket(self.address())
            for domain in ("Page", "Runtime", "Network"):
                self.ask(domain + ".enable")
        except BaseException:
            self.close()
            raise

    def address(self) -> str:
        """The address of the page, once Chromium is ready."""
        end = time.monotonic() + PATIENCE
        while time.monotonic() < end:
            try:
                with open(os.path.join(self.folder, "DevToolsActivePort"), encoding="ascii") as file:
                    port = int(file.readline())
                with urllib.request.urlopen("http://127.0.0.1:%d/json/list" % port, timeout=PATIENCE) as answer:
                    return next(page["webSocketDebuggerUrl"] for page in json.load(answer) if page["type"] == "page")
            except (OSError, ValueError, StopIteration):
                time.sleep(0.1)
        raise Wrong("Chromium does not start")

    def ask(self, method: str, **words: Any) -> dict:
        """Asks Chromium for something, and returns what it answers. Events that come meanwhile are kept."""
        self.asked += 1
        self.socket.send(json.dumps({"id": self.asked, "method": method, "params": words}))
        while True:
            said = json.loads(self.socket.receive())
            if said.get("id") == self.asked:
                if "error" in said:
                    raise Wrong("%s: %s" % (method, said["error"].get("message")))
                return said["result"]
            self.events.append(said)

    def event(self, method: str) -> None:
        """Waits for an event."""
        while not any(event["method"] == method for event in self.events):
            self.events.append(json.loads(self.socket.receive()))

    def value(self, script: str) -> Any:
        """The value of an expression in the page; of a promise, its result."""
        answer = self.ask("Runtime.evaluate", expression=script, returnByValue=True, awaitPromise=True)
        if "exceptionDetails" in answer:
            raise Wrong("the page: %s" % answer["exceptionDetails"].get("exception", {}).get("description", "an exception"))
        return answer["result"].get("value")

    def shape(self, width: int, height: int, dark: bool = False) -> None:
        """How large the window is, and whether its reader wants it dark."""
        self.width = width
        self.ask("Emulation.setDeviceMetricsOverride", width=width, height=height, deviceScaleFactor=1, mobile=width < 600)
        scheme = {"name": "prefers-color-scheme", "value": "dark" if dark else "light"}
        self.ask("Emulation.setEmulatedMedia", features=[scheme])

    def open(self, path: str, fragment: str = "") -> None:
        """Opens a file, and waits for it. What was noted of the page before counts, too."""
        self.value("new Promise(done => setTimeout(done))")
        for url in ("about:blank", "file://" + os.path.abspath(path) + fragment):
            self.wrong += wrong_in(self.events)
            self.events.clear()
            self.ask("Page.navigate", url=url)
            self.event("Page.loadEventFired")

    def press(self, key: str, shift: bool = False) -> None:
        """Presses a key."""
        for kind in ("keyDown", "keyUp"):
            self.ask("Input.dispatchKeyEvent", type=kind, key=key, code=key, modifiers=8 if shift else 0)

    def type(self, text: str) -> None:
        """Types a character."""
        code = ord(text.upper())
        self.ask("Input.dispatchKeyEvent", type="keyDown", key=text, text=text, windowsVirtualKeyCode=code)
        self.ask("Input.dispatchKeyEvent", type="keyUp", key=text, windowsVirtualKeyCode=code)

    def screenshot(self, path: str) -> None:
        """Writes what the window shows as a PNG."""
        data = self.ask("Page.captureScreenshot", format="png")["data"]
        with open(path, "wb") as file:
            file.write(base64.b64decode(data))

    def trace(self) -> None:
        """Begins to note the tasks of the page."""
        self.ask("Tracing.start", transferMode="ReportEvents", traceConfig={"includedCategories": ["toplevel"]})

    def longest_task(self) -> float:
        """The longest task of the page's main thread since `trace`, in milliseconds of processor time: so another program that keeps the
        machine busy does not count."""
        self.ask("Tracing.end")
        self.event("Tracing.tracingComplete")
        found = [one for event in self.events if event["method"] == "Tracing.dataCollected" for one in event["params"]["value"]]
        self.events = [event for event in self.events if not event["method"].startswith("Tracing.")]
        mains = {(one["pid"], one["tid"]) for one in found if one["name"] == "thread_name" and one["args"]["name"] == "CrRendererMain"}
        tasks = [one["tdur"] for one in found if one["name"].endswith("RunTask") and (one["pid"], one["tid"]) in mains and "tdur" in one]
        if not tasks:
            raise Wrong("Chromium notes no task of the page")
        return max(tasks) / 1000

    def complaints(self) -> List[str]:
        """What went wrong in all pages that were opened. Those that the browser notes until now count."""
        self.value("new Promise(done => setTimeout(done))")
        return self.wrong + wrong_in(self.events)

    def close(self) -> None:
        """Ends Chromium."""
        self.process.terminate()
        try:
            self.process.wait(PATIENCE)
        except subprocess.TimeoutExpired:
            self.process.kill()
        shutil.rmtree(self.folder, ignore_errors=True)
