"""Chromium without a head, driven over its remote debugging by the standard library alone."""
import atexit
import base64
import itertools
import json
import os
import socket
import struct
import subprocess
import tempfile
import time
import urllib.request


class Browser:
    """A browser with one page, of a window of so many pixels."""

    def __init__(self, program, width=1280, height=900):
        self._folder = tempfile.TemporaryDirectory(ignore_cleanup_errors=True)
        words = ["--headless=new", "--no-sandbox", "--disable-gpu", "--disable-dev-shm-usage", "--no-first-run", "--hide-scrollbars"]
        words += ["--disable-background-timer-throttling", "--disable-renderer-backgrounding", "--remote-debugging-port=0"]
        words += [f"--window-size={width},{height}", f"--user-data-dir={self._folder.name}", "about:blank"]
        self._process = subprocess.Popen([program, *words], stdout=subprocess.DEVNULL, stderr=subprocess.DEVNULL)
        # It doesn't outlive a check that failed.
        atexit.register(self.close)
        self._ids = itertools.count(1)
        self.errors = []
        self._connect(self._address())
        for domain in ("Page", "Runtime", "Log"):
            self.call(f"{domain}.enable")

    def _address(self):
        path = os.path.join(self._folder.name, "DevToolsActivePort")
        for _ in range(600):
            try:
                with open(path) as file:
                    port = int(file.readline())
                with urllib.request.urlopen(f"http://127.0.0.1:{port}/json/list", timeout=10) as reply:
                    pages = [it for it in json.load(reply) if it["type"] == "page"]
                if pages:
                    return port, pages[0]["webSocketDebuggerUrl"].partition(f":{port}")[2]
            except (OSError, ValueError):
                pass
            time.sleep(0.1)
        raise SystemExit("web: Chromium can't be driven")

    def _connect(self, address):
        port, path = address
        self._stream = socket.create_connection(("127.0.0.1", port), timeout=120)
        self._reader = self._stream.makefile("rb")
        key = base64.b64encode(os.urandom(16)).decode()
        head = [f"GET {path} HTTP/1.1", f"Host: 127.0.0.1:{port}", "Connection: Upgrade", "Upgrade: websocket", "Sec-WebSocket-Version: 13"]
        self._stream.sendall("\r\n".join([*head, f"Sec-WebSocket-Key: {key}", "", ""]).encode())
        while self._reader.readline() not in (b"\r\n", b""):
            pass

    def _send(self, text):
        data = text.encode()
        size = len(data)
        head = bytes([0x81, 0x80 | size]) if size < 126 else bytes([0x81, 0xFE]) + struct.pack(">H", size) if size < 65_536 else bytes([0x81, 0xFF]) + struct.pack(">Q", size)
        # A mask of nothing changes nothing.
        self._stream.sendall(head + bytes(4) + data)

    def _receive(self):
        whole = b""
        while True:
            first, size = self._reader.read(2)
            if size == 126:
                (size,) = struct.unpack(">H", self._reader.read(2))
            elif size == 127:
                (size,) = struct.unpack(">Q", self._reader.read(8))
            whole += self._reader.read(size)
            if first & 0x80:
                return json.loads(whole)

    def call(self, method, **parameters):
        """The result of a call of the remote debugging. Exceptions of the page that are told meanwhile are kept in `errors`."""
        number = next(self._ids)
        self._send(json.dumps({"id": number, "method": method, "params": parameters}))
        while True:
            told = self._receive()
            if told.get("method") == "Runtime.exceptionThrown":
                self.errors.append(told["params"]["exceptionDetails"].get("exception", {}).get("description", "an exception"))
            if told.get("id") == number:
                if "error" in told:
                    raise SystemExit(f"web: {method}: {told['error']}")
                return told["result"]

    def value(self, expression):
        """The value of an expression of the page; of a promise what it comes to."""
        result = self.call("Runtime.evaluate", expression=expression, returnByValue=True, awaitPromise=True)
        if "exceptionDetails" in result:
            raise SystemExit(f"web: {expression}: {result['exceptionDetails'].get('exception', {}).get('description')}")
        return result["result"].get("value")

    def until(self, expression, seconds=60):
        """Waits until the expression is true."""
        end = time.monotonic() + seconds
        while not self.value(expression):
            if time.monotonic() > end:
                raise SystemExit(f"web: after {seconds} seconds it is not so that {expression}: {self.value('document.body.innerText')!r}")
            time.sleep(0.01)

    def open(self, address):
        self.call("Page.navigate", url=address)
        self.until("document.readyState === 'complete'")

    def size(self, width, height, phone=False):
        self.call("Emulation.setDeviceMetricsOverride", width=width, height=height, deviceScaleFactor=2 if phone else 1, mobile=phone)

    def click(self, selector):
        """A click of the mouse at the middle of an element."""
        place = self.value(f"(() => {{ const it = document.querySelector({json.dumps(selector)}); it.scrollIntoView({{block: 'nearest'}}); const box = it.getBoundingClientRect(); return [box.x + box.width / 2, box.y + box.height / 2]; }})()")
        for kind in ("mousePressed", "mouseReleased"):
            self.call("Input.dispatchMouseEvent", type=kind, x=place[0], y=place[1], button="left", clickCount=1)

    def key(self, name):
        """A key goes down and up. A name of one letter is typed."""
        codes = {"Enter": 13, "Home": 36, "End": 35, "ArrowLeft": 37, "ArrowUp": 38, "ArrowRight": 39, "ArrowDown": 40, "Tab": 9}
        more = {"text": "\r"} if name == "Enter" else {"text": name} if len(name) == 1 else {}
        for kind in ("keyDown", "keyUp"):
            self.call("Input.dispatchKeyEvent", type=kind, key=name, windowsVirtualKeyCode=codes.get(name, ord(name[0].upper())), **(more if kind == "keyDown" else {}))

    def fill(self, selector, text):
        self.value(f"document.querySelector({json.dumps(selector)}).value = {json.dumps(text)}")

    def picture(self, path, whole=True):
        """The whole page, or what is seen of it."""
        size = self.call("Page.getLayoutMetrics")["cssContentSize"]
        clip = {"clip": {"x": 0, "y": 0, "width": size["width"], "height": size["height"], "scale": 1}}
        shot = self.call("Page.captureScreenshot", captureBeyondViewport=whole, **(clip if whole else {}))
        with open(path, "wb") as file:
            file.write(base64.b64decode(shot["data"]))

    def close(self):
        self._process.terminate()
        self._process.wait()
        self._folder.cleanup()
