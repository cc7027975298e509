"""A headless Chromium that is driven from here, by its protocol for tools over a plain WebSocket."""

import base64
import json
import os
import re
import shutil
import socket
import struct
import subprocess
import tempfile
import time
import urllib.request

ADDRESS = re.compile(r"DevTools listening on ws://127\.0\.0\.1:(\d+)/")
WAIT = 120


class Socket:
    """The client's side of a WebSocket: texts out, texts in."""

    def __init__(self, port, path):
        self.socket = socket.create_connection(("127.0.0.1", port), timeout=WAIT)
        key = base64.b64encode(os.urandom(16)).decode("ascii")
        lines = ["GET %s HTTP/1.1" % path, "Host: 127.0.0.1:%d" % port, "Upgrade: websocket", "Connection: Upgrade",
                 "Sec-WebSocket-Key: " + key, "Sec-WebSocket-Version: 13", "", ""]
        self.socket.sendall("\r\n".join(lines).encode("ascii"))
        self.came = b""
        while b"\r\n\r\n" not in self.came:
            self.receive()
        head, self.came = self.came.split(b"\r\n\r\n", 1)
        if b" 101 " not in head.split(b"\r\n")[0]:
            raise OSError("the browser takes no WebSocket: %r" % head)

    def receive(self):
        data = self.socket.recv(1 << 20)
        if not data:
            raise OSError("the browser closed its socket")
        self.came += data

    def take(self, count):
        while len(self.came) < count:
            self.receive()
        taken, self.came = self.came[:count], self.came[count:]
        return taken

    def send(self, text):
        data, mask = text.encode("utf-8"), os.urandom(4)
        length = bytes([0x80 | len(data)]) if len(data) < 126 else b"\xff" + struct.pack(">Q", len(data))
        masked = bytes(byte ^ mask[place & 3] for place, byte in enumerate(data))
        self.socket.sendall(b"\x81" + length + mask + masked)

    def text(self):
        """The next text, of one frame or of several."""
        whole = b""
        while True:
            first, second = self.take(2)
            length = second & 0x7F
            if length >= 126:
                length = int.from_bytes(self.take(2 if length == 126 else 8), "big")
            data = self.take(length)
            # Frames from 8 on say how the connection is, which is of no matter here.
            if first & 0x0F < 8:
                whole += data
                if first & 0x80:
                    return whole.decode("utf-8")


class Browser:
    """One page of a Chromium of its own, with a folder of its own."""

    def __init__(self, width=1400, height=1000):
        self.folder = tempfile.mkdtemp()
        words = [shutil.which("chromium") or "chromium", "--headless=new", "--no-sandbox", "--disable-gpu", "--no-first-run",
                 "--hide-scrollbars", "--force-device-scale-factor=1", "--remote-debugging-port=0",
                 "--user-data-dir=" + self.folder, "--window-size=%d,%d" % (width, height), "about:blank"]
        # It leaves files of its own where it is ended.
        how = {"env": {**os.environ, "TMPDIR": self.folder}, "stdout": subprocess.DEVNULL, "stderr": subprocess.PIPE}
        self.program = subprocess.Popen(words, text=True, errors="replace", **how)
        port = self.port()
        with urllib.request.urlopen("http://127.0.0.1:%d/json" % port, timeout=WAIT) as answer:
            pages = [page for page in json.load(answer) if page["type"] == "page"]
        self.socket = Socket(port, pages[0]["webSocketDebuggerUrl"].split(str(port), 1)[1])
        self.asked, self.events = 0, []
        self.ask("Emulation.setDeviceMetricsOverride", width=width, height=height, deviceScaleFactor=1, mobile=False)
        for part in ("Page", "Runtime", "Log", "Network"):
            self.ask(part + ".enable")

    def port(self):
        for line in self.program.stderr:
            found = ADDRESS.search(line)
            if found:
                return int(found[1])
        raise OSError("chromium did not start")

    def __enter__(self):
        return self

    def __exit__(self, *_):
        self.program.terminate()
        self.program.wait()
        self.program.stderr.close()
        shutil.rmtree(self.folder, ignore_errors=True)

    def ask(self, method, **words):
        """What the browser answers; events that come before are kept."""
        self.asked += 1
        self.socket.send(json.dumps({"id": self.asked, "method": method, "params": words}))
        while True:
            message = json.loads(self.socket.text())
            if message.get("id") == self.asked:
                if "error" in message:
                    raise OSError("%s: %s" % (method, message["error"]))
                return message["result"]
            self.events.append(message)

    def value(self, script):
        """What a script comes to in the page."""
        told = self.ask("Runtime.evaluate", expression=script, awaitPromise=True, returnByValue=True)
        if "exceptionDetails" in told:
            raise AssertionError("%s: %s" % (script, told["exceptionDetails"]))
        return told["result"].get("value")

    def wait(self, script):
        """What a script comes to in the page, as soon as it is true."""
        last = time.monotonic() + WAIT
        while time.monotonic() < last:
            value = self.value(script)
            if value:
                return value
            time.sleep(0.02)
        raise AssertionError("in vain for %s" % script)

    def open(self, path, fragment=""):
        """Opens a file and waits until it has loaded; `events` has what the browser says of it from then on."""
        self.events = []
        self.ask("Page.navigate", url="about:blank")
        self.wait("location.href === 'about:blank'")
        self.ask("Page.navigate", url="file://" + urllib.request.pathname2url(os.path.abspath(path)) + fragment)
        self.wait("location.protocol === 'file:' && document.readyState === 'complete'")

    def key(self, key, shift=False):
        words = {"key": key, "modifiers": 8 if shift else 0}
        if len(key) == 1:
            words["text"] = key
        self.ask("Input.dispatchKeyEvent", type="keyDown", **words)
        self.ask("Input.dispatchKeyEvent", type="keyUp", key=key)

    def click(self, x, y):
        for kind in ("mousePressed", "mouseReleased"):
            self.ask("Input.dispatchMouseEvent", type=kind, x=x, y=y, button="left", clickCount=1)

    def wheel(self, x, y, way):
        self.ask("Input.dispatchMouseEvent", type="mouseWheel", x=x, y=y, deltaX=0, deltaY=100 * way)

    def picture(self):
        return base64.b64decode(self.ask("Page.captureScreenshot", format="png")["data"])
