"""Chromium without a window, driven by the DevTools protocol over a pipe: no port, and no library."""
import base64
import json
import os
import select
import shutil
import subprocess
import sys
import tempfile
import time

NAMES = ["chromium", "chromium-browser", "google-chrome"]


class Failure(Exception):
    """What the page or the browser did not do."""


def chromium():
    """The path of the browser; the script ends if there is none."""
    named = os.environ.get("CHROMIUM")
    found = next(filter(None, map(shutil.which, [named] if named else NAMES)), None)
    return found or sys.exit("web_test: no command chromium: install the package chromium (Debian), or set CHROMIUM to its path")


class Browser:
    """A browser with one page."""

    def __init__(self):
        self.folder = tempfile.mkdtemp()
        read, self.writer = os.pipe()
        self.reader, write = os.pipe()
        flags = ["--headless", "--no-sandbox", "--disable-gpu", "--no-first-run", "--disable-dev-shm-usage",
                 "--remote-debugging-pipe", f"--user-data-dir={self.folder}", "about:blank"]
        command = f'exec "$0" "$@" 3<&{read} 4>&{write}'
        self.process = subprocess.Popen(["bash", "-c", command, chromium(), *flags], pass_fds=(read, write),
                                        stdin=subprocess.DEVNULL, stdout=subprocess.DEVNULL, stderr=subprocess.DEVNULL)
        os.close(read)
        os.close(write)
        self.octets, self.number, self.session, self.events = b"", 0, None, []
        pages = [it for it in self.call("Target.getTargets")["targetInfos"] if it["type"] == "page"]
        self.session = self.call("Target.attachToTarget", targetId=pages[0]["targetId"], flatten=True)["sessionId"]
        for domain in ("Page", "Runtime", "Network", "DOM", "Log"):
            self.call(f"{domain}.enable")

    def message(self, until):
        while b"\0" not in self.octets:
            if not select.select([self.reader], [], [], max(0.0, until - time.monotonic()))[0]:
                raise Failure("the browser does not answer")
            got = os.read(self.reader, 1 << 20)
            if not got:
                raise Failure("the browser has ended")
            self.octets += got
        line, _, self.octets = self.octets.partition(b"\0")
        return json.loads(line)

    def call(self, method, **words):
        """Calls a method of the protocol, and returns its result. Events are kept."""
        self.number += 1
        asked = {"id": self.number, "method": method, "params": words}
        if self.session:
            asked["sessionId"] = self.session
        os.write(self.writer, json.dumps(asked).encode() + b"\0")
        until = time.monotonic() + 120
        while True:
            said = self.message(until)
            if said.get("id") == self.number:
                break
            self.events.append(said)
        if "error" in said:
            raise Failure(f"{method}: {said['error']['message']}")
        return said["result"]

    def value(self, script):
        """The value of an expression in the page."""
        said = self.call("Runtime.evaluate", expression=script, returnByValue=True, awaitPromise=True)
        if "exceptionDetails" in said:
            raise Failure(f"{script}: {said['exceptionDetails'].get('exception', {}).get('description')}")
        return said["result"].get("value")

    def wait(self, script, what, seconds=30):
        """Waits until an expression is true."""
        until = time.monotonic() + seconds
        while not self.value(script):
            if time.monotonic() > until:
                raise Failure(f"{what}: not in {seconds} s")
            time.sleep(0.05)

    def settle(self):
        """Waits until what was asked for is drawn."""
        self.value("new Promise(done => requestAnimationFrame(() => requestAnimationFrame(() => done(true))))")

    def go(self, url):
        self.call("Page.navigate", url=url)
        self.wait("document.readyState === 'complete'", url)

    def size(self, width, height):
        self.call("Emulation.setDeviceMetricsOverride", width=width, height=height, deviceScaleFactor=1, mobile=False)
        self.settle()

    def scheme(self, name):
        self.call("Emulation.setEmulatedMedia", features=[{"name": "prefers-color-scheme", "value": name}])
        self.settle()

    def choose(self, path):
        """Gives a file to the page, as a person who chooses it does."""
        root = self.call("DOM.getDocument")["root"]["nodeId"]
        node = self.call("DOM.querySelector", nodeId=root, selector="#file")["nodeId"]
        self.call("DOM.setFileInputFiles", nodeId=node, files=[path])

    def press(self, key):
        for kind in ("rawKeyDown", "keyUp"):
            self.call("Input.dispatchKeyEvent", type=kind, key=key)
        self.settle()

    def mouse(self, kind, x, y, **more):
        self.call("Input.dispatchMouseEvent", type=kind, x=x, y=y, **more)
        self.settle()

    def picture(self, path):
        self.settle()
        with open(path, "wb") as file:
            file.write(base64.b64decode(self.call("Page.captureScreenshot", format="png")["data"]))

    def close(self):
        self.process.terminate()
        self.process.wait(20)
        os.close(self.reader)
        os.close(self.writer)
        shutil.rmtree(self.folder, ignore_errors=True)
