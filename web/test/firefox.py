"""Firefox without a window, driven by its protocol Marionette: what the tests need of it."""
import json
import os
import shutil
import socket
import subprocess
import tempfile
import time

from chromium import Browser, Failure

# The codes of keys in WebDriver.
KEYS = {"ArrowLeft": "\ue012", "ArrowUp": "\ue013", "ArrowRight": "\ue014", "ArrowDown": "\ue015",
        "End": "\ue010", "Home": "\ue011", "PageUp": "\ue00e", "PageDown": "\ue00f"}


def firefox():
    """The path of the browser, or None."""
    return next(filter(None, map(shutil.which, ["firefox-esr", "firefox"])), None)


class Firefox(Browser):
    """A browser with one page. It has no events, and no pictures."""

    def __init__(self):
        self.folder, self.number, self.octets, self.events = tempfile.mkdtemp(), 0, b"", []
        with open(f"{self.folder}/user.js", "w", encoding="utf-8") as file:
            file.write('user_pref("marionette.port", 0);\n')
        words = [firefox(), "--headless", "--marionette", "--no-remote", "--profile", self.folder, "about:blank"]
        size = {"MOZ_HEADLESS_WIDTH": "1400", "MOZ_HEADLESS_HEIGHT": "9000"}
        self.process = subprocess.Popen(words, env={**os.environ, **size}, stdin=subprocess.DEVNULL,
                                        stdout=subprocess.DEVNULL, stderr=subprocess.DEVNULL)
        self.socket = socket.create_connection(("127.0.0.1", self.port()), 60)
        self.packet()
        self.call("WebDriver:NewSession", capabilities={"alwaysMatch": {"acceptInsecureCerts": False}})

    def port(self):
        path, until = f"{self.folder}/MarionetteActivePort", time.monotonic() + 60
        while not os.path.exists(path) or not os.path.getsize(path):
            if time.monotonic() > until or self.process.poll() is not None:
                raise Failure("Firefox does not start")
            time.sleep(0.1)
        with open(path, encoding="utf-8") as file:
            return int(file.read())

    def packet(self):
        """The next message: its length, a colon, and JSON."""
        while b":" not in self.octets or len(self.octets.partition(b":")[2]) < int(self.octets.partition(b":")[0]):
            got = self.socket.recv(1 << 20)
            if not got:
                raise Failure("Firefox has ended")
            self.octets += got
        length, _, rest = self.octets.partition(b":")
        self.octets = rest[int(length) :]
        return json.loads(rest[: int(length)])

    def call(self, method, **words):
        self.number += 1
        asked = json.dumps([0, self.number, method, words]).encode()
        self.socket.sendall(str(len(asked)).encode() + b":" + asked)
        _, _, error, result = self.packet()
        if error:
            raise Failure(f"{method}: {error['message']}")
        return result

    def value(self, script):
        return self.call("WebDriver:ExecuteScript", script=f"return ({script})", args=[])["value"]

    def go(self, url):
        self.call("WebDriver:Navigate", url=url)

    def size(self, width, height):
        self.call("WebDriver:SetWindowRect", width=width, height=height)
        self.settle()

    def choose(self, path):
        found = self.call("WebDriver:FindElement", using="css selector", value="#file")["value"]
        self.call("WebDriver:ElementSendKeys", id=next(iter(found.values())), text=path)

    def press(self, key):
        acts = [{"type": kind, "value": KEYS[key]} for kind in ("keyDown", "keyUp")]
        self.call("WebDriver:PerformActions", actions=[{"type": "key", "id": "keys", "actions": acts}])
        self.settle()

    def close(self):
        self.socket.close()
        self.process.terminate()
        self.process.wait(30)
        shutil.rmtree(self.folder, ignore_errors=True)
