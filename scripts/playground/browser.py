"""A browser that is driven over its own pipe: Debian's chromium, with nothing but Python's own library."""
import base64
import json
import os
import subprocess
import sys
import tempfile
import time

PIECE = 1 << 16


class Browser:
    def __init__(self):
        self.number, self.told, self.session = 0, [], None
        here, to = os.pipe()
        back, there = os.pipe()
        flags = ["--headless", "--disable-gpu", "--no-first-run", "--remote-debugging-pipe", "--window-size=1280,800"]
        flags += ["--no-sandbox"] * (os.geteuid() == 0)
        self.room = tempfile.TemporaryDirectory()

        def pipes():
            # (the browser reads from 3 and writes to 4; the copies are made above both first)
            first, second = os.dup(here), os.dup(there)
            os.dup2(first, 3)
            os.dup2(second, 4)

        words = ["chromium", *flags, "--user-data-dir=" + self.room.name, "about:blank"]
        quiet = {"stdout": subprocess.DEVNULL, "stderr": subprocess.DEVNULL}
        self.process = subprocess.Popen(words, preexec_fn=pipes, close_fds=False, **quiet)
        os.close(here)
        os.close(there)
        self.to, self.back, self.read = os.fdopen(to, "wb"), back, bytearray()

    def message(self):
        """The next message of the browser."""
        while b"\0" not in self.read:
            piece = os.read(self.back, PIECE)
            if not piece:
                sys.exit("the browser has ended")
            self.read += piece
        message, _, rest = bytes(self.read).partition(b"\0")
        self.read = bytearray(rest)
        return json.loads(message)

    def say(self, method, **params):
        """Asks the browser, and keeps what it tells before its answer."""
        self.number += 1
        message = {"id": self.number, "method": method, "params": params}
        if self.session:
            message["sessionId"] = self.session
        self.to.write(json.dumps(message).encode() + b"\0")
        self.to.flush()
        while True:
            told = self.message()
            if told.get("id") == self.number:
                if "error" in told:
                    sys.exit("%s: %s" % (method, told["error"]))
                return told["result"]
            self.told.append(told)

    def open(self, address):
        """Opens the address in a new tab."""
        self.session = None
        target = self.say("Target.createTarget", url="about:blank")["targetId"]
        self.session = self.say("Target.attachToTarget", targetId=target, flatten=True)["sessionId"]
        for part in ("Page", "Runtime", "Network"):
            self.say(part + ".enable")
        self.go(address)

    def go(self, address):
        """Goes to this address, and waits for it: the empty page before it is complete as well."""
        self.say("Page.navigate", url=address)
        self.wait("document.readyState === 'complete' && location.href !== 'about:blank'"
                  if address != "about:blank" else "document.readyState === 'complete'")

    def wait(self, code, seconds=120):
        """Waits until this expression of JavaScript is true; it may fail as long as a page is being loaded."""
        until = time.monotonic() + seconds
        while time.monotonic() < until:
            told = self.say("Runtime.evaluate", expression="Boolean(%s)" % code, returnByValue=True)
            if told["result"].get("value") is True:
                return
            time.sleep(0.02)
        sys.exit("%s is not true after %d s" % (code[:200], seconds))

    def value(self, code):
        """The value of an expression of JavaScript; of a promise what it comes to."""
        told = self.say("Runtime.evaluate", expression=code, awaitPromise=True, returnByValue=True)
        if "exceptionDetails" in told:
            sys.exit("%s: %s" % (code[:200], told["exceptionDetails"]["exception"].get("description")))
        return told["result"].get("value")

    def press(self, key, modifiers=0):
        for kind in ("rawKeyDown", "keyUp"):
            self.say("Input.dispatchKeyEvent", type=kind, key=key, code=key, modifiers=modifiers)

    def press_tab(self):
        for kind in ("keyDown", "keyUp"):
            self.say("Input.dispatchKeyEvent", type=kind, key="Tab", code="Tab", windowsVirtualKeyCode=9)

    def insert(self, text):
        """Types this text where the caret is."""
        self.say("Input.insertText", text=text)

    def reload(self):
        self.value("window.goesAway = true")
        self.say("Page.reload")
        self.wait("!window.goesAway && document.readyState === 'complete'")

    def click(self, x, y):
        """Presses the mouse at a place of the page."""
        for kind in ("mousePressed", "mouseReleased"):
            self.say("Input.dispatchMouseEvent", type=kind, x=x, y=y, button="left", clickCount=1)

    def resize(self, width, height):
        size = {"width": width, "height": height, "deviceScaleFactor": 1, "mobile": False}
        self.say("Emulation.setDeviceMetricsOverride", **size)

    def picture(self, file):
        with open(file, "wb") as out:
            out.write(base64.b64decode(self.say("Page.captureScreenshot")["data"]))

    def processor(self):
        """The seconds of processor that all processes of the browser have taken."""
        parents, times = {}, {}
        for name in filter(str.isdigit, os.listdir("/proc")):
            try:
                with open("/proc/%s/stat" % name, encoding="utf-8", errors="replace") as file:
                    words = file.read().rpartition(")")[2].split()
            except OSError:
                continue
            parents[int(name)], times[int(name)] = int(words[1]), int(words[11]) + int(words[12])
        below = {self.process.pid}
        while True:
            more = {it for it, parent in parents.items() if parent in below} - below
            if not more:
                return sum(times.get(it, 0) for it in below) / os.sysconf("SC_CLK_TCK")
            below |= more

    def requests(self):
        """The addresses that were asked for, in all tabs so far."""
        sent = [it["params"]["request"]["url"] for it in self.told if it.get("method") == "Network.requestWillBeSent"]
        return [it for it in sent if not it.startswith(("blob:", "data:", "about:"))]

    def end(self):
        self.session = None
        self.say("Browser.close")
        self.process.wait()
        self.room.cleanup()
