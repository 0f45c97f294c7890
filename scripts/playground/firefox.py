"""A browser that is driven over Marionette, which Debian's firefox-esr has in itself: with Python's own library alone.

It has the calls of browser.py's Browser that try_lecture.py makes. What a page's script declares by `const` is seen by
a script of the page alone, so a question is put into the page as one, and its answer is read from the page.
"""
import base64
import json
import os
import shutil
import socket
import subprocess
import sys
import tempfile
import time

PROGRAM = "firefox-esr"
KEYS = {"ArrowRight": "\ue014", "ArrowLeft": "\ue012", "Backspace": "\ue003", "Enter": "\ue007", "Tab": "\ue004"}
MODIFIERS = {2: "\ue009", 8: "\ue008"}
SETTINGS = """user_pref("marionette.port", 0);
user_pref("browser.shell.checkDefaultBrowser", false);
user_pref("browser.startup.homepage_override.mstone", "ignore");
user_pref("datareporting.policy.dataSubmissionEnabled", false);
user_pref("network.captive-portal-service.enabled", false);
user_pref("network.connectivity-service.enabled", false);
user_pref("app.update.enabled", false);
user_pref("app.normandy.enabled", false);
user_pref("browser.safebrowsing.update.enabled", false);
user_pref("extensions.update.enabled", false);
"""
# A question as a script of the page: its answer, once it is there, stands in an attribute.
ASK = """window.toldKind = 0; delete document.documentElement.dataset.told;
const run = text => {
  const it = document.createElement('script');
  it.textContent = text;
  document.head.append(it);
  it.remove();
};
run(`window.toldValue = (${arguments[0]}\\n); window.toldKind = 1;`);
run(`if (!window.toldKind) window.toldValue = undefined;`);
run(`window.toldKind || document.documentElement.setAttribute('data-statements', '1')`);
if (document.documentElement.dataset.statements) {
  delete document.documentElement.dataset.statements;
  run(arguments[0]);
}
run(`Promise.resolve(window.toldValue).then(it => ({ value: it ?? null }), it => ({ fault: String(it) }))
  .then(it => { document.documentElement.dataset.told = JSON.stringify(it); });`);"""


def is_there():
    return shutil.which(PROGRAM) is not None


class Firefox:
    def __init__(self):
        self.room, self.number, self.read = tempfile.TemporaryDirectory(), 0, b""
        with open(os.path.join(self.room.name, "user.js"), "w", encoding="utf-8") as file:
            file.write(SETTINGS)
        words = [PROGRAM, "--marionette", "--remote-allow-system-access", "--headless", "--no-remote", "--profile",
                 self.room.name]
        self.process = subprocess.Popen(words, stdout=subprocess.DEVNULL, stderr=subprocess.DEVNULL,
                                        env={**os.environ, "HOME": self.room.name})
        self.line = socket.create_connection(("127.0.0.1", self.port()))
        self.message()
        self.say("WebDriver:NewSession", capabilities={"alwaysMatch": {"pageLoadStrategy": "normal"}})
        self.say("WebDriver:SetTimeouts", script=600000, pageLoad=600000)

    def port(self):
        """The port that it listens at, which it writes once it does."""
        file, until = os.path.join(self.room.name, "MarionetteActivePort"), time.monotonic() + 300
        while time.monotonic() < until and self.process.poll() is None:
            if os.path.isfile(file):
                with open(file, encoding="utf-8") as text:
                    told = text.read().strip()
                if told:
                    return int(told)
            time.sleep(0.1)
        sys.exit("%s did not begin" % PROGRAM)

    def message(self):
        while b":" not in self.read:
            self.more()
        length, _, rest = self.read.partition(b":")
        self.read = rest
        while len(self.read) < int(length):
            self.more()
        message, self.read = self.read[:int(length)], self.read[int(length):]
        return json.loads(message)

    def more(self):
        piece = self.line.recv(1 << 16)
        if not piece:
            sys.exit("the browser has ended")
        self.read += piece

    def say(self, command, **params):
        self.number += 1
        message = json.dumps([0, self.number, command, params]).encode()
        self.line.sendall(b"%d:%s" % (len(message), message))
        _, _, fault, told = self.message()
        if fault:
            sys.exit("%s: %s" % (command, fault.get("message")))
        return told

    def carry_out(self, script, *words):
        return self.say("WebDriver:ExecuteScript", script=script, args=list(words)).get("value")

    def value(self, code):
        """The value of an expression of JavaScript, of a promise what it comes to; of statements nothing."""
        self.carry_out(ASK, code)
        while True:
            told = self.carry_out("return document.documentElement.dataset.told ?? null")
            if told is not None:
                break
            time.sleep(0.02)
        found = json.loads(told)
        if "fault" in found:
            sys.exit("%s: %s" % (code[:200], found["fault"]))
        return found["value"]

    def wait(self, code, seconds=300):
        until = time.monotonic() + seconds
        while time.monotonic() < until:
            if self.value("(() => { try { return Boolean(%s); } catch { return false; } })()" % code):
                return
            time.sleep(0.05)
        sys.exit("%s is not true after %d s" % (code[:200], seconds))

    def open(self, address):
        self.say("WebDriver:Navigate", url=address)

    def reload(self):
        self.say("WebDriver:Refresh")

    def actions(self, *sources):
        self.say("WebDriver:PerformActions", actions=list(sources))

    def press(self, key, modifiers=0):
        held = [value for bit, value in MODIFIERS.items() if modifiers & bit]
        keys = held + [KEYS.get(key, key)]
        steps = [{"type": "keyDown", "value": it} for it in keys]
        steps += [{"type": "keyUp", "value": it} for it in reversed(keys)]
        self.actions({"type": "key", "id": "keys", "actions": steps})

    def insert(self, text):
        self.value("document.execCommand('insertText', false, %s)" % json.dumps(text))

    def click(self, x, y):
        steps = [{"type": "pointerMove", "x": int(x), "y": int(y), "origin": "viewport"},
                 {"type": "pointerDown", "button": 0}, {"type": "pointerUp", "button": 0}]
        self.actions({"type": "pointer", "id": "mouse", "parameters": {"pointerType": "mouse"}, "actions": steps})

    def resize(self, width, height):
        """A window has a least width, so the page in it gets its size by itself."""
        self.say("WebDriver:SetWindowRect", width=max(width, 800) + 40, height=height + 200)
        self.say("Marionette:SetContext", value="chrome")
        self.carry_out("const it = gBrowser.selectedBrowser.style; it.flex = 'none';"
                       " it.width = it.minWidth = it.maxWidth = arguments[0] + 'px';"
                       " it.height = it.minHeight = it.maxHeight = arguments[1] + 'px'", width, height)
        self.say("Marionette:SetContext", value="content")
        self.wait("innerWidth === %d && innerHeight === %d" % (width, height), 30)

    def picture(self, file):
        with open(file, "wb") as out:
            out.write(base64.b64decode(self.say("WebDriver:TakeScreenshot", full=False)["value"]))

    def requests(self):
        return []

    def end(self):
        self.say("Marionette:Quit", flags=["eForceQuit"])
        self.process.wait()
        self.room.cleanup()
