"""An editor for tests: it speaks with the language server as an editor does, and keeps what the server sends."""
import json
import os
import select
import subprocess
import sys
import time

from unity_tool.repository import SCRIPTS, TOP

PATIENCE = 300


class Gone(Exception):
    """The server is gone, or says nothing for too long."""


class Editor:
    """A session with a server of its own."""

    def __init__(self, **more):
        self.process = subprocess.Popen([sys.executable, "-B", os.path.join(SCRIPTS, "unity-tool"), "lsp"], cwd=TOP,
                                        stdin=subprocess.PIPE, stdout=subprocess.PIPE, stderr=subprocess.DEVNULL,
                                        env={**os.environ, **more})
        self.number, self.got, self.told, self.diagnostics, self.judged = 0, b"", [], {}, set()
        self.versions = {}

    def __enter__(self):
        self.ask("initialize", {})
        self.tell("initialized", {})
        return self

    def __exit__(self, *_):
        self.process.kill()
        self.process.wait()
        self.process.stdin.close()
        self.process.stdout.close()

    def write(self, data):
        self.process.stdin.write(data)
        self.process.stdin.flush()

    def send(self, message):
        body = json.dumps({"jsonrpc": "2.0", **message}).encode()
        self.write(b"Content-Length: %d\r\n\r\n" % len(body) + body)

    def tell(self, method, params):
        self.send({"method": method, "params": params})

    def ask(self, method, params):
        """What the server answers: the result, or the error."""
        self.number += 1
        self.send({"id": self.number, "method": method, "params": params})
        while True:
            message = self.next()
            if message.get("id") == self.number and "method" not in message:
                return message.get("result", message.get("error"))

    def next(self):
        """The next message; what it tells of documents is kept."""
        message = self.message()
        params = message.get("params") or {}
        if message.get("method") == "textDocument/publishDiagnostics":
            self.diagnostics[params["uri"]] = params["diagnostics"]
        elif message.get("method") == "$/unity/judged":
            self.judged.add((params["uri"], params["version"]))
        elif "method" in message:
            self.told.append(message)
        return message

    def message(self):
        end = time.monotonic() + PATIENCE
        while True:
            head, between, rest = self.got.partition(b"\r\n\r\n")
            if between:
                length = int(head.split(b":")[1])
                if len(rest) >= length:
                    self.got = rest[length:]
                    return json.loads(rest[:length])
            if not select.select([self.process.stdout], [], [], max(0, end - time.monotonic()))[0]:
                raise Gone("the server said nothing for %d s" % PATIENCE)
            part = os.read(self.process.stdout.fileno(), 1 << 16)
            if not part:
                raise Gone("the server ended")
            self.got += part

    # documents

    def open(self, uri, text):
        self.versions[uri] = self.versions.get(uri, 0) + 1
        self.tell("textDocument/didOpen", {"textDocument": {
            "uri": uri, "languageId": "unity", "version": self.versions[uri], "text": text}})

    def change(self, uri, text):
        self.versions[uri] += 1
        self.tell("textDocument/didChange", {"textDocument": {"uri": uri, "version": self.versions[uri]},
                                             "contentChanges": [{"text": text}]})

    def close(self, uri):
        self.tell("textDocument/didClose", {"textDocument": {"uri": uri}})

    def wait(self, uri):
        """What was found of the present text, once all is found."""
        while (uri, self.versions[uri]) not in self.judged:
            self.next()
        return self.diagnostics[uri]

    def of(self, what, uri, **more):
        """What the server says of a document."""
        return self.ask("textDocument/" + what, {"textDocument": {"uri": uri}, **more})
