"""Messages between an editor and the server: JSON with a head that tells its length, over two descriptors."""
import json
import os

CHUNK = 1 << 16
# a message that is longer is left out, with a word to the editor
LONGEST = 1 << 27
UNREADABLE, NO_MESSAGE = -32700, -32600


class Wire:
    """What comes in by one descriptor and goes out by another."""

    def __init__(self, source, target):
        self.source, self.target = source, target
        self.got, self.left_out, self.is_open = bytearray(), 0, True

    def fill(self):
        """Takes what is there."""
        part = os.read(self.source, CHUNK)
        self.is_open = bool(part)
        dropped = min(self.left_out, len(part))
        self.left_out -= dropped
        self.got += part[dropped:]

    def messages(self):
        """The whole messages that came; for what is none, the editor gets an error."""
        while True:
            end = self.got.find(b"\r\n\r\n")
            if end < 0:
                if len(self.got) > LONGEST:
                    self.got.clear()
                return
            length, begin = length_in(bytes(self.got[:end])), end + 4
            if length is None:
                del self.got[:begin]
                self.refuse(UNREADABLE, "a head without a length")
            elif length > LONGEST:
                self.left_out = max(0, length - (len(self.got) - begin))
                del self.got[:begin + length]
                self.refuse(UNREADABLE, "a message of %d bytes is too long" % length)
            elif len(self.got) < begin + length:
                return
            else:
                body = bytes(self.got[begin:begin + length])
                del self.got[:begin + length]
                yield from self.message_in(body)

    def message_in(self, body):
        try:
            message = json.loads(body.decode("utf-8", "replace"))
        except (ValueError, RecursionError):
            self.refuse(UNREADABLE, "no JSON")
            return
        if isinstance(message, dict):
            yield message
        else:
            self.refuse(NO_MESSAGE, "no message")

    def refuse(self, code, says):
        self.send(id=None, error={"code": code, "message": says})

    def send(self, **message):
        body = json.dumps({"jsonrpc": "2.0", **message}).encode()
        data = b"Content-Length: %d\r\n\r\n" % len(body) + body
        at = 0
        while at < len(data):
            at += os.write(self.target, data[at:at + CHUNK])


def length_in(head):
    """The length that a head tells, or nothing."""
    for line in head.split(b"\r\n"):
        name, _, value = line.partition(b":")
        if name.strip().lower() == b"content-length" and value.strip().isdigit() and len(value) < 20:
            return int(value)
    return None
