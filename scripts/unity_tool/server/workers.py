"""Work in processes of their own, which the next edit ends.

A worker is a copy of the server that carries one function out and sends what it finds, a line of JSON each, by a pipe.
It ends with all that it has started; for what it has to clean up it gets a moment.
"""
import json
import os
import signal
import time

MOMENT = 2.0


class Ended(BaseException):
    """The server ends this worker."""


def end_here(number, frame):
    raise Ended


class Worker:
    """A process at work: `act` gets a function that sends what was found, anything that JSON can say."""

    def __init__(self, act, seconds):
        self.source, target = os.pipe()
        self.deadline, self.got, self.is_over = time.monotonic() + seconds, b"", False
        self.ended_at = None
        self.process = os.fork()
        if self.process == 0:
            os.close(self.source)
            self.carry_out(act, target)
        os.close(target)
        try:
            os.setpgid(self.process, self.process)
        except OSError:  # it has done so itself
            pass

    @staticmethod
    def carry_out(act, target):
        """In the worker: nothing that goes wrong here may come back into the server's own course."""
        status = 1
        try:
            signal.signal(signal.SIGTERM, end_here)
            os.setpgid(0, 0)
            nothing = os.open(os.devnull, os.O_RDWR)
            os.dup2(nothing, 0)
            os.dup2(nothing, 1)
            os.dup2(nothing, 2)

            def emit(found):
                data = json.dumps(found).encode() + b"\n"
                while data:
                    data = data[os.write(target, data):]

            act(emit)
            status = 0
        except BaseException:  # pylint: disable=broad-except
            pass
        finally:
            os._exit(status)

    def fill(self):
        """Takes what is there, and gives what was found, whole lines alone."""
        part = os.read(self.source, 1 << 16)
        self.is_over = not part
        *lines, self.got = (self.got + part).split(b"\n")
        return [json.loads(line) for line in lines]

    def is_late(self):
        return time.monotonic() > self.deadline

    def end(self):
        """Ends it and what it has started."""
        os.close(self.source)
        self.ended_at = time.monotonic()
        self.signal(signal.SIGTERM)

    def signal(self, number):
        try:
            os.killpg(self.process, number)
        except (ProcessLookupError, PermissionError):
            pass

    def is_gone(self):
        """Whether it is gone; it is, by force, once its moment is over."""
        if os.waitpid(self.process, os.WNOHANG)[0]:
            self.signal(signal.SIGKILL)
            return True
        if time.monotonic() > self.ended_at + MOMENT:
            self.signal(signal.SIGKILL)
        return False
