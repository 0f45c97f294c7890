"""Programs that a test runs, and what they answered."""
import os
import subprocess
from typing import NamedTuple

from unity_tool.repository import TOP, UNITY


class Answer(NamedTuple):
    """What a program ended with, and what it wrote."""
    status: int
    text: bytes
    notes: bytes = b""

    def first_line(self):
        return self.text.split(b"\n", 1)[0]

    def first_note(self):
        return self.notes.split(b"\n", 1)[0]


def ask(words, given=b"", **more):
    """What these words answer to these bytes, or to an open file, at the top of the repository."""
    source = {"input": given} if isinstance(given, bytes) else {"stdin": given}
    ways = {"cwd": TOP, "stdout": subprocess.PIPE, "stderr": subprocess.PIPE, **source, **more}
    done = subprocess.run([str(word) for word in words], check=False, **ways)
    return Answer(done.returncode, done.stdout or b"", done.stderr or b"")


def unity(words, given=b"", **more):
    """What the built program answers; the words may stand in one text."""
    return ask([UNITY] + (words.split() if isinstance(words, str) else list(words)), given, **more)


def script(name, *words, **more):
    """What a script of scripts/ answers."""
    return ask(["bash", os.path.join("scripts", name), *words], **more)


def read(*names):
    """The bytes of a file of the repository."""
    with open(os.path.join(TOP, *names), "rb") as file:
        return file.read()
