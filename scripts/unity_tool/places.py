"""The place in a document that an answer of `unity` names, and how it is shown.

An answer names a byte, as `bad 10 Unknown byte 50`, or a step of a proof, as `refuted Pick.safe obligation 1`. A byte
is shown by its line and column, with a caret below it, and a step by its line.
"""
import re
import sys
from typing import NamedTuple, Optional

from unity_tool import obligations
from unity_tool.program import ask

BEFORE, SHOWN = 99, 160
BYTE = re.compile(rb"bad [0-9]+ [A-Za-z]* byte ([0-9]+)\n")
TWICE = re.compile(rb"bad [0-9]+ DeclaredTwice byte ([0-9]+)\n")
STEP = re.compile(rb"(?:rejected [0-9]+ [A-Za-z]*|refuted|budget|violated) ([^ \n]*)")


class Place(NamedTuple):
    """A line of a text, from 1, what stands there, and the column of a byte, from 1, where a byte is meant."""
    line: int
    text: bytes
    column: Optional[int] = None

    def named(self, name):
        """The place as compilers write it."""
        return b"%s:%d" % (name.encode(errors="surrogateescape"), self.line) + (
            b":%d" % self.column if self.column else b"")

    def shown(self, name):
        """The place with its line; of a long line only what stands near the byte."""
        if self.column is None:
            return b"%s\n%s\n" % (self.named(name), self.text)
        begin = max(0, self.column - 1 - BEFORE)
        before = re.sub(rb"[^\t]", b" ", self.text[begin:self.column - 1])
        return b"%s\n%s\n%s^\n" % (self.named(name), self.text[begin:begin + SHOWN], before)


def line_of(text, at):
    """The line that has this byte."""
    start = text.rfind(b"\n", 0, at) + 1
    end = text.find(b"\n", at)
    return text.count(b"\n", 0, at) + 1, text[start:end if end >= 0 else len(text)], start


def byte_place(text, at):
    """The place of a byte, from 0."""
    number, line, start = line_of(text, at)
    return Place(number, line, at - start + 1)


def step_place(text, named):
    """The place of PROGRAM.STEP, or of the proof of PROGRAM; nothing where there is none."""
    program, _, step = named.partition(b".")
    steps = obligations.steps_of(text) if step else None
    at = next((it.byte for it in steps if it.named() == named.decode()), None) if steps is not None else \
        declared_at(text, program, step)
    return Place(*line_of(text, at)[:2]) if at is not None else None


def declared_at(text, program, step):
    """The byte at which the name of a step begins, in a document of which no step is told. Where the name is declared
    once more before it, `unity` says where it is declared twice. Without a step, the byte of the proof."""
    plain = re.sub(rb"#[^\n]*", lambda found: b" " * len(found.group()), text)
    proof = re.search(rb"\bproof\s+%s\b" % program, plain)
    if not step or not proof:
        return proof and proof.start()
    more = b" %s: defined by text;" % step
    twice = TWICE.match(ask(["check"], text[:proof.end()] + more + text[proof.end():]).text)
    return int(twice.group(1)) - len(more) if twice else None


def place_of(answer, text):
    """The place that an answer names in a text, or nothing."""
    byte, step = BYTE.match(answer), STEP.match(answer)
    if byte:
        return byte_place(text, int(byte.group(1)))
    return step_place(text, step.group(1)) if step and step.group(1) else None


def show(answer, name, text):
    """Shows the place that an answer names on standard error."""
    place = place_of(answer, text)
    if place:
        sys.stdout.flush()
        sys.stderr.buffer.write(place.shown(name))
        sys.stderr.flush()
