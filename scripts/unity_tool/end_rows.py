"""The rows of examples/ends/, on the built program with reads and writes that fail or move one byte."""
import os
from functools import partial

from rows import cases, judged, told
from unity_tool.repository import TOP

FOLDER = os.path.join(TOP, "examples", "ends")
READ_FAULT, WRITE_FAULT = 7, 8
EVER = 10 ** 12
LEAST_READS = 2  # the document, and its end
ROOMS = [0, 1, 471, 472, 473, 484, 1000]  # of those tried for a long text


class Question:
    """A row, its right answer, and the calls that it makes: with whole pieces, and with one byte each."""

    def __init__(self, ends, case):
        self.case, self.calls = case, {}
        self.ask = partial(ends.ask, case.words, case.document)
        self.right = self.ask()
        for one in (False, True):
            _, *self.calls[one] = ends.counts(case.words, case.document, one)

    def reads(self, one):
        return self.calls[one][0]

    def writes(self, one):
        return self.calls[one][1]

    def has_reads(self, one, least):
        return self.reads(one) >= least

    def right_answer(self):
        return self.ask() == self.right

    def by_bytes(self):
        return self.ask(one=True) == self.right

    def read_fails(self, one, number):
        """With nothing written, as where no byte can be."""
        return self.ask(one=one, reads=(number, number)) == (READ_FAULT, b"")

    def last_read_fails(self, one):
        """Also where no write is possible."""
        last = self.reads(one)
        return self.ask(one=one, reads=(last, last), writes=(1, EVER), room=0)[0] == READ_FAULT

    def write_fails(self, one, number):
        """With a front part of the right text written, and not all of it; by bytes it is told how long it is."""
        status, text = self.ask(one=one, writes=(number, number))
        length = number - 1 if one else min(len(text), len(self.right[1]) - 1)
        return (status, text) == (WRITE_FAULT, self.right[1][:length])

    def small_room(self, one, room):
        """What fits is written, and where all does, the answer is the right one."""
        whole = room == len(self.right[1])
        return self.ask(one=one, room=room) == (self.right if whole else (WRITE_FAULT, self.right[1][:room]))


def reading(question):
    """What is tried of a question that reads its document: each read fails, and is made."""
    for one, least in ((False, LEAST_READS), (True, len(question.case.document) + 1)):
        yield f"{least} reads or more, one byte each: {one}", partial(question.has_reads, one, least)
        for number in range(1, question.reads(one) + 1):
            yield f"read {number}, one byte each: {one}", partial(question.read_fails, one, number)
        yield f"the last read, and no write, one byte each: {one}", partial(question.last_read_fails, one)


def writing(question, by_bytes=True):
    """What is tried of each: each write fails, by pieces and by bytes, and there is each number of bytes of room."""
    text = question.right[1]
    yield "one write or more", lambda: question.writes(False) >= 1
    for number in range(1, question.writes(False) + 1):
        yield f"write {number}", partial(question.write_fails, False, number)
    if by_bytes:
        yield "a write for each byte", lambda: question.writes(True) == len(text)
        for number in range(1, len(text) + 1):
            yield f"write {number}, one byte each", partial(question.write_fails, True, number)
    for room in range(len(text) + 1) if by_bytes else [*ROOMS, len(text) - 1]:
        yield f"room for {room} bytes", partial(question.small_room, not by_bytes, room)


def trials(name, question):
    """What is tried of a row of the file of this name."""
    yield "the same answer again", question.right_answer
    yield "the same answer by bytes", question.by_bytes
    if name in ("questions", "long"):
        yield from reading(question)
    if name == "unread":
        yield "no read", lambda: question.reads(False) == 0 and question.reads(True) == 0
    if name != "bytes":
        yield from writing(question, name != "long")


def asker_of(ends, case):
    """The function that asks a row's question, with the calls that it refuses."""
    refused = {kind + "s": (number, number) for kind, number in case.refused}
    return lambda words, document: ends.ask(words, document, **refused)


def tried(ends, pool):
    """How many trials of rows were made, and what is told of those that failed."""
    rows = cases(FOLDER)
    answers = list(pool.map(lambda case: judged(case, asker_of(ends, case)), rows))
    failed = [told(case, got) for case, got in zip(rows, answers) if got]
    asked = [case for case in rows if not case.refused]
    names = [os.path.splitext(os.path.basename(case.file))[0] for case in asked]
    questions = list(pool.map(partial(Question, ends), asked))
    todo = [(question, label, trial) for name, question in zip(names, questions)
            for label, trial in trials(name, question)]
    for (question, label, _), holds in zip(todo, pool.map(lambda it: it[2](), todo)):
        if not holds:
            case = question.case
            failed.append(f"{case.file}:{case.line}:1: `{' '.join(case.words)}`: another answer: {label}")
    return len(rows) + len(todo), failed
