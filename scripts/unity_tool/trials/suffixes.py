"""What stands beside a document, by its suffix: what `unity` and the scripts are asked, and how that is compared.

A file beside a document is a test of it. Which one its suffix says, in the table at the end.
"""
import os
import re
from typing import Callable, NamedTuple

from unity_tool import obligations
from unity_tool.repository import TOP
from unity_tool.trials.asking import script, unity
from unity_tool.trials.cases import faults, other_answer, other_status, single, unlike
from unity_tool.trials.documents import FOLDERS, all_documents

BUDGET = "prove 1000000"
STATUSES = {b"accepted": 0, b"rejected": 1, b"bad": 2, b"refuted": 3, b"budget": 4, b"violated": 10, b"watched": 0}


def status_of(text):
    """The status with which `unity` writes this text, by its first word, or the last line of a trace."""
    word = text.split(b" ", 1)[0]
    if word in (b"run", b"replay"):
        return 5 if text.rstrip(b"\n").split(b"\n")[-1].startswith(b"undefined ") else 0
    return STATUSES[word]


# the words, where those of a document are not all the same

def judging(document):
    """`check`; of a mistake without certificates `prove`."""
    if document.is_mistake() and not re.search(rb"(?m)^certificates$", document.text()):
        return BUDGET
    return "check"


def running(document):
    """`run` with the program and the number of steps of the trace."""
    program, steps = re.match(rb"run (\w+)\n(?:.*\n)*?(?:undefined )?(\d+) .*\n(?:rounds .*\n)?\Z",
                              document.wanted(".run")).groups()
    return "run %s %s" % (program.decode(), steps.decode())


def resting(document):
    """`fixed` with the program of the trace."""
    return "fixed %s 1000" % re.match(rb"run (\w+)\n", document.wanted(".fixed")).group(1).decode()


# how it is tried

def answer(suffix, words):
    """By these words `unity` answers what stands beside the document, with the status that goes with it."""
    def attempt(document):
        wanted = document.wanted(suffix)
        asked = words(document) if callable(words) else words
        return other_answer(status_of(wanted), wanted, unity(asked, document.text()))
    return attempt


def proof(suffix):
    """`prove` finds certificates, and `check` says of what it writes what stands beside the document."""
    def attempt(document):
        proved = unity(BUDGET, document.text())
        return other_status(0, proved) or other_answer(0, document.wanted(suffix), unity("check", proved.text))
    return attempt


def upgrade(document):
    """`upgrade` writes the document with 2 for 1 in its first line, or says what `check` says."""
    came = unity("upgrade", document.text())
    if not document.is_accepted():
        wanted = document.wanted(".expected")
        return other_answer(status_of(wanted), wanted, came)
    first, rest = document.text().split(b"\n", 1)
    return other_answer(0, first.replace(b"1", b"2", 1) + b"\n" + rest, came)


def told(suffix):
    """`obligations` tells of the steps and obligations that `check` accepts, and their numbers are 1, 2 and so on."""
    def attempt(document):
        came = unity("obligations", document.text())
        steps = obligations.steps_in(came.text.decode("latin-1").splitlines())
        numbers = [it.number for step in steps for it in step.obligations]
        return faults(other_status(0, came), unlike(document.wanted(suffix), obligations.accepted_text(came.text)),
                      unlike(list(range(1, len(numbers) + 1)), numbers, "list"))
    return attempt


def explained(document):
    """`why` says what stands beside the document."""
    return unlike(document.wanted(".why"), script("why.sh", document.path).text)


def placed(document):
    """The command that the file names shows this place of the document first, on standard error."""
    command, place = document.wanted(".place").decode().split()
    came = script(command + ".sh", document.path)
    suffix = {"check": ".expected", "prove": ".refuted", "watch": ".watch"}[command]
    wanted = "%s:%s" % (document.path, place)
    return faults(other_status(status_of(document.wanted(suffix)), came), unlike(wanted.encode(), came.first_note()))


def watched_to_the_place(document):
    """Where a step is violated `watch` prints the trace up to that place too."""
    watched, lines = document.wanted(".watch"), document.wanted(".replay").split(b"\n")
    place = int(re.match(rb".* place (\d+)\n", watched).group(1))
    wanted = watched + b"\n".join(lines[:place + 2]) + b"\n"
    return other_answer(10, wanted, script("watch.sh", document.path))


def drawn(*suffixes):
    """The picture of these texts."""
    def attempt(document):
        text = b"".join(document.wanted(suffix) for suffix in suffixes)
        picture = document.wanted((".%s.svg" % suffixes[0].strip(".")) if suffixes[0] != ".replay" else ".svg")
        return other_answer(0, picture, script("trace_svg.sh", given=text))
    return attempt


def is_accepted(document):
    return document.is_accepted()


def is_violated(document):
    return document.wanted(".watch").startswith(b"violated ")


class Row(NamedTuple):
    """A suffix, what the test of it is called, how it is tried, of which documents, and about how long it takes."""
    suffix: str
    says: str
    attempt: Callable
    of: Callable = lambda document: True
    seconds: float = 0.1


SUFFIXES = [
    Row(".expected", "what `check` says", answer(".expected", judging)),
    Row(".expected", "its upgrade", upgrade, lambda document: not document.is_mistake()),
    Row(".expected", "its proof", proof(".expected"), is_accepted, 2),
    Row(".expected", "its obligations", told(".expected"), is_accepted),
    Row(".accepted", "its proof", proof(".accepted"), seconds=2),
    Row(".accepted", "its obligations", told(".accepted")),
    Row(".refuted", "what `prove` says", answer(".refuted", BUDGET), seconds=1),
    Row(".run", "its run", answer(".run", running)),
    Row(".fixed", "its run to a fixed point", answer(".fixed", resting)),
    Row(".replay", "its replay", answer(".replay", "replay")),
    Row(".watch", "what `watch` says", answer(".watch", "watch")),
    Row(".watch", "what scripts/watch.sh prints", watched_to_the_place, is_violated),
    Row(".why", "what `why` says", explained, seconds=3),
    Row(".place", "the place that is shown", placed),
    Row(".svg", "its picture", drawn(".replay")),
    Row(".watch.svg", "its picture", drawn(".watch", ".replay")),
    Row(".fixed.svg", "its picture", drawn(".fixed")),
]


def beside_documents():
    """Each file beside a document, tried as its suffix says."""
    for document in all_documents():
        for row in SUFFIXES:
            if document.has(row.suffix) and row.of(document):
                yield single("%s: %s" % (document.path, row.says), lambda it=document, row=row: row.attempt(it),
                             row.seconds + document.size() / 10000)


def strays():
    """Files of which no document stands beside, or whose suffix is unknown, and documents of which nothing is tried."""
    known = {row.suffix for row in SUFFIXES} | {".said", ".unity", ".console"}
    found = []
    for folder in FOLDERS:
        each = [name.partition(".") for name in os.listdir(os.path.join(TOP, folder))
                if name != "README.md" and not os.path.isdir(os.path.join(TOP, folder, name))]
        suffixes = {}
        for name, dot, rest in each:
            suffixes.setdefault(name, set()).add(dot + rest)
        found += ["%s/%s%s" % (folder, name, suffix) for name, some in suffixes.items() for suffix in some
                  if suffix not in known or ".unity" not in some or len(some) == 1]
    return sorted(found)


def every_file():
    """That there is no file which no test looks at."""
    yield single("each file beside a document", lambda: unlike("", "\n".join(strays()), "list"))
