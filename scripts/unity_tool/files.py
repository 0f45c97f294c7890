"""Documents as files: how they are read, and what is printed of them."""
import json
import os
import sys

from unity_tool.places import place_of
from unity_tool.program import READ_FAULT
from unity_tool.wrong_use import WRONG_USE, Failure


def need_readable(*names):
    """A file that can't be read is a wrong use, and its name is said."""
    for name in names:
        if not os.access(name, os.R_OK):
            why = "it can't be read" if os.path.lexists(name) else "there is no such file"
            raise Failure(WRONG_USE, "%s: %s" % (name, why))


def read_document(name):
    """The bytes of a document."""
    need_readable(name)
    try:
        with open(name, "rb") as file:
            return file.read()
    except OSError as fault:
        raise Failure(READ_FAULT, "%s: %s" % (name, fault.strerror)) from fault


def write(text):
    """Writes these bytes to standard output."""
    sys.stdout.flush()
    sys.stdout.buffer.write(text)


def record(name, answer, text):
    """An answer of `unity` for a tool that reads it: the place that it names, if any, counts from 1."""
    place = place_of(answer.text, text)
    made = {"file": name, "status": answer.status, "message": answer.first_line(),
            "answer": answer.text.decode("latin-1")}
    if place:
        made["line"] = place.line
        if place.column:
            made["column"] = place.column
    return made


def write_json(value):
    print(json.dumps(value, indent=2))


def one_line(name, answer, text):
    """An answer in one line, as compilers write errors: FILE:LINE:COLUMN: MESSAGE, without what it does not have."""
    place = place_of(answer.text, text)
    return b"%s: %s\n" % (place.named(name) if place else name.encode(errors="surrogateescape"),
                          answer.text.split(b"\n", 1)[0])


def add_forms(parser):
    """Options for how an answer is printed."""
    forms = parser.add_mutually_exclusive_group()
    forms.add_argument("--json", action="store_true", help="print the answer, its place and the status as JSON")
    forms.add_argument("--short", action="store_true", help="print one line for each, as FILE:LINE:COLUMN: MESSAGE")
