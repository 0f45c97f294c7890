"""Tries a page of docs/ as a reader would.

In the page a block of code that begins with ```LANGUAGE NAME is a file of that name. A block that begins with
```console has commands, each on a line after `$ `, and below each what it prints, on standard output and standard
error; those of ```console where NAME are for where there is a program of that name. The files are written and the
commands carried out in the order of the page, in one shell that begins at the top of the repository, with an empty
folder as HOME. For each command this prints a line: 0 where it printed what the page says, else 1, and then the page,
the line and the command. What was printed instead goes to standard error. The status is 1 where a command failed, or
the page has none.
"""
import sys
import tempfile

from unity_tool import sessions
from unity_tool.files import read_document
from unity_tool.wrong_use import Failure


def add_options(parser):
    parser.add_argument("page", metavar="FILE", help="the page")


def main(chosen):
    parts = sessions.parts_of_page(read_document(chosen.page).decode())
    if not any(isinstance(part, sessions.Command) for part in parts):
        raise Failure(1, "%s: no commands" % chosen.page)
    failed = 0
    with tempfile.TemporaryDirectory() as room:
        for command, came in sessions.carry_out(parts, room):
            place = "%s:%d: %s" % (chosen.page, command.line, command.words)
            holds = came == command.wanted
            print("%d %s" % (not holds, place), flush=True)
            if not holds:
                failed = 1
                sys.stderr.buffer.write(b"%s: this was printed:\n%s" % (place.encode(), came))
                sys.stderr.flush()
    return failed
