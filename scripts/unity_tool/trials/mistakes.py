"""The usual mistakes of examples/mistakes, and the tables of docs/WRITING.md that tell of them.

What else `why` has to say of a document stands beside it, in NAME.said, a line each.
"""
import re

from unity_tool.trials.asking import read, script
from unity_tool.trials.cases import Case, single, unlike
from unity_tool.trials.documents import documents


def table_rows():
    """The lines of docs/WRITING.md that are rows of its tables."""
    return [line for line in read("docs", "WRITING.md").decode().split("\n") if line.startswith("|")]


def row_of(document):
    """The first row that links to a document, or nothing."""
    return next((row for row in table_rows() if "(../%s)" % document.path in row), "")


def has_row(document):
    """There is a row with the document and its code."""
    code = re.match(r"[a-z]* (\d+) (\w+)", document.wanted(".expected").decode())
    wanted = "%s `%s`" % code.groups() if code else ""
    rows = [row for row in table_rows() if "(../%s)" % document.path in row and wanted in row]
    return None if rows else "docs/WRITING.md has no row with %s and this document" % wanted


def promised(document):
    """The lines that the row of a document promises: what was written, or the usual mistake and the cure."""
    row = re.sub(r"\[([^]]*)\]\([^)]*\)", r"\1", row_of(document))
    cells = re.split(r" *[|] *", row)
    if not row:
        return []
    return ["written: " + cells[1]] if len(cells) == 5 else ["the usual mistake: " + cells[2], "the cure: " + cells[3]]


def explained(document):
    """`why` says the answer first, and then all that was promised and what stands beside the document."""
    came = script("why.sh", document.path).text.decode("utf-8")
    wanted = document.wanted(".expected").decode()
    name = "%s: what `why` says" % document.path
    yield name, unlike(wanted, "".join(came.splitlines(True)[:wanted.count("\n")]))
    said = document.wanted(".said").decode().splitlines() if document.has(".said") else []
    for line in promised(document) + said:
        fault = None if line in came.splitlines() else "this line is wanted:\n%s\nin:\n%s" % (line, came)
        yield "%s: %s" % (name, line), fault


def code_rows():
    """That docs/WRITING.md has a row for each code."""
    rows = read("crates", "case_tables", "src", "cases.rt").decode()
    table = re.search(r"(?s)\n    \(Code,.*?\n    };", rows).group()
    for code in re.findall(r'(?m)^ *"([A-Za-z]*)" => ', table):
        found = any(re.match(r"\| \d* `%s` \|" % code, row) for row in table_rows())
        yield "the row of %s in docs/WRITING.md" % code, None if found else "there is none"


def cases():
    for document in documents("examples/mistakes"):
        yield single("the row of %s in docs/WRITING.md" % document.path, lambda it=document: has_row(it))
        yield Case("why %s" % document.path, lambda room, it=document: explained(it), 1)
    yield Case("the rows of codes", lambda room: code_rows())
