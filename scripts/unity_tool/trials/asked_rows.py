"""The rows of examples/rows: words and a document, with the answer of the program."""
import rows
from unity_tool.repository import UNITY
from unity_tool.trials.cases import single

ASK = rows.asker(UNITY)


def answered(row):
    """What is wrong with the answer to a row."""
    got = rows.judged(row, ASK)
    return rows.told(row, got) if got else None


def cases():
    for row in rows.cases():
        yield single("%s:%d: %s" % (row.file, row.line, row.name), lambda row=row: answered(row),
                     0.05 + len(row.document) / 1e6)
