"""Rows that are tried on the program."""
import os
import subprocess
from concurrent.futures import ThreadPoolExecutor

LONGEST = 120  # seconds for an answer
BAD = 2
# of a text that is no document: BadByte, BadNumber, Unexpected, TooDeep, TooLong and Version
NO_DOCUMENT = {b"1", b"2", b"3", b"4", b"5", b"19"}


def asker(program, **options):
    """The function that asks the program: from words and a document to the status and the text of its answer."""
    def ask(words, document):
        done = subprocess.run([program, *words], input=document, stdout=subprocess.PIPE, stderr=subprocess.DEVNULL,
                              timeout=LONGEST, check=False, **options)
        return done.returncode, done.stdout
    return ask


def is_document(status, text):
    """Whether an answer to `check` says of a text that it is a document, well named or not."""
    words = text.split()
    return status in (0, 1) or (status == BAD and len(words) > 1 and words[1] not in NO_DOCUMENT)


def front(document):
    """What stands in a document before its certificates."""
    at = (b"\n" + document).find(b"\ncertificates")
    return document if at < 0 else document[:at]


def judged(case, ask):
    """Nothing where a row has its answer, and else the status and the text that were got in its place."""
    got = status, text = ask(case.words, case.document)
    if case.kind == "a document":
        return None if is_document(status, text) else got
    if case.kind == "status":
        return None if status == case.status else got
    if case.kind == "proved":
        if status != 0 or not text.startswith(front(case.document) + b"\ncertificates\n1: "):
            return got
        got = ask(("check",), text)
    return None if got == (case.status, case.text) else got


def tried(case, ask):
    try:
        return judged(case, ask)
    except subprocess.TimeoutExpired:
        return "none", b"no answer within %d seconds\n" % LONGEST


def run(cases, ask, jobs=None):
    """Each row with nothing, where it has its answer, and else with what was got. So many run at a time."""
    with ThreadPoolExecutor(jobs or os.cpu_count()) as pool:
        yield from zip(cases, pool.map(lambda case: tried(case, ask), cases))


def shown(status, text):
    """An answer as it is printed."""
    return f"status {status}\n{(text or b'').decode(errors='backslashreplace')}"


def told(case, got):
    """What is printed of a row that failed."""
    wanted = "a document\n" if case.kind == "a document" else shown(case.status, case.text)
    return (f"{case.file}:{case.line}:1: {case.name}: another answer to `{' '.join(case.words)}`\n"
            f"{case.document.decode(errors='backslashreplace')}\nwanted: {wanted}got: {shown(*got)}")
