"""A test, what it found, and how that is said."""
import difflib
from typing import Callable, NamedTuple

MOST_LINES = 60


class Case(NamedTuple):
    """A test: its name, a function that yields names with what is wrong, or nothing, and about how many seconds it
    takes. The function gets a folder of its own for its files."""
    name: str
    attempt: Callable
    seconds: float = 0.0


def single(name, attempt, seconds=0.0):
    """A test that finds one thing: `attempt` takes nothing, and returns what is wrong, or nothing."""
    return Case(name, lambda room: [(name, attempt())], seconds)


def text_of(data):
    return data.decode("utf-8", "backslashreplace") if isinstance(data, bytes) else str(data)


def unlike(wanted, came, what="text"):
    """What is wrong where two texts should be the same: nothing where they are."""
    if wanted == came:
        return None
    old, new = text_of(wanted).splitlines(), text_of(came).splitlines()
    if max(len(old), len(new)) <= MOST_LINES:
        parts = ["this %s is wanted:" % what, *old, "this came:", *new]
    else:
        changes = list(difflib.unified_diff(old, new, "wanted", "came", lineterm=""))
        parts = ["another %s came than is wanted:" % what, *changes[:MOST_LINES]]
    return "\n".join(part[:400] for part in parts)


def faults(*found):
    """What is wrong, of several things that may be; nothing where none is."""
    return "\n".join(one for one in found if one) or None


def other_status(wanted, answer):
    """What is wrong with the status of an answer, with what it noted."""
    if answer.status == wanted:
        return None
    return "status %s is wanted, and %s came%s" % (
        wanted, answer.status, "; it noted:\n" + text_of(answer.notes[-2000:]) if answer.notes else "")


def other_answer(status, text, answer):
    """What is wrong with an answer, of which this status and this text are wanted."""
    return faults(other_status(status, answer), unlike(text, answer.text))
