"""Places in a text: that what the server tells of it lies within it, and that it is where `why` has it."""
import os
import re

from unity_tool.server.judge import BUDGET
from unity_tool.trials.asking import ask


def place_of(diagnostic, text):
    """The line and the byte's column of a diagnostic, from 1."""
    start = diagnostic["range"]["start"]
    line = text.split("\n")[start["line"]].encode("utf-16-le")[:2 * start["character"]]
    return start["line"] + 1, len(line.decode("utf-16-le").encode()) + 1


def ranges_in(value):
    """All ranges in an answer."""
    if isinstance(value, dict):
        if set(value) == {"start", "end"} and isinstance(value["start"], dict):
            yield value
        else:
            for one in value.values():
                yield from ranges_in(one)
    elif isinstance(value, (list, tuple)):
        for one in value:
            yield from ranges_in(one)


def outside(value, text):
    """What is wrong with the ranges of an answer: nothing where each lies within the text."""
    widths = [len(line.encode("utf-16-le")) // 2 for line in text.split("\n")]
    for one in ranges_in(value):
        places = [(one[end]["line"], one[end]["character"]) for end in ("start", "end")]
        if places[0] > places[1] or any(line >= len(widths) or column > widths[line] for line, column in places):
            return "this range is not within the document: %s" % one
    return None


def place_by_why(path):
    """The status of a document, and the line that `why` names, with the column where one is told; or nothing."""
    came = ask(["python3", "-B", "scripts/unity-tool", "why", path, BUDGET], env={**os.environ, "UNITY_SPIN": "0"})
    return came.status, place_in(came.text.decode("utf-8", "replace"), path)


def place_in(said, name):
    """The line, and the column where one is told, that `why` names first."""
    found = re.search(r"(?m)^%s:(\d+)(?::(\d+))?$" % re.escape(name), said)
    return found and (int(found.group(1)), found.group(2) and int(found.group(2)))


def wrong_place(found, place, text):
    """What is wrong with the place of what was found first: nothing where it is the one that `why` names."""
    came = place_of(found[0], text)
    is_other = place and (came[0] != place[0] or place[1] and came[1] != place[1])
    return "`why` names %s, and the server %s" % (place, came) if is_other else None
