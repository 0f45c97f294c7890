"""The protocols with a mistake, of examples/causes: that random schedules find the mistake of each."""
import re

from unity_tool.trials.asking import script, unity
from unity_tool.trials.cases import faults, other_status, single, unlike
from unity_tool.trials.documents import documents


def found(document):
    """On one of ten random schedules of the proof's program a step is violated, as `watch` says of that schedule."""
    program = re.search(rb"(?m)^proof (\w+)", document.text()).group(1).decode()
    came = script("try.sh", document.path, program, "10", "1")
    watched = unity("watch", came.text)
    return faults(other_status(10, came), unlike(came.first_note(), watched.first_line(), "line"))


def cases():
    for document in documents("examples/causes"):
        yield single("a random schedule of %s" % document.path, lambda it=document: found(it), 2)
