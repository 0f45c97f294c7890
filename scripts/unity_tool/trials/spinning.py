"""SPIN against `unity`, where SPIN is there: what `check` accepts is violated in no state that SPIN finds, of small
programs no run takes more rounds than the bound, and what SPIN finds violated `watch` finds violated too."""
import os

from unity_tool.plan import Plan
from unity_tool.promela import running
from unity_tool.promela.asked import Asked
from unity_tool.promela.formulas import TooLarge
from unity_tool.promela.running import Limits
from unity_tool.trials.asking import ask, script, unity
from unity_tool.trials.cases import Case
from unity_tool.trials.documents import documents

FOLDERS = ("examples", "examples/causes")
# of longer documents nothing is asked; and of so many instances at most the rounds
MOST_BYTES, MOST_INSTANCES, SECONDS, MEMORY = 60000, 6, 20, 2000
# where an answer is wanted it gets so many seconds, since the machine may have other work
PATIENCE = 900


def compared(document):
    """What is wrong with what SPIN says of an accepted document, or of one that is not: each program by itself."""
    if unity("check", document.text()).status > 1:
        return
    plan = Plan(document.text().decode("latin-1"))
    is_accepted = unity("prove 1000000", document.text()).status == 0
    for proof in plan.document.proofs:
        try:
            asked = Asked(plan, proof.name, Limits(SECONDS, MEMORY))
            steps = [it for it in plan.steps if it.program == proof.name]
            yield from (one for one in against(asked, steps, is_accepted) if one)
        except TooLarge:
            continue


def against(asked, steps, is_accepted):
    for verdict in asked.safety(steps):
        if verdict.found.verdict == running.VIOLATED:
            watched = unity("watch", asked.document(verdict.found).encode("latin-1"))
            yield "it is accepted, and SPIN says: " + verdict.line() if is_accepted else None
            yield "%s, and `watch` answers %d" % (verdict.line(), watched.status) if watched.status == 0 else None
        elif "does not take" in verdict.found.why:
            yield verdict.line()
    for step in steps if is_accepted and len(asked.model.instances) <= MOST_INSTANCES else []:
        if step.bound is not None:
            verdict = asked.rounds(step, step.bound)
            yield "%s, of bound %d" % (verdict.line(), step.bound) \
                if verdict.found.verdict == running.VIOLATED else None


def opinion(document):
    if running.is_there() and document.size() <= MOST_BYTES:
        yield "SPIN on %s" % document.path, "\n".join(compared(document)) or None


def starves(room):
    """A lock that one process may never get: SPIN's cycle, as a schedule, is violated for `watch` too."""
    del room
    if not running.is_there():
        return
    came = ask(["scripts/unity-tool", "spin", "--seconds", PATIENCE, "tests/limits/starved.unity", "comes"])
    watched = unity("watch", came.text)
    yield "SPIN on a lock that starves", None if came.status == watched.status == 10 else \
        "status %d, and of `watch` %d:\n%s" % (came.status, watched.status, came.notes.decode())


def asked_by_why(room):
    """`why` asks SPIN whether a run comes to the state, and says so."""
    del room
    if not running.is_there():
        return
    came = script("why.sh", "examples/race.unity", env={**os.environ, "UNITY_SPIN": "1"}).text.decode()
    last = came.splitlines()[-1]
    yield "what SPIN says to `why`", None if "SPIN" in last else last


def circle_for_why(room):
    """Of a claim of progress that fails `why` tells a fair run that never comes to its end."""
    del room
    if not running.is_there():
        return
    came = script("why.sh", "tests/limits/starved.unity", env={**os.environ, "UNITY_SPIN": "1"}).text.decode()
    said = [line for line in came.splitlines() if "never comes to the end of Starved.comes" in line]
    is_told = said and ("replayed" in said[0] or "limit" in said[0])
    yield "the end that never comes, for `why`", None if is_told else came


def documents_cases():
    """SPIN on each document: an hour of processor, so these are run where they are asked for alone."""
    for folder in FOLDERS:
        for document in documents(folder):
            yield Case("SPIN on %s" % document.path, lambda room, it=document: opinion(it), 10)


def cases():
    yield Case("SPIN on a lock that starves", starves, 10)
    yield Case("SPIN for `why`", asked_by_why, 5)
    yield Case("SPIN on an end, for `why`", circle_for_why, 10)
