"""z3 and cvc5 against `unity`, where they are there: of what `unity obligations` writes of each document they find true
what `prove` finds true, false what it refutes, and nothing undecided but what is listed here."""
from unity_tool import solvers
from unity_tool.obligations import steps_in
from unity_tool.program import ask
from unity_tool.trials.cases import Case
from unity_tool.trials.documents import documents

FOLDERS = ("examples", "examples/mistakes", "examples/causes")
SECONDS = 60
WANTED = {"proved": solvers.TRUE, "refuted": solvers.FALSE}
# what a solver does not decide within its seconds: the solver, the document and the step, with the reason
UNDECIDED = {}


def fault_of(name, document, step, said, by_prove):
    """What is wrong with what a solver says, or nothing."""
    if said == WANTED.get(by_prove, said) and said != solvers.UNKNOWN:
        return None
    if said == solvers.UNKNOWN and (name, document.path, step.named()) in UNDECIDED:
        return None
    return "%s says %s" % (name, said) + (", and `prove` %s" % by_prove if by_prove else "")


def compared(document, names):
    """What is wrong with what the solvers say of a document, a line for each obligation."""
    came = ask(["obligations"], document.text())
    if came.status:
        return
    steps = list(steps_in(came.text.decode("latin-1").splitlines()))
    count = sum(len(it.obligations) for it in steps)
    by_prove = solvers.found_by_prove(ask(["prove", solvers.BUDGET], document.text()), count)
    for (step, it, said), proved in zip(solvers.opinions(steps, names, SECONDS), by_prove):
        found = [fault_of(name, document, step, one, proved) for name, one in zip(names, said)]
        yield from ("obligation %d, %s %s: %s" % (it.number, step.named(), it.origin, one) for one in found if one)


def opinion(document):
    names = solvers.those_there()
    if names:
        yield "%s on %s" % (" and ".join(names), document.path), "\n".join(compared(document, names)) or None


def cases():
    """The solvers on each document: long, so these are run where they are asked for alone."""
    for folder in FOLDERS:
        for document in documents(folder):
            yield Case("solvers on %s" % document.path, lambda room, it=document: opinion(it), 2)
