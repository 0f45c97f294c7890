"""Tells steps that say nothing.

An `ensures`, a `leadsto` or an `until` whose left side holds at no state that the invariants of its proof leave says
nothing of any run. Of each such step it asks `unity prove` whether left side and invariants contradict each other, for
all numbers of its parameters. It prints the line of each step of which they do, and which of the invariants it takes.
A step to `false` is left out: that its left side cannot be is what it says. Whether the invariants hold themselves, is
for `prove` to tell. It exits with 0 where no step says nothing, with 1 where one does, and with the status of `unity`
where the document does not read.
"""
import concurrent.futures
import os

from unity_tool.files import read_document, write
from unity_tool.formulas import Formula
from unity_tool.places import show
from unity_tool.plan import Plan
from unity_tool.probe import declared, heading, unused
from unity_tool.program import ask, need_answers, unity

KINDS = ("ensures", "leadsto", "until")
BAD, REFUTED, BUDGET = 2, 3, 100000


def add_options(parser):
    parser.add_argument("file", metavar="FILE", help="a document")


def is_never(step):
    """Whether a step says that its left side cannot be."""
    return step.q.kind == "const" and step.q.name == "false"


class Question:
    """Whether the left side of a step and some invariants contradict each other."""

    def __init__(self, plan, step):
        self.plan, self.step, self.fresh = plan, step, unused(plan.document.text)
        self.invariants = [it for it in plan.steps_beside(step) if it.kind == "invariant"]

    def left(self):
        """The left side, with names of its own for the parameters, which the invariants may bind."""
        names = {name: "%s_%s" % (self.fresh, name) for name, _ in self.step.params}
        return Formula(self.plan.document.text, self.step.p, names, self.plan.document.defs)

    def parameters(self):
        """The parameters, with their ranges."""
        words = self.plan.document.words
        each = ["%s_%s : %s" % (self.fresh, name, words(low[0], high[1])) for name, (low, high) in self.step.params]
        return "(%s)" % ", ".join(each) if each else ""

    def text(self, invariants):
        """A document whose last step has a certificate exactly where they contradict each other."""
        name, facts = self.fresh, [self.left()] + [self.plan.formula(it.p) for it in invariants]
        here = " and ".join(it.bare() for it in facts)
        text = heading(self.plan) + declared(self.plan, [(name, "0..0")])
        text += "assign %s_stay: %s := 0 end\nproof Probe\n  %s_safe: defined by text;\n" % (name, name, name)
        return text + "  %s_never%s: %s leadsto false by imply(%s, false);\nend\n" % (
            name, self.parameters(), here, here)

    def contradicts(self, invariants):
        """The status of `prove`: 0 where they contradict each other."""
        return unity(["prove", BUDGET], self.text(invariants))[1]

    def needed(self):
        """Invariants of which none can be left out, where they contradict the left side; else the status of `prove`."""
        status, kept = self.contradicts(self.invariants), self.invariants
        if status:
            return status
        for one in self.invariants:
            others = [it for it in kept if it is not one]
            kept = others if self.contradicts(others) == 0 else kept
        return kept


def tell(name, step, needed):
    """Prints what is known of a step, where it is no good news, and gives whether it says nothing."""
    place = "%s:%d: %s" % (name, step.told.line, step.named())
    if isinstance(needed, int):
        if needed != REFUTED:
            print("%s is not decided" % place)
        return False
    reason = "no state that %s leaves has its left side" % ", ".join(it.name for it in needed) if needed else \
        "no state has its left side"
    print("%s says nothing: %s" % (place, reason))
    return True


def main(chosen):
    text = read_document(chosen.file)
    need_answers()
    answer = ask(["check"], text)
    if answer.status >= BAD:
        write(answer.text)
        show(answer.text, chosen.file, text)
        return answer.status
    plan = Plan(text.decode("latin-1"))
    steps = [it for it in plan.steps if it.kind in KINDS and not is_never(it)]
    with concurrent.futures.ThreadPoolExecutor(os.cpu_count()) as pool:
        found = list(pool.map(lambda step: Question(plan, step).needed(), steps))
    count = sum([tell(chosen.file, *each) for each in zip(steps, found)])
    print("%d steps looked at, %d of them say nothing" % (len(steps), count))
    return 1 if count else 0
