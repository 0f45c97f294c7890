"""Questions to SPIN about a proof: which claims are violated, and by which run."""
import re

from unity_tool.document import programs_in
from unity_tool.plan import Plan
from unity_tool.promela import claims
from unity_tool.promela.model import Model
from unity_tool.promela.running import HOLDS, VIOLATED, search
from unity_tool.promela.start import Start
from unity_tool.program import unity
from unity_tool.schedules import Scheduled

# a cycle is repeated for one round more than the bound, and no longer than this
MOST_CHOICES = 50000
# where there are more ways to begin than these, runs begin at the document's own start alone
MOST_STARTS = 20000000
# so many cases are asked for in one search
MOST_CASES = 250
COMES = ", that it comes"


class Verdict:
    """What is said of a step, with the run that violates it; `where` names the states that were looked at."""

    def __init__(self, step, found, where, asked=""):
        self.step, self.found, self.where, self.asked = step, found, where, asked

    def named(self):
        return self.step.named()

    def line(self):
        """One line for the reader; what SPIN does not find is its word, and no proof."""
        found = self.found
        if found.verdict == VIOLATED and found.cycle is not None:
            says = "violated: %d choices, and then %d again and again" % (
                found.cycle, len(found.choices) - found.cycle)
        elif found.verdict == VIOLATED:
            says = "violated after %d choices" % len(found.choices)
        elif found.verdict == HOLDS:
            says = "SPIN finds no violation in the %d states %s; that is its word, and no proof" % (
                found.states, self.where)
        else:
            says = "not decided, %d states seen: %s" % (found.states, found.why)
        return "%s %s%s: %s" % (self.named(), self.step.kind, self.asked, says)


class Asked:
    """A program's claims, asked one after the other within limits. Runs begin at each initial state; or at that of the
    document's own start, where there are too many or where this is asked for."""

    def __init__(self, plan, program, limits, at_start=False):
        self.plan, self.limits, self.now = plan, limits, limits
        self.model, self.told = Model(plan.document, program), None
        self.where = "there are"
        if at_start or Start(self.model).choices() > MOST_STARTS:
            self.told = self.start()
            self.where = "that runs from the document's own start come to"

    def start(self):
        """The slots at the document's own start, by their names in the model."""
        answer, status = unity(["replay"], Scheduled(self.plan, self.model.program).text([]))
        lines = answer.split("\n")
        shown = dict(word.split("=", 1) for word in lines[1].split(" ")[1:]) if status == 0 else {}
        found = {}
        for variable, index in self.model.slots():
            name = named(variable, index)
            if name in shown:
                found[self.model.slot(variable, index)] = self.model.number(variable, shown[name])
        return found

    def search(self, monitor, cases=()):
        text = self.model.text(monitor, claims.never(cases) if cases else "", self.told)
        return search(text, bool(cases), len(self.model.instances), self.now)

    def verdict(self, step, found, asked=""):
        return Verdict(step, found, self.where, asked)

    @staticmethod
    def each(searches):
        """What several searches say together: the first that finds no proof, or all their states."""
        states = 0
        for found in searches:
            states += found.states
            if found.verdict != HOLDS:
                return found
        return found._replace(states=states)

    def verdicts(self, steps, in_rounds=False):
        """What is said of steps, one after the other; in rounds, whether progress comes within its bound."""
        progress = [it for it in steps if (it.bound is not None if in_rounds else claims.is_progress(it))]
        self.now = self.limits.part(1 + bool(progress))
        yield from self.safety(steps)
        if not in_rounds and len(progress) > 1:
            self.now = self.limits.part(2)
            found = self.comes(progress)
            if found.verdict == HOLDS:
                yield from (self.verdict(it, found, COMES) for it in progress)
                return
        for at, step in enumerate(progress):
            self.now = self.limits.part(len(progress) - at)
            yield self.rounds(step, step.bound) if in_rounds else self.progress(step)

    def safety(self, steps):
        """What one step shows: all claims in one run, and the others again where one is violated."""
        left = [it for it in steps if it.kind in claims.SAFETY]
        while left:
            cases = list(claims.cases_of(self.model, left))
            found, broken = self.first_broken(cases)
            if found.verdict != VIOLATED:
                yield from (self.verdict(it, found, by_step(it)) for it in left)
                return
            yield self.verdict(broken, found, by_step(broken))
            left = [it for it in left if it is not broken]

    def first_broken(self, cases):
        """What a search for violations of cases says, so many at a time, and the step of that which is violated."""
        for at in range(0, len(cases), MOST_CASES):
            some = cases[at:at + MOST_CASES]
            found = self.search(claims.Monitor(self.model, some))
            if found.verdict != HOLDS:
                break
        return found, some[found.claim].step if found.verdict == VIOLATED else None

    def comes(self, steps):
        """Whether claims of progress come to their ends on each fair run, so many cases at a time."""
        cases = list(claims.cases_of(self.model, steps))
        return self.each(self.search(claims.Monitor(self.model, []), cases[at:at + MOST_CASES])
                         for at in range(0, len(cases), MOST_CASES))

    def progress(self, step):
        """Whether a claim of progress comes to its end on each fair run."""
        return self.verdict(step, self.comes([step]), COMES)

    def rounds(self, step, bound):
        """Whether a claim of progress comes to its end within its bound: each run, counted in rounds."""
        found = self.each(self.search(claims.Rounds(case, bound, len(self.model.instances)))
                          for case in claims.cases_of(self.model, [step]))
        return self.verdict(step, found, " %d" % bound)

    def reached(self, values):
        """Whether a run comes to a state with these values, as a document has them."""
        facts = []
        for name, value in values.items():
            word, _, index = name.partition("[")
            variable = self.model.variables.get(word)
            if variable:
                slot = self.model.slot(variable, int(index.rstrip("]")) if index else None)
                facts.append("%s == %d" % (slot, self.model.number(variable, value)))
        return self.search(claims.Reached(" && ".join(facts) or "true"))

    # runs as documents

    def document(self, found, bound=0):
        """The document with a run as its schedule, and its initial state as the start where that is another one."""
        choices = found.choices
        if found.cycle is not None and len(choices) > found.cycle:
            more = choices[found.cycle:]
            again = min(bound + 2, max(1, MOST_CHOICES // len(more)))
            choices = choices[:found.cycle] + more * again
        plain = Scheduled(self.plan, self.model.program).text(choices)
        if unity(["watch"], plain)[1] == 10:
            return plain
        return self.from_initial(found, choices)

    def from_initial(self, found, choices=None):
        """The document with a run that begins at the initial state that SPIN chose."""
        plan = Plan(with_start(self.plan, self.model.program, self.start_of(found)))
        return Scheduled(plan, self.model.program).text(found.choices if choices is None else choices)

    def start_of(self, found):
        """The initial state of a run: each slot with its value."""
        return {named(variable, index): self.model.shown(variable, found.initial[named(variable, index)])
                for variable, index in self.model.slots()}


def named(variable, index):
    """A slot as a document names it."""
    return variable.name + ("" if index is None else "[%d]" % index)


def by_step(step):
    """What is said of the half of a claim that one step shows."""
    return ", step by step" if claims.is_progress(step) else ""


def with_start(plan, program, values):
    """A text in which a program, or those that it is made of, begin at these values."""
    text = plan.document.text
    parts = sorted(programs_in(plan.document, program), key=lambda it: -it.start)
    for part in parts:
        own = {it.name for it in part.declared}
        mine = ["%s = %s" % (name, value) for name, value in values.items() if name.partition("[")[0] in own]
        text = with_section(text, part.start, ", ".join(mine)) if mine else text
    return text


def with_section(text, start, values):
    plain = re.sub(r"#[^\n]*", lambda found: " " * len(found.group()), text)
    assign = re.compile(r"\bassign\b").search(plain, start).start()
    old = re.compile(r"\bstart\b").search(plain, start, assign)
    return "%sstart\n  %s\n%s" % (text[:old.start() if old else assign], values, text[assign:])
