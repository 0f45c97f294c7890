"""The claims of a proof for SPIN: what one step shows is asserted in one run, and what progress rules out is a run that
must never be."""
from typing import NamedTuple, Optional

from unity_tool.formulas import value_of
from unity_tool.promela.ranges import numbers

SAFETY = ("defined", "invariant", "unless", "stable", "ensures", "constant", "fixed", "until", "detects")
PROGRESS = ("ensures", "leadsto", "until", "detects")
NOTHING_BEFORE = {"undefined": [], "step": []}


class Case(NamedTuple):
    """A step with numbers for its parameters, its sides as Promela, and of an `ensures` the instance that helps."""
    step: object
    left: str
    right: str
    helper: Optional[str] = None


def cases_of(model, steps):
    """Each step with each choice of numbers for its parameters."""
    for step in steps:
        known = [{}]
        for binder in step.params:
            known = [more for it in known for more in numbers(binder, it)]
        for it in known:
            left, right = (model.say(node, it) if node else None for node in (step.p, step.q))
            yield Case(step, left, right, helper_of(step, it))


def helper_of(step, known):
    """The instance that a step names after `with`."""
    helper = step.helper
    if helper is None:
        return None
    indices = [str(value_of(it, known)) for it in helper.arguments]
    return helper.word + ("[%s]" % ",".join(indices) if indices else "")


def is_progress(step):
    """Whether a claim is to come about, and no step by itself shows it."""
    return step.kind in PROGRESS and step.helper is None


class Monitor:
    """Looks at each state and each step, and ends the run where a claim is violated; it prints which one."""

    def __init__(self, model, cases):
        self.names, self.cases = [name for name, _ in model.instances], cases

    @staticmethod
    def declared():
        return []

    def noted(self):
        """What is noted of a state before a step."""
        return ["m%d" % at for at, it in enumerate(self.cases) if held_before(it)]

    def begin(self):
        return self.states() + ending()

    def before(self):
        undefined = [broken(undefined_before(it), at) for at, it in enumerate(self.cases) if undefined_before(it)]
        held = ["m%d = %s;" % (at, held_before(it)) for at, it in enumerate(self.cases) if held_before(it)]
        return {"undefined": undefined and undefined + ending(), "step": held}

    def after(self):
        found = [broken(after_step(it, at), at) for at, it in enumerate(self.cases) if after_step(it, at)]
        helps = [broken("n == %d && m%d && !%s" % (self.names.index(it.helper), at, it.right), at)
                 for at, it in enumerate(self.cases) if it.helper in self.names]
        return self.states() + found + helps + ending()

    def states(self):
        """What each state has to meet."""
        return [broken("!(%s)" % holds, at) for at, it in enumerate(self.cases) for holds in [of_state(it)] if holds]


def of_state(case):
    kind = case.step.kind
    if kind == "invariant":
        return case.left
    return "(!%s || %s)" % (case.left, case.right) if kind == "detects" else None


def held_before(case):
    """What is kept of the state before a step."""
    kind = case.step.kind
    if kind in ("unless", "ensures", "until"):
        return "(%s && !%s)" % (case.left, case.right)
    return case.left if kind in ("stable", "constant", "fixed") else None


def undefined_before(case):
    """What violates a claim where a step is undefined."""
    return {"defined": "undefined", "fixed": "undefined && %s" % case.left}.get(case.step.kind)


def after_step(case, at):
    """What violates a claim after a step."""
    kind = case.step.kind
    if kind in ("unless", "ensures", "until"):
        return "m%d && !%s && !%s" % (at, case.left, case.right)
    if kind == "stable":
        return "m%d && !%s" % (at, case.left)
    if kind == "fixed":
        return "m%d && changed" % at
    return "m%d != %s" % (at, case.left) if kind == "constant" else None


def broken(when, at):
    """Notes the number of a claim that is violated."""
    return "bad = ((%s) -> %d : bad);" % (when, at + 1)


def ending():
    """Ends the run where a claim is violated."""
    return ['if :: bad > 0 -> printf("@! %d\\n", bad - 1); assert(false) :: else fi;']


def sides_of(case):
    """From where to where a claim of progress leads."""
    return (case.right, case.left) if case.step.kind == "detects" else (case.left, case.right)


def never(cases):
    """What progress rules out: a run with one of the left sides, and then never the right side."""
    begins, waits = [], []
    for at, case in enumerate(cases):
        left, right = sides_of(case)
        begins.append("  :: (ready && %s && !%s) -> goto accept_%d\n" % (left, right, at))
        waits.append("accept_%d: do :: !%s od;\n" % (at, right))
    return "never {\n  do\n%s  :: true\n  od;\n%s}\n" % ("".join(begins), "".join(waits))


class Reached:
    """A monitor that ends the run at a state that meets a formula."""

    def __init__(self, formula):
        self.formula = formula

    @staticmethod
    def declared():
        return []

    @staticmethod
    def noted():
        return []

    def begin(self):
        return [broken(self.formula, 0), *ending()]

    def before(self):
        return NOTHING_BEFORE

    def after(self):
        return self.begin()


class Rounds:
    """A monitor that counts rounds since the left side of a leads-to held, and ends the run where they are as many as
    its bound and the right side has not come. A round is over when each instance was chosen."""

    def __init__(self, case, bound, count):
        self.bound, self.count = bound, count
        self.left, self.right = sides_of(case)
        self.clean = " ".join("was[%d] = false;" % at for at in range(count))

    def declared(self):
        return ["bool waits;", "int rounds;", "int chosen;", "bool was[%d];" % self.count]

    @staticmethod
    def noted():
        return []

    def begin(self):
        return ["if :: %s -> waits = false; rounds = 0; chosen = 0; %s" % (self.right, self.clean),
                ":: else -> if :: !waits && %s -> waits = true :: else fi fi;" % self.left,
                broken("waits && rounds >= %d" % self.bound, 0), *ending()]

    def before(self):
        return NOTHING_BEFORE

    def after(self):
        return ["if :: waits && !was[n] -> was[n] = true; chosen = chosen + 1 :: else fi;",
                "if :: chosen == %d -> rounds = rounds + 1; chosen = 0; %s :: else fi;" % (self.count, self.clean),
                *self.begin()]
