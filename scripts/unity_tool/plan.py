"""A document with its steps: what `unity` tells of them, and the words of the source that they are made of."""
import functools

from unity_tool import obligations
from unity_tool.document import Document
from unity_tool.formulas import Formula, read
from unity_tool.outline import STEP, Outline
from unity_tool.program import unity


def of_claim(part, says):
    """A part of what a step claims."""
    return property(lambda step: getattr(step.claimed, part), doc=says)


class Step:
    """A step of a proof: what `unity` tells of it, and of its source what is asked for."""

    def __init__(self, plan, told):
        self.plan, self.told = plan, told
        self.program, self.name, self.start = told.program, told.name, told.byte
        self.obligations = told.obligations

    def named(self):
        return self.told.named()

    @property
    def bound(self):
        """Its bound in rounds, where it has one."""
        return int(self.told.bound) if self.told.bound else None

    @functools.cached_property
    def claimed(self):
        """What it claims, in the words of the source, and the first word of its rule."""
        reader = self.plan.document.reader(self.start)
        made = reader.claim()
        made.rule = reader.now()
        return made

    kind = of_claim("kind", "The word of its kind, as the source has it.")
    rule = of_claim("rule", "The first word of its rule.")
    params = of_claim("params", "Its parameters, with their ranges.")
    p = of_claim("p", "What it claims, or its left side.")
    q = of_claim("q", "Its right side, where it has one.")

    @functools.cached_property
    def end(self):
        """The byte behind its semicolon."""
        return self.place_of(";") + 1

    def place_of(self, word):
        """The byte at which the first such word in the step begins; nothing where there is none."""
        reader = self.plan.document.reader(self.start)
        while reader.now() not in (word, ";"):
            reader.take()
        return reader.place() if reader.now() == word else None

    def named_after(self, word):
        """What is named after this word of the step."""
        at = self.place_of(word)
        if at is None:
            return []
        reader = self.plan.document.reader(at)
        reader.take()
        return reader.several(reader.reference)

    @functools.cached_property
    def using(self):
        """The invariants that stand after its `using`."""
        return self.named_after("using")

    @functools.cached_property
    def helper(self):
        """The statement that stands after its `with`, or nothing."""
        return next(iter(self.named_after("with")), None)

    def name_of(self, ref):
        """The whole name of a step that it names."""
        return "%s.%s" % (ref.program or self.program, ref.word)

    @functools.cached_property
    def refs(self):
        """All steps that it names."""
        return [reference_at(self.plan.document, it.start) for it in self.plan.names_between(self.start, self.end)]


def reference_at(document, at):
    """The step that is named at a byte, with the program that may stand before it."""
    reader = document.reader(at)
    if reader.now(-1) == ".":
        reader.at -= 2
    return reader.reference()


class Plan:
    """A document with its steps."""

    def __init__(self, text):
        self.document = Document(text)
        self.known = {}

    def formula(self, node, numbers=None):
        return node and Formula(self.document.text, node, numbers or {}, self.document.defs)

    def read(self, text):
        return read(text, self.document.defs)

    # steps

    @functools.cached_property
    def told(self):
        """What `unity` tells of the steps; nothing where one does not follow its rule."""
        return obligations.steps_of(self.bare().encode("latin-1"))

    @functools.cached_property
    def names(self):
        """The names in the document, each with its place."""
        return Outline(self.bare()).names

    def bare(self):
        """The document without its certificates."""
        return self.document.text[:self.document.certificates]

    @functools.cached_property
    def steps(self):
        """The steps in order. Where one does not follow its rule `unity` tells of none, and they are found by their
        names, without kinds, bounds and obligations."""
        found = self.told if self.told is not None else [
            obligations.Step(it.owner, it.word, it.start, self.document.line(it.start), "", "", ())
            for it in self.names if it.kind == STEP and it.declares]
        return [Step(self, it) for it in found]

    def find(self, program, name):
        return next((step for step in self.steps if step.program == program and step.name == name), None)

    def steps_beside(self, step):
        """The steps of the same proof."""
        return [it for it in self.steps if it.program == step.program]

    def names_between(self, start, end):
        """The names of steps that are named from a place on up to another one."""
        return [it for it in self.names if it.kind == STEP and not it.declares and start <= it.start < end]

    def step_of(self, step, ref):
        return self.find(ref.program or step.program, ref.word)

    # statements

    def instances(self, program):
        """The instances of a program, in order: what `run` names in turn, of statements that change nothing."""
        if program not in self.known:
            idle = "assign\n  " + " [] ".join(idle_items(self.document, program)) + "\nend\n"
            traced, _ = unity(["run", "Idle", 4097], "unity 1\nprogram Idle declare idle_slot : 0..0\n" + idle)
            self.known[program] = []
            for line in traced.split("\n")[2:]:
                name = line.split(" ")[1] if " idle_slot=" in line else None
                if name is None or name in self.known[program]:
                    break
                self.known[program].append(name)
        return self.known[program]


def idle_items(document, program):
    """The items of a program with statements that change nothing."""
    made = document.programs[program]
    if made.parts:
        return [it for part in made.parts for it in idle_items(document, part)]

    def idle(item):
        if item.binder is None:
            return item.label + ": idle_slot := idle_slot"
        name, ends = item.binder
        inner = " [] ".join(idle(it) for it in item.items)
        return "<[] %s : %s :: %s |>" % (name, document.words(ends[0][0], ends[1][1]), inner)

    return [idle(item) for item in made.items]


def closure(plan, steps):
    """Steps with all that they rest on, and the `defined` step of each proof that has one of them."""
    found, waiting = set(), list(steps)
    while waiting:
        step = waiting.pop()
        if step in found:
            continue
        found.add(step)
        waiting += [it for it in (plan.step_of(step, ref) for ref in step.refs) if it]
        waiting += [it for it in plan.steps_beside(step) if it.kind == "defined"]
    return found


def plan_of(latin):
    """The plan of a text, or nothing where it can't be read as it stands."""
    try:
        return Plan(latin)
    except (Exception, SystemExit):  # pylint: disable=broad-except
        return None
