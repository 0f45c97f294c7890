"""Why a program is no layer over another one, in the words of both."""
from unity_tool.document import programs_in
from unity_tool.formulas import key
from unity_tool.probe import find_statement, writes_of


def variables_of(plan, program):
    """The variables that a program shows."""
    return [it.name for one in programs_in(plan.document, program) for it in one.declared]


def new_variables(plan, layer, below):
    """What a layer declares and the program below does not."""
    old = variables_of(plan, below)
    return [name for name in variables_of(plan, layer) if name not in old]


class Instance:
    """An instance of a program: its name, its label, its numbers and its writes."""

    def __init__(self, plan, program, name):
        self.name, (self.label, _, indices) = name, name.partition("[")
        self.indices = indices.rstrip("]")
        item, numbers = find_statement(plan, program, name)
        self.writes = writes_of(plan, item.components, numbers)

    def to(self, variables):
        """Its writes to these variables."""
        return [it for it in self.writes if it.target.node.name in variables]


def compared(write):
    return (key(write.target), key(write.value), write.condition and key(write.condition))


def text_of(writes):
    """Writes as a statement has them."""
    each = ["%s := %s%s" % (it.target, it.value, " if %s" % it.condition if it.condition else "") for it in writes]
    return " || ".join(each) or "nothing"


def why_none(plan, layer, below):
    """What makes a program no layer over another: of the conditions of docs/WRITING.md the first that fails."""
    lower = [Instance(plan, below, name) for name in plan.instances(below)]
    upper = [Instance(plan, layer, name) for name in plan.instances(layer)]
    if len(upper) < len(lower):
        return ["%s has %d statements, and %s %d" % (below, len(lower), layer, len(upper))]
    old = variables_of(plan, below)
    for one, other in zip(lower, upper):
        pair = "at the place of %s of %s stands %s of %s" % (one.name, below, other.name, layer)
        if one.indices != other.indices:
            return [pair + ", with other indices"]
        if [compared(it) for it in one.writes] != [compared(it) for it in other.to(old)]:
            return [pair, "the one does  %s" % text_of(one.writes), "the other     %s" % text_of(other.to(old))]
    return labels_of(layer, below, lower, upper) or beside(layer, below, upper[len(lower):], old)


def labels_of(layer, below, lower, upper):
    """Two instances that share a label in one of the programs alone, or an added one with a label of below."""
    pairs = list(zip(lower, upper))
    for at, (one, other) in enumerate(pairs):
        for low, high in pairs[:at]:
            if (one.label == low.label) != (other.label == high.label):
                return ["%s and %s of %s stand at the places of %s and %s of %s" % (
                    high.name, other.name, layer, low.name, one.name, below), "two of these have one label"]
    taken = {other.label: one for one, other in pairs}
    for it in upper[len(lower):]:
        if it.label in taken:
            return ["%s of %s is added, with the label that stands at the place of %s of %s" % (
                it.name, layer, taken[it.label].name, below)]
    return []


def beside(layer, below, added, old):
    """An added instance that writes a variable of below."""
    for it in added:
        for write in it.to(old):
            return ["%s of %s is added, and writes %s of %s" % (it.name, layer, write.target, below)]
    return ["a target of %s that may lie outside its array stands before those of %s" % (layer, below)]
