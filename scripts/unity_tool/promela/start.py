"""The initial states of a program in Promela: each slot gets its values, and what the initially section says of some
slots is asked as soon as these have theirs."""
import re

from unity_tool.promela.formulas import number_in
from unity_tool.promela.ranges import ends_of, numbers, places_of

# more values than these are chosen by `select`
MOST_LISTED = 64
MENTIONED = re.compile(r"v_(\w+)(\[\d+\])?")


class Start:
    """How a program begins: at any initial state, or at one where the slots that are told have these values."""

    def __init__(self, model, told=None):
        self.model, self.told = model, told or {}
        self.given, self.alike, self.facts = {}, {}, []
        for part in model.parts:
            if part.initially:
                self.look(part.initially, {})

    def look(self, node, known):
        """Takes a part of the initially section: a value of a slot, two slots that are alike, or another fact."""
        if node.kind == "and":
            for it in node.parts:
                self.look(it, known)
        elif node.kind == "all":
            for more in numbers(node.name, known):
                self.look(node.parts[0], more)
        else:
            self.facts.append(self.model.say(node, known))
            self.settle(node, known)

    def settle(self, node, known):
        if node.kind == "cmp" and node.name == "=":
            slot, value = (self.model.say(it, known) for it in node.parts)
            if is_slot(slot) and number_in(value) is not None:
                self.given.setdefault(slot, number_in(value))
            elif is_slot(slot) and is_slot(value):
                self.alike.setdefault(slot, value)
                self.alike.setdefault(value, slot)
        elif node.kind in ("word", "index", "not"):
            slot = self.model.say(node.parts[0] if node.kind == "not" else node, known)
            if is_slot(slot):
                self.given.setdefault(slot, int(node.kind != "not"))

    # how the slots get their values

    def slots(self):
        """Each slot: its variable, its index, and its name in the model."""
        return [(variable, index, self.model.slot(variable, index)) for variable, index in self.model.slots()]

    def choices(self):
        """How many ways there are to begin, before the initially section is asked."""
        count, done = 1, {}
        for variable, _, slot in self.slots():
            low, high = ends_of(variable)
            is_chosen = self.value(slot, (low, high)) is None and done.get(self.alike.get(slot)) != (low, high)
            count *= high - low + 1 if is_chosen else 1
            done[slot] = low, high
        return count

    def value(self, slot, ends):
        """The one value that a slot can have at the start, or nothing."""
        value = self.told.get(slot, self.given.get(slot))
        return value if value is not None and ends[0] <= value <= ends[1] else None

    def lines(self):
        """Gives each slot its values, and asks each fact once the slots that it is about have theirs."""
        lines, done, waiting = [], {}, dict.fromkeys(self.facts)
        for variable, _, slot in self.slots():
            lines.append(self.choice(variable, slot, done))
            done[slot] = ends_of(variable)
            for fact in [it for it in waiting if self.mentioned(it) <= set(done)]:
                lines.append("(%s);" % fact)
                del waiting[fact]
        return lines + ["(%s);" % it for it in waiting]

    def choice(self, variable, slot, done):
        low, high = ends_of(variable)
        value = self.value(slot, (low, high))
        if value is not None:
            return "%s = %d;" % (slot, value)
        if done.get(self.alike.get(slot)) == (low, high):
            return "%s = %s;" % (slot, self.alike[slot])
        if high - low < MOST_LISTED:
            return "if %s fi;" % " ".join(":: %s = %d" % (slot, it) for it in range(low, high + 1))
        return "select(%s : %d .. %d);" % (slot, low, high)

    def mentioned(self, fact):
        """The slots that a fact is about: where an index is worked out, all of the array."""
        found = set()
        for it in MENTIONED.finditer(fact):
            variable = self.model.variables.get(it.group(1))
            if it.group(2) or variable is None or not variable.places:
                found.add(it.group())
            else:
                first, last = places_of(variable)
                found |= {"v_%s[%d]" % (variable.name, at) for at in range(last - first + 1)}
        return found

    def printed(self):
        """The values, for who reads a trail."""
        return ['printf("@= %s %%d\\n", %s);' % (variable.name + ("" if index is None else "[%d]" % index), slot)
                for variable, index, slot in self.slots()]


def is_slot(said):
    return re.fullmatch(r"v_\w+(\[\d+\])?", said) is not None
