"""Formulas and values of a document in the words of Promela."""
import re

from unity_tool.promela.ranges import numbers, places_of
from unity_tool.promela.sizes import GREATEST, size_of
from unity_tool.wrong_use import Failure

JOINTS = {"and": "&&", "or": "||"}
RELATIONS = {"=": "==", "/=": "!="}
DIVIDED = {"*": "(%s * %s)", "div": "FLOOR(%s, %s)", "mod": "REST(%s, %s)"}
MOST_LETTERS = 4000000
# what DIVIDED names: the quotient is rounded down
HEAD = """#define FLOOR(a, b) ((a) >= 0 -> (a) / (b) : -((-(a) + (b) - 1) / (b)))
#define REST(a, b) ((a) - (b) * FLOOR(a, b))
"""


class TooLarge(Failure):
    """A program is too large for a model."""

    def __init__(self, says):
        super().__init__(1, says)


class Sayings:
    """Says formulas; `words` has the numbers of the words of enumerations."""

    def __init__(self, document, program, words):
        self.document, self.program, self.words = document, program, words

    def variable(self, name):
        """The variable of a name, or nothing."""
        return self.document.variables.get(name)

    @staticmethod
    def slot(variable, index):
        return "v_" + variable.name + ("" if index is None else "[%d]" % (index - places_of(variable)[0]))

    def say(self, node, known):
        """A formula or a value."""
        said = getattr(self, "say_" + node.kind)(node, known)
        if len(said) > MOST_LETTERS:
            raise TooLarge("a formula of %s is too large for a model" % self.program)
        return said

    def say_all(self, node, known):
        return self.quantified(node, known, " && ", "true")

    def say_any(self, node, known):
        return self.quantified(node, known, " || ", "false")

    def say_const(self, node, known):
        self.fits(node, known)
        return node.name

    def say_word(self, node, known):
        if node.name in known:
            return "(%d)" % known[node.name] if known[node.name] < 0 else str(known[node.name])
        if node.name in self.document.defs:
            return self.say(self.document.defs[node.name], {})
        return "v_" + node.name if self.variable(node.name) else str(self.words[node.name])

    def say_index(self, node, known):
        variable = self.variable(node.name)
        (low, high), said = places_of(variable), self.say(node.parts[0], known)
        at = number_in(said)
        if at is not None:
            return self.slot(variable, at) if low <= at <= high else "0"
        return "((%s >= %d && %s <= %d) -> v_%s[%s - (%d)] : 0)" % (said, low, said, high, node.name, said, low)

    def say_imp(self, node, known):
        return "(!%s || %s)" % tuple(self.say(it, known) for it in node.parts)

    def say_and(self, node, known):
        return "(%s)" % (" %s " % JOINTS[node.kind]).join(self.say(it, known) for it in node.parts)

    say_or = say_and

    def say_not(self, node, known):
        return "(!%s)" % self.say(node.parts[0], known)

    def say_cmp(self, node, known):
        left, right = (self.say(it, known) for it in node.parts)
        return "(%s %s %s)" % (left, RELATIONS.get(node.name, node.name), right)

    def say_sum(self, node, known):
        self.fits(node, known)
        if isinstance(node.name, tuple):
            return self.quantified(node, known, " + ", "0")
        signed = [" %s %s" % (sign, self.say(it, known)) for sign, it in zip(node.name, node.parts)]
        return "(0%s)" % "".join(signed)

    def say_prod(self, node, known):
        self.fits(node, known)
        said = self.say(node.parts[0], known)
        for operator, other in zip(node.name, node.parts[1:]):
            said = DIVIDED[operator] % (said, self.say(other, known))
        return said

    def quantified(self, node, known, joint, empty):
        each = [self.say(node.parts[0], it) for it in numbers(node.name, known)]
        return "(%s)" % joint.join(each or [empty])

    def fits(self, node, known):
        """Ends a model where SPIN could not work a value out."""
        if size_of(self, node, known) > GREATEST:
            raise TooLarge("%s has numbers that are too large for SPIN, whose numbers have 32 bits" % self.program)


def number_in(said):
    """The number that a text is, where it has no variable."""
    if not re.fullmatch(r"[-+*() 0-9]+", said):
        return {"true": 1, "false": 0}.get(said)
    return int(eval(said))  # pylint: disable=eval-used
