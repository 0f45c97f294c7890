"""Formulas as texts of the source: with numbers in the place of names, in parts, and compared."""
from unity_tool.document import Reader


class Formula:
    """A formula in a text, with numbers for some of its names; `defs` are the always names."""

    def __init__(self, text, node, numbers, defs):
        self.text, self.node, self.numbers, self.defs = text, node, numbers, defs

    def part(self, node, **more):
        return Formula(self.text, node, {**self.numbers, **more}, self.defs)

    def __str__(self):
        found = []
        places(self.node, self.numbers, found)
        text, at = "", self.node.start
        for start, end, number in sorted(found):
            text += self.text[at:start] + number
            at = end
        lines = (text + self.text[at:self.node.end]).split("\n")
        return " ".join(" ".join(line.split("#")[0] for line in lines).split())

    def bare(self):
        """The text, in parentheses where it is no atom."""
        return str(self) if self.node.kind in ("word", "const", "index", "all", "any") else "(%s)" % self


def value_of(end, numbers):
    """The number of a range's end, where its name has one."""
    _, _, word, more = end
    return more if word is None else numbers[word] + more if word in numbers else None


def shown(number):
    """A number, or a text, as it stands in the place of a name."""
    return number if isinstance(number, str) else str(number) if number >= 0 else "(%d)" % number


def places(node, numbers, found):
    """Where names stand that have numbers, with the numbers in their place."""
    if node.kind in ("all", "any", "sum") and isinstance(node.name, tuple):
        name, ends = node.name
        for end in ends:
            if end[2] in numbers:
                found.append((end[0], end[1], str(value_of(end, numbers))))
        numbers = {key: number for key, number in numbers.items() if key != name}
    if node.kind == "word" and node.name in numbers:
        found.append((node.start, node.end, shown(numbers[node.name])))
    for part in node.parts:
        places(part, numbers, found)


def instances(formula):
    """The instances of a quantifier, or None where an end has no number."""
    name, (low, high) = formula.node.name
    low, high = value_of(low, formula.numbers), value_of(high, formula.numbers)
    if low is None or high is None or high - low > 300:
        return None
    return [formula.part(formula.node.parts[0], **{name: number}) for number in range(low, high + 1)]


def pieces(formula):
    """What has to hold, each by itself, for a formula to hold."""
    node = formula.node
    if node.kind == "and":
        return [piece for part in node.parts for piece in pieces(formula.part(part))]
    if node.kind == "all":
        each = instances(formula)
        if each is not None:
            return [piece for one in each for piece in pieces(one)]
    if node.kind == "word" and node.name in formula.defs and node.name not in formula.numbers:
        inner = formula.part(formula.defs[node.name])
        inner.numbers = {}
        if inner.node.kind in ("and", "all"):
            return pieces(inner)
    return [formula]


def choices(formula):
    """The sides of an `or`, and of those in it."""
    if formula.node.kind != "or":
        return [formula]
    return [one for part in formula.node.parts for one in choices(formula.part(part))]


def key(formula):
    """What a formula is compared by: always names and quantifiers put in place, sums of numbers worked out."""
    node, one = formula.node, lambda part: key(formula.part(part))
    if node.kind in ("all", "any", "sum") and isinstance(node.name, tuple):
        each = instances(formula)
        if each is None:
            return node.kind, node.name[1], one(node.parts[0])
        joint = {"all": "and", "any": "or", "sum": "+"}[node.kind]
        return chain(joint, [key(it) for it in each]) if each else ("none", node.kind)
    if node.kind == "const":
        return int(node.name) if node.name.isdigit() else node.name
    if node.kind == "word":
        if node.name in formula.numbers:
            return formula.numbers[node.name]
        inner = formula.part(formula.defs.get(node.name))
        inner.numbers = {}
        return key(inner) if inner.node else ("word", node.name)
    if node.kind in ("and", "or"):
        return chain(node.kind, [one(part) for part in node.parts])
    if node.kind == "not":
        return "not", one(node.parts[0])
    if node.kind == "imp":
        return "or", ("not", one(node.parts[0])), one(node.parts[1])
    if node.kind == "cmp":
        return compared(node.name, one(node.parts[0]), one(node.parts[1]))
    if node.kind == "sum":
        return added(node.name, [one(part) for part in node.parts])
    return (node.kind, node.name, *[one(part) for part in node.parts])


def chain(joint, parts):
    made = parts[0]
    for part in parts[1:]:
        made = made + part if joint == "+" and type(made) is type(part) is int else (joint, made, part)
    return made


def added(signs, parts):
    made = parts[0] if signs[0] == "+" else -parts[0] if type(parts[0]) is int else ("-", parts[0])
    for sign, part in zip(signs[1:], parts[1:]):
        if type(made) is type(part) is int:
            made = made + part if sign == "+" else made - part
        else:
            made = (sign, made, part)
    return made


def compared(relation, left, right):
    if relation in ("<", "<="):
        left, right, relation = right, left, {"<": ">", "<=": ">="}[relation]
    return ("not", ("=", left, right)) if relation == "/=" else (relation, left, right)


def read(text, defs):
    """The formula of a text."""
    return Formula(text, Reader(text).pred(), {}, defs)
