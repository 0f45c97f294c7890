"""How far from 0 the value of an expression can lie, as SPIN works it out: its numbers have 32 bits."""
from unity_tool.promela.ranges import ends_of, numbers, words_of

GREATEST = 2 ** 31 - 1


def size_of(model, node, known):
    """The greatest amount of an expression, or of a part of it."""
    if node.kind == "const":
        return int(node.name) if node.name.isdigit() else 1
    if node.kind == "word":
        return size_of_word(model, node.name, known)
    if node.kind in ("all", "any", "sum") and isinstance(node.name, tuple):
        each = [size_of(model, node.parts[0], it) for it in numbers(node.name, known)]
        return sum(each) if node.kind == "sum" else max(each, default=1)
    parts = [size_of(model, it, known) for it in node.parts]
    if node.kind == "index":
        return max(size_of_variable(model.document.variables[node.name]), *parts)
    if node.kind == "prod":
        return size_of_product(node.name, parts)
    return sum(parts) if node.kind == "sum" else max(parts, default=1)


def size_of_word(model, name, known):
    if name in known:
        return abs(known[name])
    if name in model.document.defs:
        return size_of(model, model.document.defs[name], {})
    variable = model.document.variables.get(name)
    return size_of_variable(variable) if variable else model.words[name]


def size_of_variable(variable):
    return len(words_of(variable)) if words_of(variable) else max(abs(it) for it in ends_of(variable))


def size_of_product(operators, parts):
    """The greatest amount on the way through a product, from left to right; a quotient adds its divisor first."""
    size = most = parts[0]
    for operator, other in zip(operators, parts[1:]):
        size = size * other if operator == "*" else size + other
        most = max(most, size)
    return most
