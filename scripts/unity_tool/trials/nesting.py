"""Each form of the language that nests, as deep as a formula may be, with every command, in the stack of the tests.

The forms are those of the grammar: of each production of expressions the words and symbols that stand in its line.
Which operands one takes is asked of `unity`, on a document of a few levels.
"""
import itertools
import os
import re

from unity_tool.repository import TOP
from unity_tool.trials.asking import unity
from unity_tool.trials.cases import single

GRAMMAR = os.path.join(TOP, "crates", "unity_syntax", "specs", "Grammar.antt")
PRODUCTIONS = ("pred", "joined", "unit", "compare", "sum", "product", "atom")
LINE = re.compile(r"^-- (%s) = (.*(?:\n--  .*)*)" % "|".join(PRODUCTIONS), re.MULTILINE)
QUOTED = re.compile(r'"([^"]+)"')
# Words and symbols of an atom that are no operators: values, and what a bracket begins or ends with.
BESIDE = {"true", "false", "(", ")", "[", "]", ":", "::"}
OPERANDS = ("x", "1", "(x = 0)")
PER_NAME, MOST = 190, 65520
COMMANDS = ("check", "prove 1000000", "run P 3", "fixed P 3", "replay", "watch", "upgrade", "obligations")
BAD, NO_MEMORY = 2, 9


def productions():
    """The lines of the productions of expressions, by their names."""
    with open(GRAMMAR, encoding="utf-8") as text:
        return dict(LINE.findall(text.read()))


def templates(line, word):
    """The ways in which a word or a symbol of a production nests: what stands around `%s`."""
    if re.search(r'\[ "%s" \] \w' % re.escape(word), line):
        yield "%s (%%s)" % word
    for operand in OPERANDS:
        yield "%s %s (%%s)" % (operand, word)
        yield "(%%s) %s %s" % (word, operand)


def forms():
    """Each form: its production, and a way in which it may nest. An array's index is one of an atom."""
    for name, line in productions().items():
        for word in dict.fromkeys(QUOTED.findall(line)):
            if name == "atom" and word not in BESIDE:
                yield name, "(%s i : 0..0 :: %%s)" % word
            elif name != "atom":
                yield from ((name, way) for way in templates(line, word))
        if name == "atom":
            yield name, "a[%s]"


def document(template, levels, last, guard):
    """A document whose guard is the form so many levels deep, by names that carry on from each other."""
    before, after = template.split("%s")
    lines, number = [], 0
    while levels > 0:
        here = min(PER_NAME, levels)
        lines.append("  d%d = %s%s%s" % (number, before * here, last, after * here))
        last, levels, number = "d%d" % number, levels - here, number + 1
    return "\n".join(["unity 2", "program P declare x : 0..1 y : 0..1 a : array 0..1 of 0..1", "always", *lines,
                      "  deep = " + last, "assign s: x := x if %s end" % guard, "proof P safe: defined by text; end",
                      "schedule P : s, s end", ""]).encode()


def is_document(text):
    return unity("check", text).status != BAD


def found(way):
    """The way with its end and its guard that make a document of three levels; nothing where none do."""
    for last, guard in itertools.product(("x", "x = 0"), ("deep", "deep <= y")):
        if is_document(document(way, 3, last, guard)):
            return way, last, guard
    return None


def deepest(form):
    """How deep a form may be, in steps of a fourth less."""
    levels = MOST
    while levels > 3 and not is_document(document(form[0], levels, *form[1:])):
        levels = levels * 3 // 4
    return levels


def answered(form):
    """What is wrong with the answers on a form's deepest document: each command has to answer."""
    levels = deepest(form)
    text = document(form[0], levels, *form[1:])
    for command in COMMANDS:
        came = unity(command, text)
        if came.status < 0 or came.status in (BAD, NO_MEMORY):
            return "%s on %d levels of %s: status %d" % (command, levels, form[0], came.status)
    return None


def attempt_of(way):
    def attempt():
        form = found(way)
        return None if form is None else answered(form)
    return attempt


def all_nest():
    """What is wrong where a production of the grammar is not read, or none of its forms nests."""
    nesting = {name for name, way in forms() if found(way)}
    missing = [name for name in PRODUCTIONS if name not in nesting]
    return "none of these nests: %s" % " ".join(missing) if missing else None


def cases():
    yield single("the productions of expressions", all_nest, 5)
    for name, way in forms():
        yield single("%s of %s, as deep as it may be" % (way % "..", name), attempt_of(way), 5)
