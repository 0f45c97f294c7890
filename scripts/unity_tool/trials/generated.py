"""Deep and wide documents, which are made here: formulas of up to 65,536 nodes run in the stack of the tests."""
from unity_tool.trials.asking import unity
from unity_tool.trials.cases import Case, faults, other_answer, other_status, single, unlike
from unity_tool.trials.suffixes import BUDGET

DECLARED = "declare x : 0..1 y : 0..1 a : array 0..1 of 0..1"
PER_NAME = 190


def nested(levels, part, last):
    """Names, up to the name `deep`, that stand for `last` below so many levels of this part, in parentheses that one
    name carries on from the other."""
    lines, number = ["always"], 0
    while levels > 0:
        here = min(PER_NAME, levels)
        lines.append("  d%d = %s%s%s" % (number, (part + " (") * here, last, ")" * here))
        last, levels, number = "d%d" % number, levels - here, number + 1
    return "\n".join(lines + ["  deep = " + last])


def added(times, term, first):
    """The first term, and so many others."""
    return "\n".join([first] + ["+ " + term] * times)


def guarded(version, before, guard):
    return "unity %d\nprogram P %s\n%sassign s: x := x if %s end proof P safe: defined by text; end\n" % (
        version, DECLARED, before, guard)


def proves(name, text, accepted):
    """The document runs, certificates are found for it, and `check` accepts them."""
    def attempt(_):
        run = unity("run P 3", text.encode())
        yield name + ", run", faults(other_status(0, run), unlike(b"run P", run.first_line(), "line"))
        checked = unity("check", unity(BUDGET, text.encode()).text)
        yield name, faults(other_status(0, checked), unlike(accepted, checked.first_line(), "line"))
    return Case(name, attempt, 8)


def answers(name, text, status, line):
    """`prove` answers with this status, and this line first."""
    def attempt():
        came = unity(BUDGET, text.encode())
        return faults(other_status(status, came), unlike(line, came.first_line(), "line"))
    return single(name, attempt, 5)


# levels, the part of each, what stands at the end of all, and the guard
DEEP = [
    (65520, "not", "x = 0", "deep"),
    (32758, "true and", "x = 0", "deep"),
    (32700, "x +", "x", "deep <= y"),
    (32700, "x -", "x", "deep <= y"),
    (32600, "x +", "a[x]", "deep <= y"),
    (32600, "x +", "x div 2", "deep <= y"),
]
# how many x are added to which term
WIDE = [(32600, "x"), (32600, "a[x]"), (32600, "x div 2")]


def deep(levels, part, last, guard):
    return proves("a guard of %d times %s over %s" % (levels, part, last),
                  guarded(2, nested(levels, part, last) + "\n", guard), b"accepted 1 steps 1 obligations")


def wide(times, first):
    return proves("a guard on %s and %d terms" % (first, times), guarded(2, "", added(times, "x", first) + "\n<= y"),
                  b"accepted 1 steps 1 obligations")


def parameters(times):
    """A claim on a sum of so many parameters, cited for a parameter and for a number."""
    total = added(times - 1, "k", "k")
    return proves("a claim on %d parameters" % times, "\n".join([
        "unity 1", "program P declare x : 0..1 assign s: x := x end proof P safe: defined by text;",
        "one(k : 0..1): %s <= x leadsto true by imply(%s <= x, true);" % (total, total),
        "other(k : 0..1): %s <= x leadsto true by from one[k];" % total,
        "zero: 0 <= x leadsto true by from one[0]; end", ""]), b"accepted 4 steps 2 obligations")


def many_parts(times):
    """The claim that so many x of 0..3 are no less than 0."""
    text = "\n".join(["unity 1", "program P declare x : 0..3 assign s: x := x end proof P safe: defined by text;",
                      "many: invariant x"] + ["+ x"] * (times - 1) + [">= 0 by text; end", ""])
    wanted = b"accepted 2 steps 3 obligations\nP.safe defined\nP.many invariant\n"
    return single("a claim on %d parts" % times,
                  lambda: other_answer(0, wanted, unity("check", unity(BUDGET, text.encode()).text)), 5)


def too_large(times, side):
    """A claim on a sum of so many x, nested to this side, whose obligation is too large."""
    before = nested(times - 1, "x +", "x") + "\n" if side == "right" else ""
    total = "deep" if side == "right" else added(times - 1, "x", "x")
    text = "unity 1\nprogram P declare x : 0..1 y : 0..1\n%sassign s: y := y end proof P safe: defined by text; " \
        "many: invariant\n%s\n<= y by text; end\n" % (before, total)
    return answers("a claim on %d terms nested to the %s" % (times, side), text, 1,
                   b"rejected 42 FormulaTooLarge P.many")


def is_false(times):
    """A claim on a sum of so many parts that does not hold."""
    text = "unity 1\nprogram P declare x : 0..1 y : 0..1 assign s: y := y end\nproof P safe: defined by text; " \
        "many: invariant\n%s\n<= x by text; end\n" % added(times - 1, "1", "1")
    return answers("a false claim on %d parts" % times, text, 3, b"refuted P.many obligation 2")


def ring(places):
    """For a ring of so many places `demo` finds certificates, and writes that its proof is accepted: the token comes to
    place 0 within one round less than there are places, and home within as many."""
    digits = len(str(places - 1))
    wanted = "\n".join(["ring %d bytes %d" % (places, 464 + 8 * digits),
                        "accepted 5 steps %d obligations" % (4 * places + 2), "Ring.safe defined", "Ring.step ensures",
                        "Ring.goal leadsto %d" % (places - 1), "Ring.home ensures",
                        "Ring.again leadsto %d" % places, ""])
    return single("unity demo %d" % places,
                  lambda: other_answer(0, wanted.encode(), unity("demo %d" % places)), places / 4)


def cases():
    yield many_parts(13000)
    yield from (deep(*row) for row in DEEP)
    yield from (wide(*row) for row in WIDE)
    yield parameters(32740)
    yield too_large(32742, "left")
    yield too_large(32742, "right")
    yield is_false(32742)
    yield from (ring(places) for places in (2, 16))
