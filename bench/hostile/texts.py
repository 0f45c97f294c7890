"""Texts of documents, and the families that make a program copy, count or look up much: how each is written at a size."""


def document(declared, items, steps="", always="", version=1, schedule=""):
    """A document of one program P, its proof, and its schedule."""
    parts = ["unity %d" % version, "program P", "declare", declared]
    parts += ["always", always] if always else []
    parts += ["assign", items, "end"]
    parts += ["proof P", steps, "end"] if steps else []
    parts += ["schedule P : %s end" % schedule] if schedule else []
    return "\n".join(parts) + "\n"


def listed(count, between, text):
    """A text for each number from 0 on: what it says of a number and of the one before, with a text between."""
    return between.join(text.format(number, number - 1) for number in range(count))


def nested(count, opening, closing, inner, most=190):
    """Always names that stand in each other, with as many brackets in each as one may have: their lines, and the last."""
    lines, name = [], inner
    while count > 0:
        levels = min(count, most)
        lines.append("d%d = %s" % (len(lines), opening * levels + name + closing * levels))
        name = "d%d" % (len(lines) - 1)
        count -= levels
    return lines, name


def sum_in_itself(size):
    """A large sum, assigned and claimed: it is put in its own place."""
    return document("x : 0..1", "a: x := (sum i : 1..%d :: x)" % size,
                    "s: defined by text; v: invariant (sum i : 1..%d :: x) <= %d by text;" % (size, size))


def sum_in_statements(size):
    """A large sum in each of many statements."""
    return document("x : 0..1", "<[] k : 1..%d :: s: x := (sum i : 1..20000 :: x) |>" % size, "s: defined by text;")


def claim_over_statements(size):
    """A large claim over many statements."""
    return document("x : 0..1", "<[] k : 1..%d :: s: x := x |>" % size,
                    "s: defined by text; v: invariant (sum i : 1..15000 :: x) <= 15000 by text;")


def wide_claim_over_statements(size):
    """A large claim of little height over many statements, which write nothing that it names."""
    claim = "(all i : 1..30 :: (sum j : 1..400 :: x) <= 400)"
    return document("x : 0..1\ny : 0..1", "<[] k : 1..%d :: s: y := y |>" % size,
                    "s: defined by text; v: invariant %s by text;" % claim)


def used_often(size):
    """A large invariant, named often."""
    return document("x : 0..1", "s: x := x", "s: defined by text;\n"
                    "big: invariant (sum i : 1..15000 :: x) <= 15000 by text;\n"
                    "w: invariant x <= 1 by text using %s;" % listed(size, ", ", "big"))


def always_names(size):
    """Always names, each a large one."""
    return document("x : 0..1", "s: x := 1 - x", "s: defined by text;",
                    "b0 = (all i : 1..12000 :: x <= 1)\n" + listed(size, "\n", "c{0} = b0"))


def unions(first, second, size):
    """Unions of two programs, so many."""
    named = "program %s declare x : 0..1 assign %s end"
    return "\n".join(["unity 1", named % ("F", first), named % ("G", second),
                      listed(size, "\n", "program H{0} = F [] G end")]) + "\n"


def unions_of_large(size):
    """Unions of a program with large statements."""
    return unions("<[] i : 1..8 :: a: x := (sum j : 1..20000 :: x) |>", "b: x := 1", size)


def unions_of_many(size):
    """Unions of programs with many statements."""
    return unions("<[] i : 1..2048 :: a: x := 0 |>", "<[] i : 1..2048 :: b: x := 1 |>", size)


def chain_of_unions(size):
    """A chain of unions."""
    chained = "program P{0} declare x : 0..1 assign a{0}: x := 0 end\nprogram H{0} = H{1} [] P{0} end\n"
    lines = [chained.format(number, number - 1) for number in range(1, size + 1)]
    return "unity 1\nprogram H0 declare x : 0..1 assign a0: x := 0 end\n" + "".join(lines)


def writes_to_one(size):
    """Many writes to one slot in each of thirty statements."""
    return document("x : 0..1", listed(30, " [] ", "s{0}: <|| i : 1..%d :: x := 0 |>" % size), "s: defined by text;")


def open_writes_to_one(size):
    """Many writes to one slot, after a write of which it is not plain what it gives."""
    return document("x : 0..1 y : 0..1", "s: y := 1 - y || <|| i : 1..%d :: x := 0 |>" % size, "s: defined by text;")


def reads_within_reads(size):
    """Reads within reads."""
    lines, last = nested(size, "a[", "]", "x")
    return document("x : -1..1\na : array 0..0 of 0..0", "s: x := 0 if %s = 0" % last, "s: defined by text;",
                    "\n".join(lines))


def pairs_of_facts(size):
    """Pairs of facts."""
    claim = "(any i : 0..%d :: v + w = i) or v + w > %d" % (size, size)
    return document("v : 0..%d\nw : 0..%d" % (size, size), "a: v := v",
                    "s: defined by text; t: invariant %s by text;" % claim)


def pigeons(size):
    """More pigeons than holes."""
    claim = "(any i : 1..%d :: (any j : i + 1..%d :: p[i] = p[j]))" % (size, size)
    return document("p : array 1..%d of 1..%d" % (size, size - 1), "a: p[1] := p[1]",
                    "s: defined by text; t: invariant %s by text;" % claim)


def steps_from_steps(size):
    """Steps, each from the one before."""
    return document("x : 0..1", "a: x := x", "s: defined by text;\ne: true ensures true by text with a;\n"
                    "r0: true leadsto true by from e;\n"
                    + "\n".join("r%d: true leadsto true by from r%d;" % (it, it - 1) for it in range(1, size)))


def many_names(size):
    """Names, each declared."""
    return document(listed(size, "\n", "name{0} : 0..1"), "a: name0 := name0", "s: defined by text;")


def deep_sum(size):
    """A sum whose brackets stand to the right, as deep as they may be."""
    lines, last = nested(size, "x + (", ")", "x")
    return document("x : -1..1", "s: x := 0 if %s = 0" % last, "s: defined by text;", "\n".join(lines))


def deep_and(size):
    """A conjunction whose brackets stand to the right."""
    lines, last = nested(size, "true and (", ")", "true")
    return document("x : -1..1", "s: x := 0 if %s" % last, "s: defined by text;", "\n".join(lines))


def deep_signs(size):
    """Signs in each other, in a guard."""
    lines, last = nested(size, "-(", ")", "y")
    return document("x : -1..1\ny : 0..1000000000", "s: x := 0 if %s = 0" % last, "s: defined by text;",
                    "\n".join(lines), 2)


def flat_sum(size):
    """A sum without brackets."""
    return document("a : 0..1", "s: a := a" + "+a" * size, "s: defined by text;")
