"""Families that try what came later: quotients, watching, layers, ranges of a thousand million, steps that keep much."""
import random

from texts import document, listed


def range_with_remainder(size):
    """A proof over a wide range, whose part takes the number's remainder."""
    return document("x : 0..1", "a: x := x", "s: defined by text;\n"
                    "e: false leadsto true by exists(m : 1..%d, imply(m mod 2 = 2, true));" % size, version=2)


def range_with_formula(size):
    """A proof over a range of a thousand million, whose part is a large formula."""
    return document("x : 0..1", "a: x := x", "s: defined by text;\n"
                    "e: false leadsto true by exists(m : 0..1000000000, "
                    "imply((all i : 1..%d :: m >= i) and m < 0, true));" % size)


def invariants_under(size):
    """Steps that rest on many large invariants, each with the same part at its beginning."""
    return document("x : 0..1", "a: x := 0", "s: defined by text;\n"
                    + listed(size, "\n", "i{0}: invariant (sum i : 1..5000 :: x) >= -{0} by text;")
                    + "\ne: true ensures true by text with a;\n"
                    + "r: true leadsto true by from e using %s;\n" % listed(size, ", ", "i{0}")
                    + listed(2 * size, "\n", "r{0}: true leadsto true by from r;"))


def nested_ranges(size):
    """Quantified statements in each other, whose ranges name the ones around them."""
    numbers = random.Random(1)
    ends = ["%s..%s" % tuple("i%d" % numbers.randrange(level) for _ in range(2)) if level else "0..0"
            for level in range(size)]
    opening = "".join("<[] i%d : %s :: " % it for it in enumerate(ends))
    return document("x : 0..1", opening + "s: x := x" + " |>" * size, version=2)


def claims_over_statements(size):
    """Large claims over 4,096 statements, which no certificate follows."""
    return document("x : 0..1", "<[] k : 1..4096 :: s: x := x |>", "s: defined by text;\n"
                    + listed(size, "\n", "v{0}: invariant (sum i : 1..15000 :: x) <= 15000 by text;"))


def defined_often(size):
    """The step `defined` often, over 4,096 statements."""
    return document("x : 0..1", "<[] k : 1..4096 :: s: x := x |>", listed(size, "\n", "v{0}: defined by text;"),
                    schedule="s[1]")


def large_claims(size):
    """Large claims."""
    return document("x : 0..1", "a: x := x", "s: defined by text;\n"
                    + listed(size, "\n", "c{0}: invariant (sum i : 1..15000 :: x) <= 15000 by text;"), schedule="a")


def places_and_cases(size):
    """A schedule of many places, and a claim that nothing changes with many cases over many statements."""
    return document("x : 0..1", "<[] i : 1..4000 :: a: x := 1 |>", "s: defined by text;\n"
                    "v(m : 1..2000): fixed x = 1 by text;", version=2, schedule=", ".join(["a[1]"] * size))


def places_and_large_cases(size):
    """A schedule over a large claim with many cases."""
    return document("x : 0..1", "a: x := x", "s: defined by text;\n"
                    "v(m : 1..%d): (sum i : 1..15000 :: x) <= 15000 + m unless x = 2 by text;" % size, version=2,
                    schedule=", ".join(["a"] * 10))


def layers(size):
    """Steps that carry a claim over a layer of large statements."""
    program = "program %s declare x : 0..1 assign <[] i : 1..400 :: %s: x := (sum j : 1..600 :: x - x) |> end\n"
    return ("unity 2\n" + program % ("F", "a") + program % ("H", "b")
            + "proof F\nv: invariant true by text;\ns: defined by text;\nend\nproof H\n"
            + listed(size, "\n", "v{0}: invariant true by superpose F.v;") + "\ns: defined by text;\nend\n")


def two_remainders(size):
    """Two divisors of one number, and their product."""
    return document("x : 0..%d" % size, "a: x := x", "s: defined by text;\n"
                    "t: invariant (x mod 7 = 0 and x mod 11 = 0 => x mod 77 = 0) by text;", version=2)


def long_schedule(size):
    """A schedule of many choices."""
    return document("x : 0..1", "a: x := x", "s: defined by text;", schedule=", ".join(["a"] * size))
