"""Families of documents: what is proved is the same, and a number says how many take part."""
import os
import re

EXAMPLES = os.path.join(os.path.dirname(os.path.abspath(__file__)), "..", "..", "examples")


def example(name):
    """A document of examples/, without its comments."""
    with open(os.path.join(EXAMPLES, name + ".unity"), encoding="utf-8") as text:
        return "".join(line for line in text if not line.lstrip().startswith("#"))


def listed(between, numbers, text):
    """A text for each of these numbers, with a text between."""
    return between.join(text.format(it) for it in numbers)


def conjunction(numbers, text):
    return listed(" and ", numbers, text)


def token_ring(size):
    """Processes on a ring, of which the one with the token may go in."""
    text = example("token_ring").replace("0..3", "0..%d" % (size - 1)).replace("1..3", "1..%d" % (size - 1))
    return text.replace("(i + 3) mod 4", "(i + %d) mod %d" % (size - 1, size))


def bakery(size):
    """Two processes with tickets up to a number."""
    text = re.sub(r"(num\[[^\]]*\] (?:=|<=|<|/=) )3\b", r"\g<1>%d" % size, example("bakery"))
    text = text.replace("num  : array 0..1 of 0..3", "num  : array 0..1 of 0..%d" % size)
    return text.replace("tmp  : array 0..1 of 0..2", "tmp  : array 0..1 of 0..%d" % (size - 1))


def chang_roberts(size):
    """Nodes on a ring choose the one with the greatest number: that at most one is chosen."""
    text = example("chang_roberts")
    text = text[:text.index("  last: invariant")] + "end\n"
    text = text.replace("0..5", "0..@").replace("0..3", "0..%d" % (size - 1)).replace("0..2", "0..%d" % (size - 2))
    text = text.replace("i + 1..3", "i + 1..%d" % (size - 1)).replace("0..@", "0..%d" % (size + 1))
    text = text.replace("n - k + 4", "n - k + %d" % size).replace("hop[k] <= 4", "hop[k] <= %d" % size)
    text = text.replace("~ 5 if", "~ %d if" % (size + 1)).replace("hop[n] := 5", "hop[n] := %d" % (size + 1))
    begin = ", ".join("id[%d] = %d" % (at, (at + 2) % size) for at in range(size))
    return re.sub(r"start .*", "start " + begin, text)


def k_state(size):
    """Dijkstra's ring of so many machines with as many states."""
    last, rest = size - 1, range(1, size)

    def same(upto):
        """The first so many are as the first one, and the others are not."""
        return conjunction([*range(1, upto)], "x[{0}] = x[0]"), conjunction([*range(upto, size)], "x[{0}] /= x[0]")

    def front(upto):
        return " and ".join(part for part in same(upto) if part)

    legal = ["(%s)" % front(size)]
    for at in rest:
        parts = [conjunction(range(1, at), "x[{0}] = x[0]"), "x[%d] /= x[0]" % at,
                 conjunction(range(at + 1, size), "x[{0}] = x[%d]" % at)]
        legal.append("(%s)" % " and ".join(part for part in parts if part))
    steps = ["far: not (any i : 1..%d :: x[i] = x[0]) ensures %s by text with copy[1];" % (last, front(2))]
    steps += ["f%d: %s ensures %s by text with copy[%d];" % (at, front(at), front(at + 1), at) for at in range(2, size)]
    return "\n".join([
        "unity 1\nprogram Ring\ndeclare\n  x : array 0..%d of 0..%d" % (last, size),
        "always\n  legal = %s" % " or ".join(legal),
        "assign\n  next: x[0] := x[0] + 1 if x[0] = x[%d] and x[0] < %d ~ 0 if x[0] = x[%d] and x[0] = %d"
        % (last, size, last, size),
        "  [] <[] i : 1..%d :: copy: x[i] := x[i - 1] if x[i] /= x[i - 1] |>\nend" % last,
        "proof Ring\n  safe: defined by text;",
        "  some: invariant x[0] = x[%d] or (any i : 1..%d :: x[i] /= x[i - 1]) by text;" % (last, last),
        "  closed: stable legal by text;", *["  " + step for step in steps],
        "  turn: %s ensures not (any i : 1..%d :: x[i] = x[0]) by text with next;\nend\n" % (front(size), last)])


def dining(size):
    """Philosophers at a table: who is hungry eats, by the number of forks that are on the way."""
    last, most = size - 1, size * (size - 1) // 2
    goal = "(eat[0] = 0 and way < m) or eat[0] = 1"
    lines = ["unity 2\nprogram Table\ndeclare\n  eat : array 0..%d of 0..1\n  y : array 0..%d of 0..1" % (last, last),
             "always\n  way = (sum i : 0..%d :: (%d - i) * y[i])" % (last, last),
             "initially\n  %s and (all i : 0..%d :: eat[i] = 0)"
             % (" and ".join("y[%d] = %d" % (at, at in (2, last)) for at in range(size)), last),
             "assign\n  <[] i : 0..%d ::" % last,
             "    dine: eat[i] := 1 if y[i] = 0 and y[(i + %d) mod %d] = 1" % (last, size),
             "    [] think: eat[i], y[i], y[(i + {0}) mod {1}] := 0, 1, 0 if eat[i] = 1 and y[i] = 0 and "
             "y[(i + {0}) mod {1}] = 1 |>\nend".format(last, size),
             "proof Table\n  safe: defined by text;",
             "  forks: invariant (all i : 0..{0} :: eat[i] + y[i] <= 1 and eat[i] <= y[(i + {0}) mod {1}] and "
             "eat[i] + eat[(i + 1) mod {1}] <= 1) by text;".format(last, size),
             "  two: invariant (sum i : 0..%d :: y[i]) = 2 by text;" % last]
    for at in range(1, size):
        here = "eat[0] = 0 and way = m and y[%d] = 1 and y[%d] = 0" % (at - 1, at)
        lines += ["  dines%d(m : 0..%d): %s ensures (%s and eat[%d] = 1) or %s by text with dine[%d];"
                  % (at, most, here, here, at, goal, at),
                  "  leaves%d(m : 0..%d): %s and eat[%d] = 1 ensures %s by text with think[%d];"
                  % (at, most, here, at, goal, at),
                  "  moves%d(m : 0..%d): %s leadsto %s by trans(from dines%d[m], either(either(from leaves%d[m], "
                  "imply(eat[0] = 0 and way < m, %s)), imply(eat[0] = 1, %s)));"
                  % (at, most, here, goal, at, at, goal, goal)]
    lines.append("  top: y[%d] = 1 and y[0] = 0 ensures eat[0] = 1 by text with dine[0];" % last)
    tree = "weaken(y[%d] = 1 and y[0] = 0, %s, from top)" % (last, goal)
    for at in range(size - 1, 0, -1):
        tree = "either(from moves%d[m], %s)" % (at, tree)
    return "\n".join(lines + [
        "  next(m : 0..%d): eat[0] = 0 and way = m leadsto %s by weaken(eat[0] = 0 and way = m, %s, %s) using two;"
        % (most, goal, goal, tree),
        "  hungry: eat[0] = 0 leadsto eat[0] = 1 by induct(m : 0..%d, way, eat[0] = 0, eat[0] = 1, from next[m]);"
        % most, "end\n"])


def network(size):
    """So many numbers, neighbours of which change places, stay apart."""
    lines = ["unity 1\nprogram Network\ndeclare", listed("\n", range(size), "  x{0} : 0..%d" % (size - 1)),
             "initially\n  " + conjunction(range(size), "x{0} = {0}"), "assign"]
    lines += ["  %sswap%d: x%d, x%d := x%d, x%d" % ("[] " if at else "", at, at, at + 1, at + 1, at)
              for at in range(size - 1)]
    apart = " and ".join("x%d /= x%d" % (at, other) for at in range(size) for other in range(at))
    lines += ["end\nproof Network\n  safe: defined by text;\n  apart: invariant %s by text;\nend\n" % apart]
    return "\n".join(lines)


def pigeons(size):
    """One pigeon more than so many holes: they do not fit."""
    declared = "".join("  p%d_%d : boolean\n" % (at, hole) for at in range(size + 1) for hole in range(size))
    homes = ["(%s)" % " or ".join("p%d_%d" % (at, hole) for hole in range(size)) for at in range(size + 1)]
    alone = ["not (p%d_%d and p%d_%d)" % (at, hole, other, hole)
             for hole in range(size) for at in range(size + 1) for other in range(at)]
    return ("unity 1\nprogram Pigeons\ndeclare\n%sassign\n  stay: p0_0 := p0_0\nend\nproof Pigeons\n"
            "  safe: defined by text;\n  none: invariant not (%s) by text;\nend\n"
            % (declared, " and ".join(homes + alone)))


def chain(size):
    """Of so many numbers each is less than the next, and the last less than the first: that cannot be."""
    less = " and ".join("x%d < x%d" % (at, (at + 1) % size) for at in range(size))
    return ("unity 1\nprogram Chain\ndeclare\n%sassign\n  stay: x0 := x0\nend\nproof Chain\n  safe: defined by text;\n"
            "  none: invariant not (%s) by text;\nend\n"
            % ("".join("  x%d : 0..1000000000\n" % at for at in range(size)), less))


# Each family with its sizes, the least first.
FAMILIES = [
    (token_ring, [4, 8, 16, 32, 40]),
    (dining, [5, 12, 24]),
    (k_state, [4, 8, 12]),
    (chang_roberts, [4, 7]),
    (bakery, [3, 30, 66, 200]),
    (network, [3, 4, 5]),
    (pigeons, [2, 3, 4, 5]),
    (chain, [10, 40]),
]
