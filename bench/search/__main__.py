"""What searches take, beside z3. See search.sh."""
import argparse
import math
import os
import sys
import tempfile

from families import EXAMPLES, FAMILIES
from measures import instructions, least, machine, obligations, peer_time, units

TOP = os.path.dirname(os.path.dirname(os.path.dirname(os.path.abspath(__file__))))
BUDGET = "1000000"
TITLES = ["Document", "Obligations", "Units", "The dearest", "`prove`", "`check` of it", "z3", "z3 / `prove`"]


def grouped(number):
    return "{:,}".format(number)


def milliseconds(time):
    return "-" if time is None else "%.0f" % time


class Bench:
    """The program, and the room in which its answers stand."""

    def __init__(self, program, room, counts):
        self.program, self.room, self.counts = program, room, counts

    def at(self, name):
        return os.path.join(self.room, name)

    def titles(self):
        return TITLES + (["Instructions a unit"] if self.counts else [])

    def search(self, title, document):
        """Searches a document and prints its row. The units and the time, or None where none was found."""
        found, said, script = self.at("found"), self.at("said"), self.at("script.smt2")
        took = least([self.program, "prove", BUDGET], document, found)
        count, all_units, dearest = units(found)
        if not count:
            with open(found, encoding="utf-8", errors="replace") as answer:
                print("| %s | %s | %s |" % (title, answer.readline().strip(), milliseconds(took)), flush=True)
            return None
        check = least([self.program, "check"], found, said)
        obligations(self.program, document, script)
        peer = peer_time("z3", script, said)
        ratio = "-" if peer is None else "%.2f" % (peer / max(took, 1))
        cells = [title, *map(grouped, (count, all_units, dearest)), *map(milliseconds, (took, check, peer)), ratio]
        if self.counts:
            taken = instructions([self.program, "prove", BUDGET], document)
            cells.append("-" if taken is None else grouped(taken // all_units))
        print("| %s |" % " | ".join(cells), flush=True)
        return all_units, took


def accepted(names):
    """The examples that are proved whole: there is a file of what `check` says then."""
    for name in sorted(os.listdir(EXAMPLES)):
        title, kind = os.path.splitext(name)
        if kind == ".accepted" and (not names or title in names):
            yield title, os.path.join(EXAMPLES, title + ".unity")


def growth(sizes, found):
    """By which power of the size the units and the time grow, from the least size found to the greatest."""
    pairs = [(size, it) for size, it in zip(sizes, found) if it]
    if len(pairs) < 2:
        return
    (small, first), (large, last) = pairs[0], pairs[-1]
    units_by, time_by = [math.log(max(b, 1) / max(a, 1), large / small) for a, b in zip(first, last)]
    print("| from %d to %d | | n^%.1f | | n^%.1f | | | |" % (small, large, units_by, time_by), flush=True)


def head(titles):
    print("\n| %s |\n|%s" % (" | ".join(titles), "---|" * len(titles)), flush=True)


def families(bench, names):
    """Each family at its sizes, and how it grows."""
    for family, sizes in FAMILIES:
        if names and family.__name__ not in names:
            continue
        found = []
        for size in sizes:
            document = bench.at("document")
            with open(document, "w", encoding="utf-8") as made:
                made.write(family(size))
            found.append(bench.search("%s %d" % (family.__name__, size), document))
        growth(sizes, found)


def main():
    parser = argparse.ArgumentParser(prog="search.sh", description=__doc__)
    parser.add_argument("program", nargs="?", default=os.path.join(TOP, "crates", "unity", "out", "unity"))
    parser.add_argument("--only", nargs="+", default=[], metavar="NAME", help="these examples and families alone")
    parser.add_argument("--instructions", action="store_true", help="count instructions with valgrind: slow")
    parser.add_argument("--write", nargs=2, metavar=("FAMILY", "SIZE"), help="print a document of a family, and end")
    given = parser.parse_args()
    if given.write:
        named = {family.__name__: family for family, _ in FAMILIES}
        sys.stdout.write(named[given.write[0]](int(given.write[1])))
        return 0
    if not os.access(given.program, os.X_OK):
        print("%s is not built: bash scripts/build.sh" % given.program, file=sys.stderr)
        return 1
    print(machine())
    with tempfile.TemporaryDirectory() as room:
        bench = Bench(given.program, room, given.instructions)
        head(bench.titles())
        for title, document in accepted(given.only):
            bench.search(title, document)
        head(bench.titles())
        families(bench, given.only)
    return 0


if __name__ == "__main__":
    sys.exit(main())
