"""What hostile documents cost, and how that grows. See hostile.sh."""
import argparse
import math
import os
import sys

from rows import ROWS
from runs import run

MEGABYTE = 1 << 20
# A shorter time than this is not told apart from the start of a process.
SHORT = 0.05
# How much faster than its size a document's cost may grow, and what a text of 64 KB may ask for.
EXPONENT, TEXT, MEMORY = 1.3, 65536, 1 << 30
SECONDS = {"check": 20, "run 100": 20, "watch": 20, "fixed 100": 20, "upgrade": 20, "obligations": 20,
           "prove 1000000": 60}
# What `obligations` may take, in time and memory, of a search of one unit: it plans all steps too.
PLANNING, TIMES = "prove 1", 2.0
# The stack of the first table, in KB: what the deepest texts have to do with.
STACK = "4096"


def exponent(ran):
    """How the time grows with the size: the power that three runs tell, or None where they are too short for it."""
    *_, second, third = [it.seconds for it in ran]
    if third < 4 * SHORT:
        return None
    return math.log(third / max(second, SHORT), 2)


def is_broken(one):
    """Whether memory was wanting, or a signal ended it."""
    return one.status == 9 or one.status > 128


def told(one):
    return "%.2f s, %d MB" % (one.seconds, one.memory / MEGABYTE)


class Table:
    """A table that is printed row by row, and counts what is not as it should be."""

    def __init__(self, *titles):
        self.failed = 0
        print("\n| %s |\n|%s" % (" | ".join(titles), "---|" * len(titles)), flush=True)

    def row(self, *cells, fault=None, reason=None):
        """Prints a row. A fault counts where no reason is known for it."""
        self.failed += bool(fault and not reason)
        why = "%s: %s" % (fault, reason or "**too much**") if fault else ""
        print("| %s | %s |" % (" | ".join(str(it) for it in cells), why), flush=True)


def growing(program, rows):
    """Each family at three sizes, with its command."""
    table = Table("document", "command", "sizes", "bytes", "n", "2n", "4n", "power", "status", "first line", "")
    for row in rows:
        made = [row.family(size) for size in row.sizes()]
        ran = [run(program, row.words, text, stack=STACK) for text in made]
        power = exponent(ran)
        fault = "status %d" % ran[-1].status if is_broken(ran[-1]) else None
        fault = "cut off" if any(it.is_cut for it in ran) else fault
        if power and power > EXPONENT:
            fault = "grows"
        table.row(row.name, row.words[0], row.size, len(made[-1]), *map(told, ran), "%.1f" % power if power else "",
                  ran[-1].status, ran[-1].first[:44], fault=fault, reason=row.reason)
    return table.failed


def limited(program, rows):
    """Each family at its greatest size, or at one whose text has 64 KB, with each command."""
    table = Table("document", "bytes", *(it.split()[0] for it in SECONDS), "")
    for row in rows:
        text = next((it for it in map(row.family, reversed(row.sizes())) if len(it) <= TEXT), row.family(row.size))
        ran = [run(program, words.split(), text, seconds) for words, seconds in SECONDS.items()]
        over = [words.split()[0] for (words, seconds), it in zip(SECONDS.items(), ran)
                if it.is_cut or it.seconds > seconds or it.memory > MEMORY or is_broken(it)]
        table.row(row.name, len(text), *map(told, ran), fault=" ".join(over) if len(text) <= TEXT else None,
                  reason=row.reason)
    return table.failed


def listing(program, rows):
    """`obligations` beside a search of the same document, which plans all steps and ends."""
    table = Table("document", "`%s`" % PLANNING, "`obligations`", "times the time", "times the memory", "")
    for row in rows:
        text = row.family(row.size)
        plan, script = (run(program, words.split(), text) for words in (PLANNING, "obligations"))
        time, memory = script.seconds / max(plan.seconds, SHORT), script.memory / max(plan.memory, 1)
        table.row(row.name, told(plan), told(script), "%.1f" % time, "%.1f" % memory,
                  fault="more" if max(time, memory) > TIMES else None, reason=row.reason)
    return table.failed


TABLES = {"growing": growing, "limited": limited, "listing": listing}


def main():
    above = os.path.dirname(os.path.dirname(os.path.dirname(os.path.abspath(__file__))))
    asked = argparse.ArgumentParser(prog="bash bench/hostile.sh", description=__doc__)
    asked.add_argument("program", nargs="?", default=above + "/crates/unity/out/unity", help="the program")
    asked.add_argument("--only", nargs="+", metavar="NAME", help="these documents alone")
    asked.add_argument("--table", choices=TABLES, action="append", help="this table alone")
    asked.add_argument("--list", action="store_true", help="print the documents with what each is, and end")
    asked.add_argument("--write", nargs=2, metavar=("NAME", "SIZE"), help="print one document, and end")
    given = asked.parse_args()
    rows = [it for it in ROWS if not given.only or it.name in given.only]
    if given.list:
        for it in ROWS:
            print("%s %d: %s" % (it.name, it.size, it.family.__doc__))
        return 0
    if given.write:
        sys.stdout.write(next(it for it in ROWS if it.name == given.write[0]).family(int(given.write[1])))
        return 0
    failed = sum(TABLES[it](given.program, rows) for it in given.table or TABLES)
    print("\n%d of these take too much" % failed)
    return 1 if failed else 0


if __name__ == "__main__":
    sys.exit(main())
