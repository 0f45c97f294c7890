#!/usr/bin/env python3
"""The table at the head of docs/PERFORMANCE.md, from one run: python3 bench/today.py [--program P]

For each of ten documents of examples/ it has the obligations, the units of all certificates together and the most of
one, and what `prove` and `check` of what it found take: thousandths of a second of processor, the least of three, with
the start of the process. Where z3 and cvc5 are there, their times on what `obligations` writes stand beside. The first
lines name the day, the processor, how many there are, and the load. Run it with nothing else at work."""
import argparse
import os
import sys
import tempfile

from search.measures import PEERS, least, machine, obligations, peer_time, units

TOP = os.path.dirname(os.path.dirname(os.path.abspath(__file__)))
NAMES = ("peterson", "readers_writers", "two_phase_commit", "barrier", "bakery", "chang_roberts", "k_state",
         "go_back_n", "msi", "dining")


def peer_times(document, program, room):
    """The times of the peers on the obligations of a document."""
    script, said = os.path.join(room, "script.smt2"), os.path.join(room, "said")
    obligations(program, document, script)
    for name in PEERS:
        taken = peer_time(name, script, said)
        yield "-" if taken is None else "%.0f" % taken


def row(name, program, room):
    """The cells of a document."""
    document, found = os.path.join(TOP, "examples", name + ".unity"), os.path.join(room, "found")
    prove = "%.0f" % least([program, "prove", "1000000"], document, found)
    counts = units(found)
    check = "%.0f" % least([program, "check"], found, os.path.join(room, "said"))
    return [name, *map("{:,}".format, counts), prove, check, *peer_times(document, program, room)]


def main():
    parser = argparse.ArgumentParser(description=__doc__, formatter_class=argparse.RawDescriptionHelpFormatter)
    parser.add_argument("--program", default=os.path.join(TOP, "crates", "unity", "out", "unity"), help="the program")
    given = parser.parse_args()
    if not os.access(given.program, os.X_OK):
        print("%s is not built: bash scripts/build.sh" % given.program, file=sys.stderr)
        return 1
    print(machine() + "\n\n| Document | Obligations | Units | The dearest | `prove` | `check` of it | z3 | cvc5 |")
    print("|---|---|---|---|---|---|---|---|")
    with tempfile.TemporaryDirectory() as room:
        for name in NAMES:
            print("| %s |" % " | ".join(row(name, given.program, room)), flush=True)
    print("\nload at the end: %.1f" % os.getloadavg()[0])
    return 0


if __name__ == "__main__":
    sys.exit(main())
