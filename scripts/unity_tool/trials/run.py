"""Runs the tests of the built program, crates/unity/out/unity, side by side.

A test is a file: what is wanted of a document stands beside it, and the suffix says what it is asked with. The last
line says how many passed and how many failed; the status is 1 where one failed.
"""
import os
import resource
import sys

from unity_tool.repository import UNITY
from unity_tool.trials.pool import run_all
from unity_tool.trials.subjects import ASKED_ALONE, SUBJECTS

STACK = 4 << 20


def add_options(parser):
    parser.add_argument("--only", metavar="TEXT", help="those alone whose name has this text")
    parser.add_argument("--subject", metavar="NAME", choices=[name for name, _ in SUBJECTS],
                        help="those of one subject: " + ", ".join(name for name, _ in SUBJECTS))
    parser.add_argument("--jobs", metavar="N", type=int, help="so many at once, and not as many as processors")
    parser.add_argument("--list", action="store_true", help="print the names, and run nothing")
    parser.add_argument("--slowest", metavar="N", type=int, default=0, help="name those that took longest")


def chosen_cases(chosen):
    taken = [chosen.subject] if chosen.subject else [name for name, _ in SUBJECTS if name not in ASKED_ALONE]
    cases = [case for name, make in SUBJECTS if name in taken for case in make()]
    return [case for case in cases if chosen.only is None or chosen.only in case.name]


def limit_stack():
    """All that is started from here on runs in a stack of 4 MiB."""
    _, most = resource.getrlimit(resource.RLIMIT_STACK)
    resource.setrlimit(resource.RLIMIT_STACK, (STACK, most))


def prefer_this_python():
    """What is started from here on as `python3` is the Python that runs this, and nothing that looks for one first."""
    os.environ["PATH"] = os.path.dirname(sys.executable) + os.pathsep + os.environ["PATH"]


def leave_spin_out():
    """What is started from here on answers the same where SPIN is there; the tests of SPIN ask for it."""
    os.environ.setdefault("UNITY_SPIN", "0")


def tell_costs(tally, slowest):
    for seconds, name in sorted(tally.times, reverse=True)[:slowest]:
        print("%7.2f s %s" % (seconds, name))
    if slowest:
        used = resource.getrusage(resource.RUSAGE_CHILDREN)
        own = resource.getrusage(resource.RUSAGE_SELF)
        print("%.0f s of processor, %.0f of them of the runner itself" % (
            used.ru_utime + used.ru_stime + own.ru_utime + own.ru_stime, own.ru_utime + own.ru_stime))


def main(chosen):
    if not os.access(UNITY, os.X_OK):
        print("%s is not built: bash scripts/build.sh" % UNITY, file=sys.stderr)
        return 1
    cases = chosen_cases(chosen)
    if chosen.list:
        print("\n".join(case.name for case in cases))
        return 0
    limit_stack()
    prefer_this_python()
    leave_spin_out()
    tally = run_all(cases, chosen.jobs)
    tell_costs(tally, chosen.slowest)
    print("%d passed, %d failed" % (tally.passed, tally.failed))
    return 1 if tally.failed or not tally.passed else 0
