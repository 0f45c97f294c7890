"""Proves a crate and those that it stands on, side by side, and builds it if it is a program. See build.sh."""
import argparse
import os
import re
import subprocess
import sys
import time

from crates import crates_of
from processes import memory_left, read_stat

USAGE = 64
# A small crate takes as long as one with so many lines more, since it loads what it stands on.
SMALL = 60
# Memory that a check takes, in MB; the largest take more.
EACH = 3000
KILLED = "-9"


class Progress:
    """How far a run is: crates that are done, and minutes."""

    def __init__(self, crates):
        self.weights = {it.name: it.lines + SMALL for it in crates}
        self.all, self.begun, self.proved = len(crates), time.monotonic(), 0

    def tell(self, name, is_proved, seconds):
        """Says that a crate is done, proved just now or kept. What was proved took so many seconds of processor."""
        weight = self.weights.pop(name, 0)
        self.proved += weight * is_proved
        said = "%d of %d crates, %d minutes: %s" % (
            self.all - len(self.weights), self.all, (time.monotonic() - self.begun) / 60, name)
        if self.proved:
            said += "; %.1f minutes of processor" % (seconds / 60)
        if self.proved and self.weights:
            said += ", some %.1f left" % (sum(self.weights.values()) * seconds / self.proved / 60)
        print(said, flush=True)


class Run:
    """One run of `rt all check`: what it said, and what became of each crate."""

    def __init__(self, name, jobs, crates):
        self.said, self.became, self.progress = [], {}, Progress(crates)
        self.crate, self.is_over = None, False
        how = {"stdout": subprocess.PIPE, "stderr": subprocess.STDOUT, "text": True, "errors": "replace",
               "cwd": os.path.join("crates", name), "env": {**os.environ, "PYTHONUNBUFFERED": "1"}}
        with subprocess.Popen(["rt", "all", "check", "--jobs", str(jobs)], **how) as ran:
            for line in ran.stdout:
                self.said.append(line)
                self.read(line.rstrip("\n"), ran.pid)
        self.is_well = ran.returncode == 0 and self.said[-1:] == ["%d of %d crates ok\n" % (len(crates), len(crates))]

    def read(self, line, pid):
        """Takes a line. `== NAME` comes once a crate is done, and then what its check said, to its verdict."""
        if self.is_over:
            name, _, became = line.partition(": ")
            self.became[name] = became
        elif line.startswith("== "):
            self.end(False, pid)
            self.is_over, self.crate = line == "== summary", line[3:]
        elif line.startswith("logic="):
            self.end(True, pid)

    def end(self, is_proved, pid):
        """Says how far the run is, once for each crate."""
        stat = read_stat(pid)
        if self.crate:
            self.progress.tell(self.crate, is_proved, stat.children if stat else 0)
        self.crate = None

    def with_status(self, status):
        """The crates whose check ended with this status."""
        return [name for name, became in self.became.items() if became == "failed (%s)" % status]

    def has_only_killed(self):
        """Whether all that went wrong is that checks were killed, most likely for want of memory."""
        others = [became for became in self.became.values() if re.fullmatch(r"failed \(.*\)", became)]
        return bool(others) and len(others) == len(self.with_status(KILLED))


def jobs_for(processors):
    """How many crates `rt` is to take up at a time. One that waits for a crate below it holds its place, so there are
    up to twice as many as processors where memory has room, but as many as processors wherever that ends."""
    said = os.environ.get("RT_JOBS", "")
    if said.isdigit() and int(said):
        return int(said)
    return max(processors, min(2 * processors, memory_left() // EACH))


def prove(name, jobs, crates):
    """Proves a crate and those below it. What was killed is proved by itself, and then it goes on with all lanes."""
    by_name = {it.name: it for it in crates}
    while True:
        below = [by_name[it] for it in [*by_name[name].below, name]]
        print("%d crates, %d at a time" % (len(below), jobs), flush=True)
        run = Run(name, jobs, below)
        if run.is_well:
            return True
        if jobs == 1 or not run.has_only_killed() or not all(prove(it, 1, crates) for it in run.with_status(KILLED)):
            sys.stderr.write("".join(run.said))
            return False


def build(name):
    """Builds a program that is proved, and says whether it answers a question as it should."""
    with open("examples/count.unity", "rb") as question, open("examples/count.expected", "rb") as wanted:
        ran = subprocess.run(["rt", "run", "--", "check"], cwd=os.path.join("crates", name), stdin=question,
                             stdout=subprocess.PIPE, stderr=subprocess.PIPE, check=False)
        is_well = ran.stdout == wanted.read()
    if is_well:
        print("crates/%s/out/%s is built" % (name, name))
    else:
        sys.stderr.buffer.write(ran.stderr + ran.stdout)
    return is_well


def main(words):
    parser = argparse.ArgumentParser(prog="bash scripts/build.sh", description=__doc__)
    parser.add_argument("name", nargs="?", default="unity", metavar="NAME", help="a crate of crates.txt (unity)")
    name, crates = parser.parse_args(words).name, crates_of(".")
    if name not in [it.name for it in crates]:
        print("crates.txt:1:1: there is no crate %s" % name, file=sys.stderr)
        return USAGE
    if not prove(name, jobs_for(len(os.sched_getaffinity(0))), crates):
        return 1
    is_program = os.path.exists(os.path.join("crates", name, "src", "main.rt"))
    return int(is_program and not build(name))


if __name__ == "__main__":
    sys.exit(main(sys.argv[1:]))
