"""Asks other solvers for a second opinion on the obligations of a document.

What `unity obligations` writes is a script of SMT-LIB, and z3 and cvc5 are asked of it, those of them that are there.
Each obligation has a line, with its step and where it comes from: `unsat` means that no values make it false, `sat`
that some do, and `unknown` that the solver did not decide within its seconds. Beside it stands what `prove` says:
`proved`, `refuted`, `budget` where it did not decide, or nothing behind the place where it ended. The last line counts.
It exits with 1 where a solver and `prove`, or two solvers, disagree, which is an error in one of them; else with 3
where an obligation is false, with 4 where one is not decided, and with 0 where all are true. Where a step does not
follow its rule, or the document does not read, it exits with the status of `unity`.
"""
import os
import re
import resource
import select
import shutil
import subprocess
import time

from unity_tool.files import read_document, write
from unity_tool.obligations import steps_in
from unity_tool.places import show
from unity_tool.program import ask, most_memory, need_answers
from unity_tool.trying import number
from unity_tool.wrong_use import Failure

SOLVERS = {"z3": ["z3", "-in"], "cvc5": ["cvc5", "--incremental", "--lang=smt2"]}
LOGIC = "(set-logic ALL)\n"
BUDGET, SECONDS = "1000000", 60
DISAGREE, REFUTED, UNDECIDED = 1, 3, 4
TRUE, FALSE, UNKNOWN = "unsat", "sat", "unknown"
# what an answer of `prove` and one of a solver may not be together
CONTRARY = {("proved", FALSE), ("refuted", TRUE), (TRUE, FALSE), (FALSE, TRUE)}


class Solver:
    """A solver that is asked one obligation after the other; where it takes too long, it is started anew."""

    def __init__(self, name, seconds):
        self.name, self.seconds, self.process = name, seconds, None

    def start(self):
        most = most_memory() << 20

        def limited():
            resource.setrlimit(resource.RLIMIT_AS, (most, most))

        self.process = subprocess.Popen(SOLVERS[self.name], stdin=subprocess.PIPE, stdout=subprocess.PIPE,
                                        stderr=subprocess.STDOUT, preexec_fn=limited)
        self.send(LOGIC)

    def send(self, text):
        try:
            self.process.stdin.write(text.encode("latin-1"))
            self.process.stdin.flush()
        except BrokenPipeError:
            pass

    def ask(self, obligation):
        """What it says of an obligation: unsat, sat or unknown."""
        if self.process is None:
            self.start()
        self.send("\n".join(obligation.script) + "\n")
        said = self.line(time.monotonic() + self.seconds)
        if said in (TRUE, FALSE, UNKNOWN):
            return said
        self.end()
        if said:
            raise Failure(DISAGREE, "%s says of obligation %d: %s" % (self.name, obligation.number, said))
        return UNKNOWN

    def line(self, deadline):
        """The next line that it writes; an empty one where it is too late, or where it ended."""
        got = b""
        while not got.endswith(b"\n"):
            if not select.select([self.process.stdout], [], [], max(0, deadline - time.monotonic()))[0]:
                return ""
            part = os.read(self.process.stdout.fileno(), 4096)
            if not part:
                return ""
            got += part
        return got.decode("latin-1").strip()

    def end(self):
        if self.process is not None:
            self.process.kill()
            self.process.communicate()
            self.process = None


def those_there():
    """The solvers that are there."""
    return [name for name in SOLVERS if shutil.which(name)]


def found_by_prove(answer, count):
    """What `prove` says of each of so many obligations."""
    ended = re.match(r"(refuted|budget) \S+ obligation (\d+)", answer.first_line())
    if not ended:
        return ["proved" if answer.status == 0 else ""] * count
    before = int(ended.group(2)) - 1
    return ["proved"] * before + [ended.group(1)] + [""] * (count - before - 1)


def opinions(steps, names, seconds):
    """For each obligation its step, itself, and what each solver says of it."""
    asked = [Solver(name, seconds) for name in names]
    try:
        for step in steps:
            for it in step.obligations:
                yield step, it, [solver.ask(it) for solver in asked]
    finally:
        for solver in asked:
            solver.end()


def disagree(said):
    """Whether two of those who said something of an obligation can't both be right."""
    return any((one, other) in CONTRARY for one in said for other in said)


def status_of(each):
    """The status, by what was said of each obligation."""
    if any(map(disagree, each)):
        return DISAGREE
    if any(FALSE in said or "refuted" in said for said in each):
        return REFUTED
    return UNDECIDED if any(UNKNOWN in said or "budget" in said for said in each) else 0


def add_options(parser):
    parser.add_argument("file", metavar="FILE", help="a document")
    parser.add_argument("budget", metavar="BUDGET", nargs="?", default=BUDGET, help="the units of `prove`")
    parser.add_argument("--solver", metavar="NAME", choices=list(SOLVERS), help="ask this one alone: z3 or cvc5")
    parser.add_argument("--seconds", metavar="N", type=number, default=SECONDS,
                        help="how long a solver may take for an obligation, %d where none is given" % SECONDS)


def told(steps, names, seconds, by_prove):
    """Prints a line for each obligation, and gives what was said of each."""
    each = []
    for (step, it, said), proved in zip(opinions(steps, names, seconds), by_prove):
        each.append(said + [proved])
        words = ["%s %s" % pair for pair in zip(names, said)] + ["prove " + proved] * bool(proved)
        print("%d %s %s: %s%s" % (it.number, step.named(), it.origin, ", ".join(words),
                                  ", which disagree" if disagree(each[-1]) else ""), flush=True)
    return each


def main(chosen):
    text = read_document(chosen.file)
    need_answers()
    names = [chosen.solver] if chosen.solver else those_there()
    missing = [it for it in names if not shutil.which(it)]
    if missing or not names:
        raise Failure(DISAGREE, "no solver is there: it wants the program z3 or cvc5 (apt-get install z3 cvc5)")
    answer = ask(["obligations"], text)
    if answer.status:
        write(answer.text)
        show(answer.text, chosen.file, text)
        return answer.status
    steps = list(steps_in(answer.text.decode("latin-1").splitlines()))
    count = sum(len(it.obligations) for it in steps)
    each = told(steps, names, chosen.seconds, found_by_prove(ask(["prove", chosen.budget], text), count))
    counts = ["%s %s" % (name, ", ".join("%d %s" % (column.count(word), word) for word in (TRUE, FALSE, UNKNOWN)
                                         if word in column)) for name, column in zip(names, zip(*each))]
    print("; ".join(["%d obligations" % count] + counts))
    return status_of(each)
