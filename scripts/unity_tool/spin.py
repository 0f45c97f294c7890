"""Asks SPIN for a second opinion on the claims of a document.

The program and its claims become a model in Promela, with one process for each instance, so that SPIN's weak fairness
is that of an execution. What one step can show is asserted in one run over all states, and of each claim of progress
SPIN looks for a fair run that never comes to its end. A line for each step goes to standard error. Of the first step
that SPIN finds violated the document goes to standard output, with the run as its schedule, shortened; `watch` has to
say 10 of it, else the two disagree, which is an error to report. "No violation in the N states there are" is SPIN's
word, and no proof. Runs begin at each initial state; where there are too many of these to go through, at that of the
document's own start alone, and then it says so. It exits with 10 where a step is violated, with 0 where SPIN finds none
violated, and with 4 where it did not decide all. It wants spin and gcc, and the built program or the page's module.
"""
import sys

from unity_tool import schedules
from unity_tool.files import read_document, write
from unity_tool.places import show
from unity_tool.plan import Plan
from unity_tool.program import ask, need_answers, unity
from unity_tool.promela import running
from unity_tool.promela.asked import Asked
from unity_tool.promela.formulas import TooLarge
from unity_tool.trying import number
from unity_tool.wrong_use import Failure

SECONDS, MEMORY = 60, 2000
VIOLATED, UNDECIDED, DISAGREE = 10, 4, 1


def add_options(parser):
    parser.add_argument("file", metavar="FILE", help="a document")
    parser.add_argument("steps", metavar="STEP", nargs="*", help="a step, as NAME or PROGRAM.NAME; else all steps")
    parser.add_argument("--seconds", type=number, default=SECONDS, metavar="N",
                        help="the limit of time for all questions, %d where none is given" % SECONDS)
    parser.add_argument("--memory", type=number, default=MEMORY, metavar="MB",
                        help="the limit of memory of a search, %d where none is given" % MEMORY)
    parser.add_argument("--rounds", action="store_true",
                        help="ask of progress whether it comes within its bound, and not whether it comes at all")
    parser.add_argument("--start", action="store_true", help="begin at the document's own start alone")


def note(says):
    sys.stderr.write(says + "\n")
    sys.stderr.flush()


def chosen_steps(plan, names):
    """The steps of these names, or all."""
    found = [it for it in plan.steps if not names or it.name in names
             or it.named() in names]
    known = {it.name for it in found} | {it.named() for it in found}
    for name in names:
        if name not in known:
            raise Failure(64, "%s is no step of the document" % name)
    return found


def all_verdicts(plan, steps, limits, chosen):
    """What SPIN says of steps, program by program, each with the model that was asked. Of what is too large for a
    model that is noted, and nothing comes."""
    programs = list(dict.fromkeys(it.program for it in steps))
    for at, program in enumerate(programs):
        mine = [it for it in steps if it.program == program]
        try:
            asked = Asked(plan, program, limits.part(len(programs) - at), chosen.start)
            yield from ((asked, it) for it in asked.verdicts(mine, chosen.rounds))
        except TooLarge as fault:
            note("%s: not decided: %s" % (program, fault.says))
            yield None, None


def tell_run(asked, verdict):
    """Writes the document with the run of a violation, and says what `watch` says of it; gives the status."""
    made = asked.document(verdict.found, verdict.step.bound or 0)
    answer, status = unity(["watch"], made)
    if status == VIOLATED and verdict.found.cycle is None:
        # (a search by breadth: no run is shorter)
        write(made.encode("latin-1"))
        note(answer.rstrip("\n"))
        return VIOLATED
    if status == VIOLATED:
        note(schedules.shrink(Plan(made)).rstrip("\n"))
        return VIOLATED
    write(made.encode("latin-1"))
    if status == 0:
        note("SPIN and `watch` disagree: SPIN finds %s violated on this schedule, and `watch` does not. "
             "This is an error in one of them; please report it with the document." % verdict.named())
        return DISAGREE
    note("`watch` does not read the proof on this run: " + answer.split("\n")[0])
    return VIOLATED


def main(chosen):
    text = read_document(chosen.file)
    need_answers()
    if not running.is_there():
        raise Failure(1, "SPIN is not there: it wants the programs spin and gcc (apt-get install spin gcc)")
    answer = ask(["check"], text)
    if answer.status > 1:
        note(answer.text.decode("latin-1").rstrip("\n"))
        show(answer.text, chosen.file, text)
        return answer.status
    text = text.decode("latin-1")
    plan, limits, status = Plan(text), running.Limits(chosen.seconds, chosen.memory), 0
    for asked, verdict in all_verdicts(plan, chosen_steps(plan, chosen.steps), limits, chosen):
        if verdict:
            note(verdict.line())
        if verdict and verdict.found.verdict == running.VIOLATED and status != VIOLATED:
            status = tell_run(asked, verdict)
        elif verdict is None or verdict.found.verdict == running.UNDECIDED:
            status = status or UNDECIDED
    return status
