"""Tries random schedules of a program.

It makes COUNT schedules of PROGRAM, asks `unity watch` of each in turn, and ends with the first one on which a step is
violated: the document goes to standard output, with this schedule, cut at the place of the violation, for its own, and
to standard error what `unity` said, and the number of the schedule. Where none is violated nothing goes to standard
output, and standard error has for each leads-to its bound and the most rounds that it took, as `bound 12, seen 7`. It
exits with the status of `unity`: 10 where a step is violated, and 0 where none is.

With --step NAME it looks for a violation of this step alone: the document that it watches, and writes, has of the
proofs only this step and what it is made of. An invariant after its `using` is left out, if it is a step by `text`.
Where another step is violated first the schedule counts as one without a violation.

The schedules are fair: each has eight parts more than the greatest bound of the proof's steps, and in a part every
instance comes once, and some of them, at random, more often, in random order. After 50,000 choices no more parts
follow. The same SEED, a number, gives the same schedules. First the start state alone is watched. Rounds are counted on
as many schedules as have together 4,000,000 truths of left and right sides. Where a step does not follow its rule, it
shows the line of that step on standard error. It wants the built program, or the page's module.
"""
import re
import sys

from unity_tool.cost import slice_of
from unity_tool.files import read_document, write_json
from unity_tool.places import show
from unity_tool.plan import Plan, closure
from unity_tool.program import ask, need_answers
from unity_tool.schedules import Scheduled, try_some
from unity_tool.wrong_use import Failure, WrongUse


def number(word):
    """The number of a word of digits alone."""
    if not re.fullmatch("[0-9]+", word):
        raise WrongUse
    return int(word)


def add_options(parser):
    parser.add_argument("file", metavar="FILE", help="a document")
    parser.add_argument("program", metavar="PROGRAM", help="one of its programs")
    parser.add_argument("count", metavar="COUNT", type=number, help="how many schedules")
    parser.add_argument("seed", metavar="SEED", type=number, help="a number that determines them")
    parser.add_argument("--step", metavar="NAME", help="look for a violation of this step of the program's proof alone")
    parser.add_argument("--json", action="store_true", help="print what was found, with the document, as JSON")


def say(answer):
    sys.stderr.buffer.write(answer)
    sys.stderr.flush()


def part_of(plan, program, name):
    """The document with this step of the program's proof, and what it is made of."""
    step = plan.find(program, name)
    if step is None:
        names = ", ".join(it.name for it in plan.steps if it.program == program)
        raise Failure(64, "the proof of %s has no step %s, but %s" % (program, name, names or "none"))
    if step.rule != "text" or not step.using:
        return slice_of(plan, closure(plan, [step]))
    text = plan.document.text
    alone = text[step.start:text.rindex("using", step.start, step.using[0].start)].rstrip() + ";"
    whole = [it for it in plan.steps if it.program == program and it.kind == "defined"]
    return slice_of(plan, {step} | closure(plan, whole), {step: alone})


def tell_json(chosen, trial, scheduled):
    """Prints what was found for a tool that reads it."""
    made = {"file": chosen.file, "program": chosen.program, "status": trial.status,
            "message": trial.says.split("\n")[0], "answer": trial.says, "bounds": [it.record() for it in trial.leads]}
    if trial.choices is not None:
        made["schedule"], made["document"] = trial.choices, scheduled.text(trial.choices)
    write_json(made)


def main(chosen):
    text = read_document(chosen.file)
    need_answers()
    answer = ask(["check"], text)
    if answer.status > 1:
        say(answer.text)
        show(answer.text, chosen.file, text)
        return answer.status
    plan, name = Plan(text.decode("latin-1")), chosen.step
    if chosen.program not in plan.document.programs:
        raise Failure(64, "%s has no program %s, but %s" % (chosen.file, chosen.program,
                                                            ", ".join(plan.document.programs)))
    if name:
        name = name[len(chosen.program) + 1:] if name.startswith(chosen.program + ".") else name
        plan = Plan(part_of(plan, chosen.program, name))
    scheduled = Scheduled(plan, chosen.program)
    trial = try_some(scheduled, chosen.count, chosen.seed, name and "%s.%s" % (chosen.program, name))
    if chosen.json:
        tell_json(chosen, trial, scheduled)
        return trial.status
    if trial.choices is not None:
        scheduled.write(trial.choices)
    said = trial.says.encode("latin-1") + b"\n"
    say(said)
    if trial.status == 1:
        show(said, chosen.file, text)
    return trial.status
