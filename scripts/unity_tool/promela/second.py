"""What SPIN says of a refutation, within ten seconds: whether a run comes to the state, and by which choices; and of a
claim of progress, or of one that such a claim rests on, whether a fair run never comes to its end. UNITY_SPIN=0 lets it
be."""
import os
import re

from unity_tool.plan import Plan, closure
from unity_tool.program import unity
from unity_tool.promela import claims, running
from unity_tool.promela.asked import Asked
from unity_tool.promela.formulas import TooLarge

SECONDS, MEMORY = 10, 1000
MOST_SHOWN = 30
REPORT = ", and the replay does not: please report this with the document"


def is_asked():
    return os.environ.get("UNITY_SPIN") != "0" and running.is_there()


def tell(text, answer):
    """Prints what SPIN says of an answer that refutes a step."""
    named = re.match(r"refuted (\w+)\.(\w+) obligation (\d+)\n", answer)
    if not named or not is_asked():
        return
    plan = Plan(text)
    step = plan.find(named.group(1), named.group(2))
    values = dict(line.split(" = ") for line in answer.split("\n")[1:] if " = " in line)
    values = {name: value for name, value in values.items() if name.partition("[")[0] in plan.document.variables}
    ends = claims_to_come(plan, step)
    limits = running.Limits(SECONDS, MEMORY)
    try:
        asked = Asked(plan, step.program, limits)
        asked.now = limits.part(1 + len(ends))
        print(of_state(asked, values))
        for at, one in enumerate(ends):
            asked.now = limits.part(len(ends) - at)
            print(of_end(asked, one))
    except TooLarge as fault:
        print("SPIN is not asked: " + fault.says)


def claims_to_come(plan, step):
    """The claim of progress that fails, and the last one of its proof that rests on it."""
    progress = [it for it in plan.steps_beside(step) if it.kind in claims.PROGRESS]
    resting = [it for it in progress if it is not step and step.kind in claims.PROGRESS and step in closure(plan, [it])]
    return [it for it in progress if it is step] + resting[-1:]


# the state

def of_state(asked, values):
    """Whether a run comes to a state with these values."""
    found = asked.reached(values)
    if found.verdict == running.HOLDS:
        return "SPIN comes to no such state, in the %d states %s; that is its word, and no proof" % (
            found.states, asked.where)
    if found.verdict == running.UNDECIDED:
        return "SPIN did not decide whether a run comes to this state: " + found.why
    if not is_replayed(asked, found, values):
        return "SPIN says that a run comes to this state" + REPORT
    return "a run comes to this state, found by SPIN and replayed: " + (
        listed(found.choices) or "it is an initial state")


def listed(choices):
    return ", ".join(choices[:MOST_SHOWN]) + (", .." if len(choices) > MOST_SHOWN else "")


def states_of(asked, found):
    """The states of a replay of a run, as texts; none where it can't be replayed."""
    answer, status = unity(["replay"], asked.from_initial(found))
    rows = re.findall(r"(?m)^\d+ ?(.*)$", answer) if status == 0 else []
    return [" ".join(word for word in row.split(" ") if "=" in word) for row in rows]


def is_replayed(asked, found, values):
    """Whether the last state of a replay has these values."""
    states = states_of(asked, found)
    last = dict(word.split("=", 1) for word in states[-1].split(" ") if word) if states else {}
    return bool(states) and all(last.get(name) == value for name, value in values.items() if name in last)


# the end that may never come

def of_end(asked, step):
    """Whether a fair run never comes to the end of a claim of progress."""
    found, says = asked.comes([step]), "never comes to the end of %s.%s" % (step.program, step.name)
    if found.verdict == running.HOLDS:
        return "SPIN finds no fair run that %s, in the %d states %s; that is its word, and no proof" % (
            says, found.states, asked.where)
    if found.verdict == running.UNDECIDED:
        return "SPIN did not decide whether a fair run %s: %s" % (says, found.why)
    before, again = found.choices[:found.cycle], found.choices[found.cycle:]
    if not is_circle(asked, found):
        return "SPIN says that a fair run %s%s" % (says, REPORT)
    return "a fair run %s, found by SPIN and replayed: %s again and again%s" % (
        says, listed(again), ", after " + listed(before) if before else "")


def is_circle(asked, found):
    """Whether a replay comes back to the state at which the cycle begins, and each instance is in the cycle."""
    states = states_of(asked, found)
    again = set(found.choices[found.cycle:])
    return len(states) == len(found.choices) + 1 and states[found.cycle] == states[-1] and all(
        name in again for name, _ in asked.model.instances)
