"""How many rounds the leads-to of a proof took on schedules, beside their bounds.

A leads-to from P to Q with the bound B says that from each state with P a state with Q comes by the end of the B-th
round from there. A round is over when each instance has had its turn. At which states of a schedule P and Q hold,
`unity` says: a statement that looks stands before each choice and at the end, and writes their truth into variables of
its own.
"""
import threading

from unity_tool.formulas import value_of
from unity_tool.probe import bodies, declared, heading, start_of, unused
from unity_tool.program import unity

# so many truths are asked of one replay, and of all replays together
AT_ONCE, MOST_TRUTHS = 100, 4000000


class Lead:
    """A leads-to: its name, its bound, and the most rounds that it took so far; nothing where it never began."""

    def __init__(self, step):
        self.step, self.bound, self.seen = step, step.bound, None
        self.left, self.right = (step.q, step.p) if step.kind == "detects" else (step.p, step.q)

    def took(self, rounds):
        self.seen = max(rounds, self.seen or 0)

    def record(self):
        """For a tool that reads it."""
        return {"step": self.step.named(), "bound": self.bound, "seen": self.seen}

    def __str__(self):
        seen = "never began" if self.seen is None else "seen %d" % self.seen
        return "%s.%s bound %d, %s" % (self.step.program, self.step.name, self.bound, seen)


def numbers_of(params, numbers=None):
    """The numbers that parameters may have together."""
    numbers = numbers or {}
    if not params:
        return [numbers]
    name, (low, high) = params[0]
    ends = range(value_of(low, numbers), value_of(high, numbers) + 1)
    return [more for number in ends for more in numbers_of(params[1:], {**numbers, name: number})]


def leads_of(plan, program):
    """The leads-to of a program's proof."""
    return [Lead(step) for step in plan.steps if step.program == program and step.bound is not None]


def bits(number):
    """The places of the ones of a number."""
    while number:
        least = number & -number
        yield least.bit_length() - 1
        number ^= least


def round_ends(choices, instances):
    """For each state of a schedule the state with which the round from there is over, or nothing."""
    found, counts, missing, end = [], dict.fromkeys(instances, 0), len(instances), 0
    for choice in choices:
        while missing and end < len(choices):
            missing -= counts[choices[end]] == 0
            counts[choices[end]] += 1
            end += 1
        found.append(None if missing else end)
        counts[choice] -= 1
        missing += counts[choice] == 0
    return found + [None]


def rounds_between(ends, begin, end):
    """In which round from a state another one comes: 0 for the state itself."""
    rounds = int(end > begin)
    while ends[begin] is not None and ends[begin] < end:
        begin, rounds = ends[begin], rounds + 1
    return rounds


def whole_rounds(ends, begin):
    """How many rounds are over between a state and the end of the schedule."""
    whole = 0
    while ends[begin] is not None:
        begin, whole = ends[begin], whole + 1
    return whole


def start_values(plan, program):
    """The values at the start of a program."""
    text, _ = unity(["run", program, 0], plan.document.text)
    return dict(word.split("=", 1) for word in text.split("\n")[1].split(" ")[1:])


class Looking:
    """What looks at the leads-to of a program's proof on schedules of it."""

    def __init__(self, plan, program, leads):
        self.plan, self.program, self.leads = plan, program, leads
        self.name, self.truths, self.schedules = unused(plan.document.text), 0, 0
        self.counting = threading.Lock()
        self.start = start_of(start_values(plan, program)) if leads else ""
        pairs = [(lead, numbers) for lead in leads for numbers in numbers_of(lead.step.params)]
        self.groups = [pairs[at:at + AT_ONCE // 2] for at in range(0, len(pairs), AT_ONCE // 2)]

    def look(self, choices):
        """Looks at one schedule, unless that would be too much. Several may be looked at side by side."""
        if not self.takes(sum(map(len, self.groups)) * 2 * (len(choices) + 1)):
            return
        ends = round_ends(choices, self.plan.instances(self.program))
        for pairs in self.groups:
            states = self.states(pairs, choices)
            with self.counting:
                self.count(pairs, states, ends)

    def takes(self, truths):
        """Whether so many truths more are not too many."""
        with self.counting:
            if not truths or self.truths + truths > MOST_TRUTHS:
                return False
            self.truths, self.schedules = self.truths + truths, self.schedules + 1
            return True

    def states(self, pairs, choices):
        """For each state the pairs whose left side holds, and those whose right side does, as bits."""
        text, _ = unity(["replay"], self.document(pairs, choices))
        begin, known, found = " %s0=" % self.name, {}, []
        for line in text.split("\n"):
            if line.split(" ", 2)[1:2] == [self.name + "_look"]:
                tail = line[line.index(begin):]
                if tail not in known:
                    truths = [word.endswith("=true") for word in tail.split()]
                    known[tail] = [sum(1 << at for at in range(len(pairs)) if truths[2 * at + side]) for side in (0, 1)]
                found.append(known[tail])
        return found

    def document(self, pairs, choices):
        """The program with a statement that looks, and these choices between its looks."""
        asked = ["%s%d" % (self.name, at) for at in range(2 * len(pairs))]
        sides = [str(self.plan.formula(node, numbers)) for lead, numbers in pairs for node in (lead.left, lead.right)]
        look = self.name + "_look"
        return "%s%s%sassign\n  %s: %s := %s\n  [] %s\nend\nschedule Probe : %s end\n" % (
            heading(self.plan), declared(self.plan, [(it, "boolean") for it in asked]), self.start, look,
            ", ".join(asked), ", ".join(sides), "\n  [] ".join(bodies(self.plan, self.program)),
            ", ".join([look] + [it for choice in choices for it in (choice, look)]))

    def count(self, pairs, states, ends):
        """Counts rounds from the earliest state with a left side to the first with the right side. Where that has not
        come after some whole rounds it takes at least one more."""
        waits, begun = 0, {}
        for at, (left, right) in enumerate(states):
            for pair in bits(left & ~waits):
                begun[pair] = at
            waits |= left
            for pair in bits(waits & right):
                pairs[pair][0].took(rounds_between(ends, begun[pair], at))
            waits &= ~right
        for pair in bits(waits):
            whole = whole_rounds(ends, begun[pair])
            if whole:
                pairs[pair][0].took(whole + 1)

    def told(self, schedules):
        """A line for each leads-to, and one more where only some of the schedules were looked at."""
        lines = [str(lead) for lead in self.leads]
        if self.groups and self.schedules < schedules:
            lines.append("these rounds are of the first %d of %d schedules" % (self.schedules, schedules))
        return lines
