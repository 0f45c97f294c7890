"""Schedules of a document, watched: random ones, and one with fewer choices."""
import random
import re
import textwrap
from typing import NamedTuple, Optional

from unity_tool.files import write
from unity_tool.leads import Looking, leads_of
from unity_tool.program import unity

# a random schedule has so many rounds more than the greatest bound of the proof, and no more choices than these
MORE_ROUNDS = 8
MOST_CHOICES = 50000


class Scheduled:
    """A document with schedules of one of its programs."""

    def __init__(self, plan, program):
        text = plan.document.text
        self.plan, self.program = plan, program
        if plan.document.scheduled:
            self.before, self.after = text[:plan.document.schedule], text[plan.document.scheduled.end:]
        else:
            at = plan.document.certificates or len(text)
            self.before, self.after = text[:at].rstrip("\n") + "\n", "\n" + text[at:]

    def text(self, choices):
        lines = textwrap.fill(", ".join(choices), 100, initial_indent="  ", subsequent_indent="  ",
                              break_long_words=False, break_on_hyphens=False)
        listed = "\n%s\n" % lines if choices else " "
        return "%sschedule %s :%send%s" % (self.before, self.program, listed, self.after)

    def watch(self, choices):
        """What `unity watch` says of these choices, and its status."""
        return unity(["watch"], self.text(choices))

    def broken(self, choices):
        """The step that is violated, the choices up to that place and the answer; None where none is violated."""
        answer, status = self.watch(choices)
        found = re.match(r"violated (\S+) place (\d+)", answer)
        return (found.group(1), choices[:int(found.group(2))], answer) if status == 10 else None

    def write(self, choices):
        write(self.text(choices).encode("latin-1"))


def shuffled(items, draw):
    for at in range(len(items) - 1, 0, -1):
        other = draw(at + 1)
        items[at], items[other] = items[other], items[at]
    return items


def fair(instances, rounds, draw):
    """Choices in so many parts: in each every instance comes once, and some of them more often, in any order."""
    choices = []
    for _ in range(rounds):
        busy = [it for it in instances if draw(2)] or instances
        again = [busy[draw(len(busy))] for _ in range(draw(4) * len(instances))]
        choices += shuffled(instances + again, draw)
        if len(choices) > MOST_CHOICES:
            break
    return choices


class Trial(NamedTuple):
    """What became of random schedules: a status, what `unity` said or what is said of all of them, the leads-to with
    the rounds that they took, and the choices of the schedule on which a step is violated."""
    status: int
    says: str
    leads: list
    choices: Optional[list] = None


def try_some(scheduled, count, seed, step=None):
    """Watches random schedules of a program up to the first on which a step is violated, this one where it is given."""
    plan, program = scheduled.plan, scheduled.program
    answer, status = scheduled.watch([])
    if status:
        return Trial(status, answer.rstrip("\n"), [], [] if status == 10 else None)
    looking = Looking(plan, program, leads_of(plan, program))
    source, instances, others = random.Random(seed), plan.instances(program), 0
    rounds = max([lead.bound for lead in looking.leads] + [0]) + MORE_ROUNDS

    def draw(most):
        # of all that Random gives, this alone stays the same from one Python to the next
        return int(source.random() * most)

    for number in range(1, count + 1):
        choices = fair(instances, rounds, draw)
        found = scheduled.broken(choices)
        if found and step in (None, found[0]):
            return Trial(10, "%sschedule %d of %d" % (found[2], number, count), looking.leads, found[1])
        others += bool(found)
        looking.look(found[1] if found else choices)
    says = ["none of %d schedules is violated" % count if step is None else
            "%s is violated on none of %d schedules" % (step, count)]
    says += ["on %d of them another step is violated first" % others] if others else []
    return Trial(0, "\n".join(says + looking.told(count)), looking.leads)


def shrink(plan):
    """Drops choices in blocks, ever smaller ones, and one by one until none can be dropped. Gives what is said of the
    document that it writes."""
    scheduled = Scheduled(plan, plan.document.scheduled.program)
    step, choices, answer = scheduled.broken(plan.document.scheduled.choices)
    size = max(1, len(choices) // 2)
    while True:
        before = len(choices)
        choices, answer = without_blocks(scheduled, step, choices, answer, size)
        if size == 1 and len(choices) == before:
            break
        size = max(1, size // 2)
    scheduled.write(choices)
    return "%s%d of %d choices" % (answer, len(choices), len(plan.document.scheduled.choices))


def without_blocks(scheduled, step, choices, answer, size):
    """The choices that are left once blocks of this size are dropped, from the last to the first, where the same step
    is still violated; and what `watch` says of them."""
    at = len(choices) - size
    while at > -size:
        found = scheduled.broken(choices[:max(at, 0)] + choices[at + size:])
        if found and found[0] == step:
            _, choices, answer = found
            at = min(at, len(choices))
        at -= size
    return choices, answer
