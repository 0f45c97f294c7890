"""Tries a leads-to on all executions of 8 steps, or of as many as --steps says.

Given a document and a program alone, it looks at each leads-to of the program's proof: on all lists of so many choices
`unity replay` tells at which states the left and the right side hold. It prints how many lists there were, and for each
leads-to its bound and the most rounds that it took, as `bound 3, seen 2`. The status is 1 where one took more rounds
than its bound.

P and Q are conditions in Python over v["NAME"], the value of NAME in a trace, a number or true or false. INSTANCE.. are
all instances of the program, as a schedule names them. For each list of 8 of them `unity replay` writes the trace from
the start state, and for each of its states with P whose further choices have BOUND rounds it is looked whether a state
with Q comes by the end of the last of these rounds. It knows nothing of proofs. It prints how many lists and how many
such states there were, and the most rounds that were needed, and exits with 1 at the first without Q.

It wants the built program, or the page's module.
"""
import concurrent.futures
import itertools
import os
import re
import subprocess
import tempfile

from unity_tool.files import read_document, write, write_json
from unity_tool.leads import Looking, leads_of, round_ends, rounds_between
from unity_tool.plan import Plan
from unity_tool.program import ask, need_answers
from unity_tool.repository import UNITY, is_built
from unity_tool.schedules import Scheduled
from unity_tool.trying import number
from unity_tool.wrong_use import Failure, WrongUse

MOST_LISTS = 100000


def value_of(word):
    """A value of a trace: a number or a truth."""
    return int(word) if re.fullmatch("-?[0-9]+", word) else word == "true"


class Bound:
    """A leads-to: its conditions, its bound, the instances of a round, and the most rounds that it took."""

    def __init__(self, chosen):
        self.p, self.q = (compile(text, text, "eval") for text in (chosen.p, chosen.q))
        self.bound, self.instances, self.seen = chosen.bound, set(chosen.instances), 0

    def states_of(self, trace):
        """The states of a trace, each with the choice that led to it and whether P and Q hold."""
        found = []
        for line in trace.split("\n")[1:]:
            words = line.split()
            if words and words[0].isdigit():
                values = {name: value_of(word) for name, word in (it.split("=") for it in words[2 if found else 1:])}
                found.append((words[1] if found else None, bool(eval(self.p, {"v": values})),
                              bool(eval(self.q, {"v": values}))))
        return found

    def last_of(self, ends, begin):
        """The state with which the last round of the bound is over; nothing where there are fewer rounds."""
        for _ in range(self.bound):
            begin = ends[begin] if begin is not None else None
        return begin

    def tried(self, states):
        """How many states with P were tried, and the number of the first without Q."""
        count, ends = 0, round_ends([choice for choice, _, _ in states[1:]], self.instances)
        for begin, (_, holds, _) in enumerate(states):
            last = self.last_of(ends, begin) if holds else None
            if last is None:
                continue
            count += 1
            end = next((at for at in range(begin, last + 1) if states[at][2]), None)
            if end is None:
                return count, begin
            self.seen = max(self.seen, rounds_between(ends, begin, end))
        return count, None


def add_options(parser):
    parser.add_argument("file", metavar="FILE", help="a document")
    parser.add_argument("program", metavar="PROGRAM", help="one of its programs")
    parser.add_argument("p", metavar="P", nargs="?", help="where it begins")
    parser.add_argument("q", metavar="Q", nargs="?", help="what has to come")
    parser.add_argument("bound", metavar="BOUND", nargs="?", type=number, help="within how many rounds")
    parser.add_argument("instances", metavar="INSTANCE", nargs="*", help="an instance of the program")
    parser.add_argument("--steps", metavar="N", type=number, default=8, help="the choices of a list, 8 if not given")
    parser.add_argument("--json", action="store_true", help="print what was seen of the proof's leads-to as JSON")


def replayed(text):
    """The trace of a small document, by the built program; there are thousands of them."""
    with tempfile.TemporaryFile() as given:
        given.write(text)
        given.seek(0)
        return subprocess.run([UNITY, "replay"], stdin=given, stdout=subprocess.PIPE, check=False,
                              close_fds=False).stdout


def lists(instances, steps):
    """All lists of so many choices, in their order: the first choice changes fastest."""
    return (list(reversed(each)) for each in itertools.product(instances, repeat=steps))


def traces(document, program, instances, steps):
    """The traces of all lists of choices, in their order."""
    texts = (document + b"schedule %s : %s end\n" % (program.encode(), ", ".join(each).encode())
             for each in lists(instances, steps))
    replay = replayed if is_built() else lambda text: ask(["replay"], text).text
    with concurrent.futures.ThreadPoolExecutor(os.cpu_count()) as pool:
        while batch := list(itertools.islice(texts, 256)):
            yield from (trace.decode("latin-1") for trace in pool.map(replay, batch))


def try_conditions(chosen, text):
    """Tries the leads-to that the words have."""
    document = re.split(rb"(?m)^(?:certificates|schedule)", text)[0]
    bound, count, at = Bound(chosen), 0, 0
    for at, trace in enumerate(traces(document, chosen.program, chosen.instances, chosen.steps), 1):
        tried, failed = bound.tried(bound.states_of(trace))
        count += tried
        if failed is not None:
            print("no state with Q: list %d, state %d" % (at, failed))
            return 1
    print("%d lists, %d states, bound %d, seen %d" % (at, count, bound.bound, bound.seen))
    return 0


def try_proof(chosen, text):
    """Tries each leads-to of the program's proof."""
    plan = Plan(text.decode("latin-1"))
    watched, status = Scheduled(plan, chosen.program).watch([])
    if status:
        write(watched.encode("latin-1"))
        return status
    instances = plan.instances(chosen.program)
    count = len(instances) ** chosen.steps
    if count > MOST_LISTS:
        raise Failure(64, "there are %d lists of %d choices: take less than --steps %d" % (
            count, chosen.steps, chosen.steps))
    looking = Looking(plan, chosen.program, leads_of(plan, chosen.program))
    with concurrent.futures.ThreadPoolExecutor(os.cpu_count()) as pool:
        list(pool.map(looking.look, lists(instances, chosen.steps)))
    if chosen.json:
        write_json({"file": chosen.file, "program": chosen.program, "lists": count, "looked": looking.schedules,
                    "bounds": [lead.record() for lead in looking.leads]})
    else:
        print("\n".join(["%d lists" % count] + looking.told(count)))
    return int(any((lead.seen or 0) > lead.bound for lead in looking.leads))


def main(chosen):
    text = read_document(chosen.file)
    need_answers()
    if chosen.p is not None:
        if not chosen.instances or chosen.json:
            raise WrongUse
        return try_conditions(chosen, text)
    answer = ask(["check"], text)
    if answer.status > 1:
        write(answer.text)
        return answer.status
    return try_proof(chosen, text)
