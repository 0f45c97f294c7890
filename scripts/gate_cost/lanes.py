"""What sampled work would take on so many processors: a copy of how `rt ci` gives it to its lanes, with RT_JOBS set."""
from collections import namedtuple

from kinds import RT, SCRIPTS

# What a task waits for, the lines by which its place in the queue goes, and its seconds.
Task = namedtuple("Task", "waits lines seconds")
# What fills the lanes that no proof takes.
FILLS = ("edits", "seed")


class Seconds:
    """Sampled seconds, as the tasks of a crate."""

    def __init__(self, seconds):
        self.seconds = seconds

    def of(self, crate, *wanted):
        """Seconds of the kinds and parts that are wanted of a crate."""
        return sum(self.seconds.get((crate, kind, part), 0) for kind, part in wanted)

    def proof(self, crate):
        return self.of(crate, ("proof", ""), ("linking", "proof"), ("other", ""))

    def tests(self, crate):
        return self.of(crate, ("tests", ""), ("linking", "tests"))

    def edits(self, crate):
        """The numbers of the edits that were tried, with their seconds."""
        numbered = {int(part): each for (name, kind, part), each in self.seconds.items()
                    if name == crate and kind == "edits" and part.isdigit()}
        whole = self.of(crate, ("edits", "whole"))
        if whole and not numbered:
            return {0: whole}
        return {number: each + whole / len(numbered) for number, each in numbered.items()}

    def after(self):
        """Seconds of the programs and tests, which run one after the other once all is proved."""
        return sum(each for (_, kind, part), each in self.seconds.items() if (kind, part) == ("other", "run"))

    def row(self, name):
        """Seconds of a row that is no crate."""
        return sum(each for (crate, _, _), each in self.seconds.items() if crate == name)


def tasks_of(crates, seconds):
    """The tasks, each behind those that it waits for."""
    tasks = {}
    for crate in crates:
        name, below = crate.name, [(it, "proof") for it in crate.below]
        tests, edits = seconds.tests(name), seconds.edits(name)
        tasks[name, "proof"] = Task(below, crate.lines, seconds.proof(name))
        tasks[name, "tests"] = Task(below, crate.lines * bool(tests), tests)
        after = [(name, "proof"), (name, "tests"), (name, "seed")]
        tasks[name, "seed"] = Task(below, 0, seconds.of(name, ("edits", "seed")))
        for number, each in sorted(edits.items()):
            tasks[name, "edits", number] = Task(after, crate.lines, each)
        every = [*[(name, "edits", number) for number in edits], (name, "seed")]
        tasks[name, "sound"] = Task(every, 0, seconds.of(name, ("edits", "sound")))
    return tasks


def chains(tasks, work):
    """The most work that hangs on each task, itself among it."""
    behind = dict.fromkeys(tasks, 0)
    for key in reversed(list(tasks)):
        behind[key] += work(tasks[key])
        for it in tasks[key].waits:
            behind[it] = max(behind[it], behind[key])
    return behind


def schedule(tasks, lanes):
    """Seconds until all is done in so many lanes. Of what is ready, what has the longest chain of lines comes first."""
    behind = chains(tasks, lambda it: it.lines)
    left = sorted(tasks, key=lambda it: (it[1] in FILLS, -behind[it]))
    now, running, done = 0, {}, set()
    while left or running:
        for key in [it for it in left if done.issuperset(tasks[it].waits)]:
            if len(running) < lanes:
                left.remove(key)
                running[key] = now + tasks[key].seconds
        now = min(running.values())
        ended = [key for key, end in running.items() if end <= now]
        done.update(ended)
        for key in ended:
            del running[key]
    return now


def with_rt(tasks, more):
    """The tasks with what `rt` itself takes between them, which is the same for each that takes something."""
    some = sum(it.seconds > 0 for it in tasks.values())
    return {key: it._replace(seconds=it.seconds + more / some) if it.seconds else it for key, it in tasks.items()}


class Forecast:
    """What the gate would take: `rt` alone, then the lanes, then programs and tests in turn, then the scripts."""

    def __init__(self, crates, seconds, start, side_by_side):
        self.seconds, self.start, self.side_by_side = Seconds(seconds), start, side_by_side
        tasks = tasks_of(crates, self.seconds)
        self.tasks = with_rt(tasks, max(0, self.seconds.row(RT) - start))

    def proofs(self, lanes):
        """Seconds of `rt ci`."""
        return self.start + schedule(self.tasks, lanes) + self.seconds.after()

    def scripts(self, lanes):
        """Seconds of what runs beside `rt ci`, no more of it at a time than in the sampled run."""
        return self.seconds.row(SCRIPTS) / max(0.1, min(lanes, self.side_by_side))

    def chain(self):
        """Seconds of the longest chain of tasks that wait for each other."""
        return max(chains(self.tasks, lambda it: it.seconds).values(), default=0)
