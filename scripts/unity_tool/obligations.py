"""What `unity obligations` tells of a document: its steps, each with its place, its kind and its bound, and what each
leaves to be shown: the part of the rule that it comes from, and a script for a solver."""
import re
from typing import NamedTuple, Tuple

from unity_tool.program import ask

HEAD = re.compile(r"; unity obligations: (\d+) steps (\d+) obligations")
STEP = re.compile(r"; step (\w+)\.(\w+) byte (\d+) line (\d+) (\w+)(?: (\d+))?")
OBLIGATION = re.compile(r"; obligation (\d+) (\w+\.\w+) (.+)")
# each origin: what it is called here, how `unity` writes it, and how it is said of a refutation
ORIGINS = [
    ("defined", r"(\S+) is defined", r"\1 is defined"),
    ("start", r"start", "it holds at the start"),
    ("keeps", r"(\S+) keeps it", r"\1 keeps it"),
    ("goes", r"after (\S+) the left or the right side holds", r"\g<0>"),
    ("helps", r"(\S+) helps", r"\1 helps: after it the right side holds"),
    ("meant", r"some statement is meant", r"\g<0>"),
    ("rests", r"(\S+) leaves the state as it is", r"\1 leaves such a state as it is"),
    ("implied", r"left side gives right side", r"\g<0>"),
    ("left", r"left side", r"\g<0>"),
    ("right", r"right side", r"\g<0>"),
    ("measure", r"the metric is in range", r"\g<0>"),
    ("shown", r"(\S+) is kept by the union", r"\g<0>"),
    ("begins", r"(\S+) begins where (\S+) may", r"\g<0>"),
]
# those of which the first name is an instance
OF_INSTANCES = ("defined", "keeps", "goes", "helps", "rests")


class Obligation(NamedTuple):
    """What is left to be shown: its number in the document, where it comes from, and the lines of its script."""
    number: int
    origin: str
    script: Tuple[str, ...]

    def comes(self):
        """What its origin is called here, the names in it, and how it is said."""
        for kind, form, says in ORIGINS:
            found = re.fullmatch(form, self.origin)
            if found:
                return kind, found.groups(), found.expand(says)
        return "", (), self.origin

    def kind(self):
        return self.comes()[0]

    def names(self):
        return self.comes()[1]

    def says(self):
        return self.comes()[2]

    def instance(self):
        """The instance that it is about, where it is about one."""
        return self.names()[0] if self.kind() in OF_INSTANCES else None


class Step(NamedTuple):
    """A step: the byte at which its name begins and the line of it, from 1, its kind and its bound as `check` writes
    them, and its obligations."""
    program: str
    name: str
    byte: int
    line: int
    kind: str
    bound: str
    obligations: Tuple[Obligation, ...]

    def named(self):
        return "%s.%s" % (self.program, self.name)

    def record(self):
        """Its kind and its bound."""
        return " ".join(filter(None, (self.kind, self.bound)))


def steps_in(lines):
    """The steps in the lines of the text, as they come."""
    step, each = None, []
    for line in lines:
        begins = STEP.fullmatch(line)
        if begins:
            yield from completed(step, each)
            program, name, byte, number, kind, bound = begins.groups()
            step, each = Step(program, name, int(byte), int(number), kind, bound or "", ()), []
        elif OBLIGATION.fullmatch(line):
            number, _, origin = OBLIGATION.fullmatch(line).groups()
            each.append((int(number), origin, []))
        elif each:
            each[-1][2].append(line)
    yield from completed(step, each)


def completed(step, each):
    """A step with its obligations, where there is one."""
    if step:
        yield step._replace(obligations=tuple(Obligation(number, origin, tuple(script))
                                              for number, origin, script in each))


def steps_of(text):
    """The steps of a document in bytes; nothing where it does not read, or a step does not follow its rule."""
    answer = ask(["obligations"], text)
    return list(steps_in(answer.text.decode("latin-1").splitlines())) if answer.status == 0 else None


def accepted_text(text):
    """What `check` writes of a document whose certificates are right, by what `obligations` writes of it."""
    lines = text.decode("latin-1").splitlines()
    head = "accepted %s steps %s obligations" % HEAD.fullmatch(lines[0]).groups()
    steps = ["%s %s" % (it.named(), it.record()) for it in steps_in(lines)]
    return "".join(line + "\n" for line in [head, *steps]).encode("latin-1")
