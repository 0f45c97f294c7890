"""A document in the words of its source: tokens, formulas, programs and proofs with their places.

It knows how a document is written and nothing of what is valid: `unity` reads it first and judges.
"""
import bisect
import re

TOKEN = re.compile(r"[A-Za-z][A-Za-z0-9_]*|[0-9]+|:=|::|\.\.|\[\]|<\|\||<\[\]|\|>|\|\||<=|>=|=>|/=|[^\sA-Za-z0-9]")
RELATIONS = ("=", "/=", "<", "<=", ">", ">=")
OPERATORS = ("*", "div", "mod")
REFERENCES = {"conj": 2, "simpleconj": 2, "disj": 2, "simpledisj": 2, "cancel": 2, "union": 2, "until": 2, "detects": 2,
              "constant": 2, "superpose": 1, "complete": 4}
ONE_SIDED = ("defined", "invariant", "stable", "constant", "fixed")


def tokens_of(text):
    """The tokens of a text, each with the places of its begin and its end; comments are left out."""
    plain = re.sub(r"#[^\n]*", lambda found: " " * len(found.group()), text)
    return [(found.group(), found.start(), found.end()) for found in TOKEN.finditer(plain)]


class Node:
    """A part of the source: what it is, its parts, and where it stands."""

    def __init__(self, kind, start, end, *parts, name=None):
        self.kind, self.start, self.end, self.parts, self.name = kind, start, end, parts, name

    def closed(self, reader):
        """It ends with the last token that was read."""
        self.end = reader.last()
        return self


class Reader:
    """Reads the forms of the grammar from a text that `unity` has read."""

    def __init__(self, text, tokens=None, at=0):
        self.text, self.tokens, self.at = text, tokens_of(text) if tokens is None else tokens, at

    def now(self, ahead=0):
        at = self.at + ahead
        return self.tokens[at][0] if at < len(self.tokens) else ""

    def place(self):
        return self.tokens[self.at][1] if self.at < len(self.tokens) else len(self.text)

    def last(self):
        return self.tokens[self.at - 1][2]

    def take(self, wanted=None):
        word = self.now()
        if not word or (wanted and word != wanted):
            raise SystemExit("%s stands where %s is read" % (word or "the end", wanted or "a word"))
        self.at += 1
        return word

    def has(self, word):
        if self.now() == word:
            self.at += 1
            return True
        return False

    def several(self, read, between=","):
        found = [read()]
        while self.has(between):
            found.append(read())
        return found

    # formulas

    def pred(self):
        start, left = self.place(), self.joined()
        if self.has("=>"):
            return Node("imp", start, 0, left, self.joined()).closed(self)
        return left

    def joined(self):
        start, parts = self.place(), [self.unit()]
        word = self.now()
        while word in ("and", "or") and self.has(word):
            parts.append(self.unit())
        return Node(word, start, 0, *parts).closed(self) if len(parts) > 1 else parts[0]

    def unit(self):
        start = self.place()
        if self.has("not"):
            return Node("not", start, 0, self.compare()).closed(self)
        return self.compare()

    def compare(self):
        start, left = self.place(), self.sum()
        if self.now() in RELATIONS:
            relation = self.take()
            return Node("cmp", start, 0, left, self.sum(), name=relation).closed(self)
        return left

    def sum(self):
        start = self.place()
        signs = ["-" if self.has("-") else "+"]
        parts = [self.product()]
        while self.now() in ("+", "-"):
            signs.append(self.take())
            parts.append(self.product())
        if len(parts) == 1 and signs == ["+"]:
            return parts[0]
        return Node("sum", start, 0, *parts, name=signs).closed(self)

    def product(self):
        start, parts, operators = self.place(), [self.atom()], []
        while self.now() in OPERATORS:
            operators.append(self.take())
            parts.append(self.atom())
        return Node("prod", start, 0, *parts, name=tuple(operators)).closed(self) if operators else parts[0]

    def atom(self):
        start = self.place()
        if self.has("("):
            if self.now() in ("all", "any", "sum"):
                kind, name, ends = self.take(), *self.binder()
                self.take("::")
                made = Node(kind, start, 0, self.pred(), name=(name, ends))
            else:
                made = self.pred()
                self.take(")")
                return made
            self.take(")")
            return made.closed(self)
        word = self.take()
        if word.isdigit() or word in ("true", "false"):
            return Node("const", start, self.last(), name=word)
        if self.has("["):
            made = Node("index", start, 0, self.pred(), name=word)
            self.take("]")
            return made.closed(self)
        return Node("word", start, self.last(), name=word)

    def binder(self):
        name = self.take()
        self.take(":")
        return name, self.range()

    def range(self):
        low = self.end()
        self.take("..")
        return low, self.end()

    def end(self):
        """An end of a range, or an argument: its place, a word or None, and a number."""
        start = self.place()
        sign = -1 if self.has("-") else 1
        word = self.take()
        if word.isdigit():
            return start, self.last(), None, sign * int(word)
        more = 0
        if self.now() in ("+", "-") and self.now(1).isdigit():
            sign = 1 if self.take() == "+" else -1
            more = sign * int(self.take())
        return start, self.last(), word, more

    # what a step claims, and what it names

    def claim(self):
        """A step up to its `by`: its parameters, its kind and its sides."""
        self.take()
        made = Record(params=[], p=None, q=None)
        if self.has("("):
            made.params = self.several(self.binder)
            self.take(")")
        self.take(":")
        if self.now() in ONE_SIDED:
            made.kind = self.take()
            made.p = self.pred() if made.kind != "defined" else None
        else:
            made.p, made.kind = self.pred(), self.take()
            made.q = self.pred()
        self.take("by")
        return made

    def reference(self):
        """A step or a statement that is named, with numbers for its parameters or indices."""
        start, word, program, arguments = self.place(), self.take(), None, []
        if self.has("."):
            program, word = word, self.take()
        if self.has("["):
            arguments = self.several(self.end)
            self.take("]")
        return Record(word=word, program=program, arguments=arguments, start=start, end=self.last())


class Record:
    """Named parts of a document."""

    def __init__(self, **parts):
        self.__dict__.update(parts)


class Document(Reader):
    """The programs of a document, where its proofs stand, and its schedule."""

    def __init__(self, text):
        super().__init__(text)
        self.starts = [start for _, start, _ in self.tokens]
        self.programs, self.proofs, self.schedule, self.certificates = {}, [], None, None
        self.scheduled = None
        self.take("unity")
        self.version = self.take()
        while self.now() in ("program", "proof"):
            if self.now() == "program":
                self.read_program()
            else:
                self.read_proof()
        if self.now() == "schedule":
            self.schedule = self.place()
            self.scheduled = self.read_schedule()
        if self.now() == "certificates":
            self.certificates = self.place()
        self.defs = {name: node for it in self.programs.values() for name, node in it.always}
        self.variables = {}
        for it in self.programs.values():
            for variable in it.declared:
                self.variables.setdefault(variable.name, variable)

    # programs

    def read_program(self):
        start = self.place()
        self.take("program")
        name = self.take()
        made = Record(name=name, start=start, declared=[], always=[], initially=None, items=None, parts=None, firsts={})
        self.programs[name] = made
        if self.has("="):
            left = self.take()
            self.take("[]")
            made.parts = (left, self.take())
        else:
            self.read_sections(made)
        self.take("end")

    def read_sections(self, made):
        if self.has("declare"):
            while self.now(1) == ":":
                made.declared.append(self.variable())
        if self.has("always"):
            while self.now(1) == "=":
                name = self.take()
                self.take("=")
                made.always.append((name, self.pred()))
        if self.has("initially"):
            made.initially = self.pred()
        if self.has("start"):
            while self.now() != "assign":
                self.take()
        self.take("assign")
        start = self.place()
        made.items = self.items()
        made.body = self.text[start:self.last()]

    def variable(self):
        name = self.take()
        self.take(":")
        start, places, ends = self.place(), None, None
        if self.has("array"):
            places = self.range()
            self.take("of")
        if self.has("{"):
            while not self.has("}"):
                self.take()
        elif not self.has("boolean"):
            ends = self.range()
        return Record(name=name, text=self.text[start:self.last()], places=places, ends=ends)

    def items(self):
        return self.several(self.item, "[]")

    def item(self):
        if self.has("<[]"):
            binder = self.binder()
            self.take("::")
            inner = self.items()
            self.take("|>")
            return Record(binder=binder, items=inner)
        label = self.take()
        self.take(":")
        return Record(binder=None, label=label, components=self.components())

    def components(self):
        return self.several(self.component, "||")

    def component(self):
        start = self.place()
        if self.has("<||"):
            binder = self.binder()
            self.take("::")
            inner = self.components()
            self.take("|>")
            return Record(binder=binder, components=inner)
        targets = self.several(self.atom)
        self.take(":=")
        choices = self.several(self.alternative, "~")
        return Record(binder=None, targets=targets, choices=choices, start=start, end=self.last())

    def alternative(self):
        values = self.several(self.pred)
        return values, self.pred() if self.has("if") else None

    # proofs: of each its name and where it stands, since what its steps are `unity` tells

    def read_proof(self):
        start = self.place()
        self.take("proof")
        name = self.take()
        while self.now() != "end":
            self.take()
        self.proofs.append(Record(name=name, start=start, end=self.place()))
        self.take("end")

    # the schedule

    def read_schedule(self):
        """The program of a schedule, its choices as texts, and where it ends."""
        self.take("schedule")
        program = self.take()
        self.take(":")
        choices = [] if self.now() == "end" else self.several(self.reference)
        self.take("end")
        return Record(program=program, end=self.last(),
                      choices=["".join(self.words(it.start, it.end).split()) for it in choices])

    # what stands where

    def line(self, at):
        return self.text.count("\n", 0, at) + 1

    def words(self, start, end):
        """What the source has from one place to another, in one line and without comments."""
        return " ".join(re.sub(r"#[^\n]*", "", self.text[start:end]).split())

    def reader(self, at):
        """A reader of the same text that begins at a byte."""
        return Reader(self.text, self.tokens, self.index(at))

    def index(self, at):
        """The number of the first token from a byte on."""
        return bisect.bisect_left(self.starts, at)


def programs_in(document, name):
    """The plain programs of which a program is made."""
    parts = document.programs[name].parts
    return [document.programs[name]] if not parts else [it for part in parts for it in programs_in(document, part)]
