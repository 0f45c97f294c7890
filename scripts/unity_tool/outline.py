"""What each name in a text means, by the tokens alone, so that a text which is half typed has an outline too.

Variables, always names and words of enumerations are one each in a document, labels one in each program, steps one in
each proof, and bound names and parameters one from the place that binds them to the end of what they are bound in.
"""
from typing import NamedTuple, Optional

from unity_tool.document import REFERENCES, tokens_of
from unity_tool.words import kind_of_word

PROGRAM, VARIABLE, DEFINED, VALUE, LABEL, STEP, BOUND = (
    "program", "variable", "always name", "value", "label", "step", "bound name")
PARTS = ("declare", "always", "initially", "start", "assign")
CLOSES = {"(": ")", "[": "]", "{": "}", "<[]": "|>", "<||": "|>"}
BINDS = ("all", "any", "sum", "exists", "induct")


class Name(NamedTuple):
    """A name at a place: what it is, whose, and whether it is declared there."""
    kind: str
    owner: str
    word: str
    start: int
    end: int
    declares: bool
    after: str = ""

    def meant(self):
        return self.kind, self.owner, self.word


class Fold(NamedTuple):
    """A part of a document that can be folded."""
    kind: str
    name: str
    start: int
    end: int


class Outline:
    """The names of a text in order, and its parts."""

    def __init__(self, latin):
        self.tokens = tokens_of(latin)
        self.latin, self.names, self.folds = latin, [], []
        self.at, self.part, self.program = 0, "", ""
        self.bound, self.open, self.terms, self.wanted = [], [], [], 0
        self.rule, self.parts_of = False, {}
        self.top = {}
        self.collect()
        while self.at < len(self.tokens):
            self.token()
        self.close_part(len(latin))

    def word(self, ahead=0):
        at = self.at + ahead
        return self.tokens[at][0] if 0 <= at < len(self.tokens) else ""

    # names that are one in a document

    def collect(self):
        """What is declared anywhere, since a use may stand before a text's last edit."""
        part, program = "", ""
        for at, (word, _, _) in enumerate(self.tokens):
            after = self.tokens[at + 1][0] if at + 1 < len(self.tokens) else ""
            before = self.tokens[at - 1][0] if at else ""
            if before == "program" and is_name(word):
                program = word
                if after == "=":
                    self.parts_of[program] = [it[0] for it in self.tokens[at + 2:at + 5:2]]
            if word in PARTS + ("proof", "schedule", "program"):
                part = word
            elif part == "declare" and is_name(word):
                self.top[word] = VARIABLE if after == ":" else self.top.get(word, VALUE)
            elif part == "always" and is_name(word) and after == "=" and self.begins(at):
                self.top[word] = DEFINED
            elif part == "assign" and is_name(word) and after == ":":
                self.top.setdefault((program, word), LABEL)

    def begins(self, at):
        """Whether a name before `=` begins an always name: what stands before it ends a formula, and it is no part of
        a comparison."""
        before = self.tokens[at - 1][0]
        return before == "always" or before in (")", "]", "true", "false") or before.isalnum() and (
            before not in kind_of_word())

    # a walk over all tokens

    def token(self):
        word, start, end = self.tokens[self.at]
        if word in ("program", "proof", "schedule"):
            self.head(word, start)
        elif word == "end":
            self.close_part(end)
        elif word in PARTS and self.part != "proof":
            self.part = word
        elif word in CLOSES:
            self.open_bracket(word)
        elif word in CLOSES.values():
            self.close_bracket(word)
        elif word == ";":
            self.bound, self.open, self.terms, self.rule, self.wanted = [], [], [], False, 0
        elif self.part == "proof":
            self.in_proof(word, start, end)
        elif is_name(word):
            self.in_program(word, start, end)
        self.at += 1

    def head(self, word, start):
        if self.folds and self.folds[-1].end < 0:
            self.close_part(start)
        self.part, self.program = word, self.word(1) if is_name(self.word(1)) else ""
        self.folds.append(Fold(word, self.program, start, -1))
        if self.program:
            self.at += 1
            self.add(PROGRAM, "", word == "program")
        while word == "program" and self.word(1) in ("=", "[]"):
            self.at += 2
            if is_name(self.word()):
                self.add(PROGRAM, "", False)

    def close_part(self, end):
        if self.folds and self.folds[-1].end < 0:
            self.folds[-1] = self.folds[-1]._replace(end=end)
        self.part, self.bound, self.open, self.terms, self.rule = "", [], [], [], False

    def add(self, kind, owner, declares):
        word, start, end = self.tokens[self.at]
        self.names.append(Name(kind, owner, word, start, end, declares, self.part))

    # brackets, and what they bind

    def open_bracket(self, word):
        before = self.word(-1)
        binds = word in ("<[]", "<||") or word == "(" and (before in BINDS[3:] or self.word(1) in BINDS[:3])
        self.open.append((word, len(self.bound)))
        if self.rule and word == "(" and before == "psp":
            self.terms.append(len(self.open))
        if binds:
            self.at += word == "(" and self.word(1) in BINDS[:3]
            self.bind()
        elif word == "(" and self.part == "proof" and not self.rule and self.is_step(self.at - 1):
            self.parameters()

    def bind(self):
        if is_name(self.word(1)) and self.word(2) == ":":
            self.at += 1
            self.bound.append((self.word(), self.tokens[self.at][1]))
            self.add(BOUND, str(self.tokens[self.at][1]), True)

    def parameters(self):
        """The parameters of a step: they are known up to its end."""
        self.open.pop()
        while True:
            self.bind()
            while self.word(1) not in (",", ")", ";", ""):
                self.at += 1
                if is_name(self.word()):
                    self.use()
            if self.word(1) != ",":
                break
            self.at += 1
        self.at += self.word(1) == ")"

    def close_bracket(self, word):
        if self.open and CLOSES[self.open[-1][0]] == word:
            if self.terms and self.terms[-1] == len(self.open):
                self.terms.pop()
            _, known = self.open.pop()
            del self.bound[known:]

    # names in programs, schedules and proofs

    def in_program(self, word, start, end):
        del start, end
        after = self.word(1)
        if self.part == "declare" and after == ":":
            self.add(VARIABLE, "", True)
        elif self.part == "declare" and self.open and self.open[-1][0] == "{":
            self.add(VALUE, "", self.first(VALUE, word))
        elif self.part == "always" and after == "=" and self.begins(self.at):
            self.add(DEFINED, "", True)
        elif self.part == "assign" and after == ":":
            self.add(LABEL, self.program, True)
        elif self.part == "schedule" and not self.open:
            self.add(LABEL, self.labelled(word), False)
        else:
            self.use()

    def first(self, kind, word):
        return not any(it.kind == kind and it.word == word for it in self.names)

    def labelled(self, word):
        """The program that has a label, of the program at hand and those that it is made of."""
        waiting, seen = [self.program], set()
        while waiting:
            here = waiting.pop(0)
            if (here, word) in self.top:
                return here
            seen.add(here)
            waiting += [it for it in self.parts_of.get(here, []) if it not in seen]
        return self.program

    def use(self):
        word = self.word()
        for name, place in reversed(self.bound):
            if name == word:
                self.add(BOUND, str(place), False)
                return
        if word in self.top:
            self.add(self.top[word], "", False)

    def is_step(self, at):
        """Whether a token begins a step of a proof."""
        before = self.tokens[at - 1][0] if at else ""
        return is_name(self.tokens[at][0]) and (before == ";" or at >= 2 and self.tokens[at - 2][0] == "proof")

    def in_proof(self, word, start, end):
        del start, end
        if word == "by":
            self.rule = True
        elif self.rule and word in ("from", "using"):
            self.wanted = 1
        elif self.rule and word == "weaken" and self.word(1) != "(":
            self.wanted = 1
        elif self.rule and word in REFERENCES:
            self.wanted = REFERENCES[word]
        elif self.rule and word == "," and (not self.open or self.terms and self.terms[-1] == len(self.open)):
            self.wanted = 1
        elif is_name(word):
            self.named_in_proof()

    def named_in_proof(self):
        if self.rule and self.word(-1) == "with":
            self.add(LABEL, self.labelled(self.word()), False)
        elif self.rule and self.wanted and not (self.open and self.open[-1][0] == "["):
            self.wanted -= 1
            self.reference()
        elif not self.rule and not self.open and self.is_step(self.at):
            self.add(STEP, self.program, True)
        else:
            self.use()

    def reference(self):
        if self.word(1) == "." and is_name(self.word(2)):
            self.add(PROGRAM, "", False)
            owner = self.word()
            self.at += 2
            self.add(STEP, owner, False)
        else:
            self.add(STEP, self.program, False)

    # questions

    def name_at(self, at) -> Optional[Name]:
        """The name at a byte, or that ends there."""
        found = [it for it in self.names if it.start <= at <= it.end]
        return found[-1] if found else None

    def alike(self, name):
        return [it for it in self.names if it.meant() == name.meant()]

    def declared(self, name):
        """The place that declares a name: of a variable of several programs the last one before it."""
        places = [it for it in self.alike(name) if it.declares and (it.kind != PROGRAM or it.after == "program")]
        before = [it for it in places if it.start <= name.start]
        return (before or places or [None])[-1 if before else 0]


def is_name(word):
    return word[:1].isalpha() and word not in kind_of_word()
