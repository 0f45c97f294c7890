"""The exercises of examples/exercises/, as they are read and judged.

An exercise is a document NAME.unity with holes, and NAME.exercise beside it. That has a line for each of

    title: WORDS            what the page calls it
    chapter: N              the chapter of the tutorial that is read before it
    goal: accepted [LINE]   done when `check` accepts it, with this line in its answer; or
    goal: violated STEP     done when `watch` says that its schedule violates this step
    hole: KIND after WORDS  a hole begins behind these words of the document, and ends before the first of HOLE_ENDS
    solution: WORDS         what goes into the hole, one line for each hole
    hint: WORDS             three of them

and after an empty line the task, in paragraphs. A line that begins with a blank goes on with the one before it.
What stands outside the holes must stay as it was given, but for blanks, comments and, where the start has none,
a schedule and certificates.
"""
import glob
import os
import re

TOKEN = re.compile(r"#[^\n]*|:=|::|\.\.|<\[\]|<\|\||\[\]|\|>|\|\||<=|>=|=>|/=|\w+|\S")
SECTIONS = ("program", "proof", "schedule", "certificates")
ALWAYS = ["program", "proof", "end", "certificates"]
HOLE_ENDS = {
    "formula": ALWAYS + ["by", "using", "with", ";", ":=", "[]", "~", "||", "|>", "initially", "assign"],
    "rule": ALWAYS + [";"],
    "steps": ALWAYS,
    "schedule": ALWAYS,
    "numbers": ALWAYS + [";"],
}


def tokens_of(text):
    """The words of a text without comments, each with its place."""
    return [(it.group(0), it.start()) for it in TOKEN.finditer(text) if not it.group(0).startswith("#")]


def sections_of(tokens):
    """The kind of each section among these tokens, its first token, and the first behind it."""
    found, kind, begin = [], None, 0
    for k, (word, _) in enumerate(tokens):
        if kind is None and word in SECTIONS:
            kind, begin = word, k
        elif kind and word == "end":
            found.append((kind, begin, k + 1))
            kind = None
    return found + ([(kind, begin, len(tokens))] if kind else [])


def place_of(tokens, words, begin):
    """Where these words stand among the tokens, from a place on, or None."""
    for k in range(begin, len(tokens) - len(words) + 1):
        if [word for word, _ in tokens[k:k + len(words)]] == words:
            return k
    return None


class Exercise:
    def __init__(self, file):
        self.file = file
        self.name = os.path.basename(file)[:-len(".exercise")]
        with open(file[:-len(".exercise")] + ".unity", encoding="utf-8") as text:
            self.start = text.read()
        with open(file, encoding="utf-8") as text:
            head, _, body = text.read().partition("\n\n")
        rows = [line.partition(": ") for line in re.sub(r"\n +", " ", head).splitlines()]
        all_of = lambda key: [value for name, _, value in rows if name == key]
        self.title, self.chapter = all_of("title")[0], int(all_of("chapter")[0])
        how, _, what = all_of("goal")[0].partition(" ")
        self.goal = {"violated": what} if how == "violated" else {"line": what}
        self.holes = [re.match(r"(\w+) after (.*)$", hole).groups() for hole in all_of("hole")]
        self.solution, self.hints = all_of("solution"), all_of("hint")
        self.task = [" ".join(part.split()) for part in body.strip().split("\n\n")]
        self.given = self.pieces()

    def pieces(self):
        """The given words between the holes, each with the kind of the hole behind it and the place of that hole."""
        tokens, begin, found = tokens_of(self.start), 0, []
        for kind, before in self.holes:
            words = [word for word, _ in tokens_of(before)]
            at = place_of(tokens, words, begin)
            if at is None:
                raise ValueError("%s:1:1: no hole after %s" % (self.file, before))
            at += len(words)
            to = at
            while to < len(tokens) and tokens[to][0] not in HOLE_ENDS[kind]:
                to += 1
            last = tokens[to][1] if to < len(tokens) else len(self.start)
            place = (tokens[at - 1][1] + len(tokens[at - 1][0]), last)
            found.append(([word for word, _ in tokens[begin:at]], kind, place))
            begin = to
        return found + [([word for word, _ in tokens[begin:]], None, None)]

    def solved(self):
        """The document with its solution in the holes."""
        text, at = "", 0
        for (_, _, (begin, end)), words in zip(self.given[:-1], self.solution):
            blanks = re.search(r"\s*$", self.start[begin:end]).group(0)
            text += self.start[at:begin] + " " + words + blanks
            at = end
        return text + self.start[at:]

    def compared(self, tokens):
        """The tokens without those of sections that a text may have beyond the start: a schedule and certificates."""
        has = {kind for kind, _, _ in sections_of(tokens_of(self.start))}
        for kind, begin, end in reversed(sections_of(tokens)):
            if kind in ("schedule", "certificates") and kind not in has:
                tokens = tokens[:begin] + tokens[end:]
        return tokens

    def is_given(self, text):
        """Whether the text is as it is given outside its holes."""
        return self.have_given([word for word, _ in self.compared(tokens_of(text))])

    def have_given(self, words):
        """Whether these words are the given ones, but for what stands in the holes."""
        at = 0
        for given, kind, _ in self.given:
            if words[at:at + len(given)] != given:
                return False
            at += len(given)
            while kind and at < len(words) and words[at] not in HOLE_ENDS[kind]:
                at += 1
        return at == len(words)


def exercises_of(folder):
    """The exercises of a folder, by their chapters, and of each chapter the shorter documents first."""
    found = [Exercise(file) for file in glob.glob(os.path.join(folder, "*.exercise"))]
    return sorted(found, key=lambda it: (it.chapter, len(it.start), it.name))
