#!/usr/bin/env python3
"""Tries the exercises of examples/exercises/: exercises.py [--unity PROGRAM] [NAME..]

Each start must be no answer to its exercise, each solution must be one, and both must have the program and the claims
that are given. A text that changes one of the given words must be told from them. Each protocol of docs/GALLERY.md and
each chapter of docs/TUTORIAL.md must have one, and docs/TEACHING.md must name each. PROGRAM answers the questions, by
default the built one, crates/unity/out/unity; NAME.. are the exercises to be tried, by default all.
The last line is `N passed, M failed`, and the exit is 1 where something failed.
"""
import argparse
import os
import re
import subprocess
import sys

TOP = os.path.normpath(os.path.join(os.path.dirname(os.path.abspath(__file__)), ".."))
sys.dont_write_bytecode = True
sys.path.insert(0, os.path.join(TOP, "scripts", "playground"))
from exercises_read import exercises_of, sections_of, tokens_of  # noqa: E402

FOLDER = os.path.join(TOP, "examples", "exercises")
BUILT = os.path.join(TOP, "crates", "unity", "out", "unity")
BUDGET, VIOLATED = "1000000", 10


def has_certificates(exercise):
    return any(kind == "certificates" for kind, _, _ in sections_of(tokens_of(exercise.start)))


def missing(exercises):
    """Protocols of the gallery and chapters of the tutorial that have no exercise, and titles that no lecture has."""
    with open(os.path.join(TOP, "docs", "GALLERY.md"), encoding="utf-8") as page:
        protocols = re.findall(r"^\| .* \| \[(\w+)\]", page.read(), re.M)
    with open(os.path.join(TOP, "docs", "TUTORIAL.md"), encoding="utf-8") as page:
        chapters = re.findall(r"^## (\d+)\.", page.read(), re.M)
    with open(os.path.join(TOP, "docs", "TEACHING.md"), encoding="utf-8") as page:
        lectures = page.read()
    names, read = {it.name for it in exercises}, {str(it.chapter) for it in exercises}
    untold = [it.title for it in exercises if '"%s"' % it.title not in lectures]
    return sorted(set(protocols) - names) + ["chapter " + it for it in chapters if it not in read] + untold


class Try:
    def __init__(self, unity):
        self.unity, self.passed, self.failed = unity, 0, 0

    def holds(self, exercise, what, condition, found=""):
        if condition:
            self.passed += 1
        else:
            self.failed += 1
            print("%s:1:1: %s %s" % (os.path.relpath(exercise.file, TOP), what, found))

    def ask(self, text, *words):
        """The status and the text of an answer."""
        told = subprocess.run([self.unity, *words], input=text.encode(), stdout=subprocess.PIPE, check=False)
        return told.returncode, told.stdout.decode()

    def accepted(self, text, given):
        """What `check` says of the text: with its own certificates, or with those that `prove` finds."""
        if not given:
            status, answer = self.ask(text, "prove", BUDGET)
            if status != 0:
                return status, answer
            text = answer
        return self.ask(text, "check")

    def is_done(self, exercise, text):
        """Whether the text is an answer to the exercise, and what the program says of it."""
        if not exercise.is_given(text):
            return False, "other words than those that are given"
        if "violated" in exercise.goal:
            status, answer = self.ask(text, "watch")
            return status == VIOLATED and answer.startswith("violated %s place " % exercise.goal["violated"]), answer
        given = has_certificates(exercise)
        status, answer = self.accepted(text, given)
        line = exercise.goal["line"]
        return status == 0 and (not line or line in answer.splitlines()), answer

    def reads(self, it, answer):
        """Whether an answer finds the text right, or goes wrong in a hole."""
        bad = re.match(r"bad \d+ \w+ byte (\d+)$", answer)
        at = bad and len(it.start.encode()[:int(bad.group(1))].decode())
        return not bad or any(begin <= at <= end for _, _, (begin, end) in it.given[:-1])

    def exercise(self, it):
        self.holds(it, "the exercise has no three hints, or no solution for each hole",
                   len(it.hints) == 3 and len(it.solution) == len(it.holes) and it.task)
        done, answer = self.is_done(it, it.start)
        self.holds(it, "the start is done already:", not done, answer)
        self.holds(it, "the start does not read outside its holes:", self.reads(it, answer), answer)
        self.holds(it, "the start is not as it is given", it.is_given(it.start))
        done, answer = self.is_done(it, it.solved())
        self.holds(it, "the solution is not done:", done, answer)
        self.changed(it)

    def changed(self, it):
        """Each given word is missed where it is taken away; a certificate or a schedule beside them is none of them."""
        text, holes = it.solved(), sum(len(tokens_of(part)) for part in it.solution)
        words = [word for word, _ in tokens_of(text)]
        seen = sum(not it.have_given(words[:k] + words[k + 1:]) for k in range(len(words)))
        unseen = len(words) - holes - seen
        self.holds(it, "given words that may be taken away: %d" % unseen, unseen <= 0)
        if not has_certificates(it):
            self.holds(it, "certificates count as a change", it.is_given(text + "certificates 1: sum; end\n"))


def main():
    parser = argparse.ArgumentParser(description=__doc__, formatter_class=argparse.RawDescriptionHelpFormatter)
    parser.add_argument("--unity", default=BUILT, help="the program that answers")
    parser.add_argument("names", nargs="*", help="the exercises to be tried")
    given = parser.parse_args()
    if not os.access(given.unity, os.X_OK):
        print("%s:1:1: there is no such program; scripts/build.sh builds it" % given.unity, file=sys.stderr)
        return 1
    tried, exercises = Try(given.unity), exercises_of(FOLDER)
    if not given.names and missing(exercises):
        print("docs/TEACHING.md:1:1: no exercise, or no lecture, of %s" % ", ".join(missing(exercises)))
        tried.failed += 1
    for it in exercises:
        if not given.names or it.name in given.names:
            tried.exercise(it)
    print("%d passed, %d failed" % (tried.passed, tried.failed))
    return 1 if tried.failed else 0


if __name__ == "__main__":
    sys.exit(main())
