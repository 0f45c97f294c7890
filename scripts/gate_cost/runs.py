"""Reads what was sampled, and adds it up by crate, kind and part."""
import json

from kinds import RT, SCRIPTS, Work, work_of


class Refused(Exception):
    """Why a file is no sample, with its place."""


class Run:
    """One sampled run: what each process was for, and what it took."""

    def __init__(self, made):
        self.lanes, self.exact, self.processes = made["lanes"], made["exact"], made["processes"]
        self.works = {}
        for key in self.processes:
            self.find_work(key)
        self.tell_sound()

    def find_work(self, key):
        """What a process is for; where its words do not tell, what its parent is for."""
        if key not in self.works:
            it = self.processes[key]
            above = self.find_work(it["parent"]) if it["parent"] in self.processes else None
            self.works[key] = work_of(it["words"], it["folder"], above)
        return self.works[key]

    def tell_sound(self):
        """Once its edits were tried, a crate is checked again over what they began with: a part of its own."""
        first = {}
        for key, work in self.works.items():
            if work.kind == "edits" and work.part.isdigit():
                first[work.crate] = min(first.get(work.crate, self.begun(key)), self.begun(key))
        for key, work in self.works.items():
            begun = self.begun(key)
            if (work.kind, work.part) == ("edits", "seed") and begun > first.get(work.crate, begun):
                self.works[key] = Work(work.crate, "edits", "sound")

    def begun(self, key):
        """When the process began."""
        return self.processes[key]["first"] - self.processes[key]["age"]

    def span(self, wanted):
        """From when to when there were processes whose work is wanted; None where there were none."""
        keys = [key for key, work in self.works.items() if wanted(work)]
        return keys and (min(map(self.begun, keys)), max(self.processes[key]["last"] for key in keys)) or None

    def seconds(self):
        """Seconds of processor by crate, kind and part."""
        found = {}
        for key, work in self.works.items():
            it, name = self.processes[key], (work.crate, work.kind, work.part)
            found[name] = found.get(name, 0) + it["seconds"] + it["missed"] + it["unseen"]
        return found

    def clock(self):
        """Seconds by the clock of each crate, kind and part, from the first of its processes to the end of the last."""
        parts = {(it.crate, it.kind, it.part) for it in self.works.values()}
        spans = {part: self.span(lambda it, part=part: (it.crate, it.kind, it.part) == part) for part in parts}
        return {part: ended - begun for part, (begun, ended) in spans.items() if part[0] not in (RT, SCRIPTS)}

    def most(self):
        """The most memory of a process, in MB, and what it was for."""
        key = max(self.processes, key=lambda it: self.processes[it]["megabytes"])
        return self.processes[key]["megabytes"], self.works[key]

    def start(self):
        """Seconds from the start of `rt ci` to its first check."""
        of_rt = self.span(lambda it: it.crate == RT)
        checks = self.span(lambda it: it.kind in ("proof", "tests", "edits"))
        return checks[0] - of_rt[0] if of_rt and checks else 0

    def took(self):
        """Seconds by the clock from the start of `rt ci` to its end, and of the scripts before and after it."""
        begun, ended = self.span(lambda it: it.crate != SCRIPTS) or (0, 0)
        first, last = self.span(lambda it: it.crate == SCRIPTS) or (0, 0)
        return [ended - begun, last - first - max(0, min(ended, last) - max(begun, first))]


def read_run(file):
    """The run that a file has."""
    try:
        with open(file, encoding="utf-8") as made:
            return Run(json.load(made))
    except json.JSONDecodeError as error:
        raise Refused("%s:%d:%d: %s" % (file, error.lineno, error.colno, error.msg)) from error
    except (KeyError, TypeError, AttributeError, ValueError) as error:
        raise Refused("%s:1:1: this is no sample: %r" % (file, error)) from error
    except OSError as error:
        raise Refused("%s:1:1: %s" % (file, error.strerror)) from error


def is_there(crate, kind, part):
    """Whether the crate still has that."""
    if kind == "edits":
        return crate.edits > (int(part) if part.isdigit() else 0)
    return crate.has_tests or "tests" not in (kind, part)


def joined(runs, crates):
    """What several runs say together, of what two of them did the later one; and what is gone since, in seconds."""
    by_name, found, gone = {it.name: it for it in crates}, {}, {}
    for run in runs:
        for key, seconds in run.seconds().items():
            if key[0] in by_name and is_there(by_name[key[0]], *key[1:]) or key[0] == SCRIPTS:
                found[key] = seconds
            elif key[0] == RT:
                found.setdefault(key, seconds)
            else:
                gone[key] = seconds
    return found, sum(gone.values())
