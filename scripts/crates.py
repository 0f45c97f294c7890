"""The crates of crates.txt in the order in which `rt ci` takes them, with what it goes by."""
import os
import re

from unity_tool.map import rooms_of

PARTS = ("src", "specs", "proofs")
TEST = re.compile(rb"#\s*\[[^]]*\btest\b")


class Crate:
    """A crate: those that it stands on, each behind its own, its lines, whether it has tests, and how many edits."""

    def __init__(self, top, name, below):
        texts = texts_of(os.path.join(top, "crates", name))
        self.name, self.below = name, below
        self.lines, self.has_tests = sum(it.count(b"\n") for it in texts), any(map(TEST.search, texts))
        self.edits = edits_of(os.path.join(top, "crates", name, "must-fail"))


def texts_of(folder):
    """The texts of the crate's .rt files."""
    found = []
    for part in PARTS:
        for at, _, names in os.walk(os.path.join(folder, part)):
            for name in names:
                if name.endswith(".rt"):
                    with open(os.path.join(at, name), "rb") as file:
                        found.append(file.read())
    return found


def edits_of(folder):
    """How many edits stand in the folder."""
    names = os.listdir(folder) if os.path.isdir(folder) else []
    return sum(bool(re.fullmatch(r"[A-Za-z0-9_-][A-Za-z0-9_.-]*\.edit", name)) for name in names)


def crates_of(top):
    """All crates, those that stand on few first."""
    uses = rooms_of(top)[1]
    below, order = {}, []
    for name in uses:
        below[name] = each_once([*below[it], it] for it in uses[name])
    for name in sorted(uses):
        order += [it for it in [*below[name], name] if it not in order]
    return [Crate(top, name, below[name]) for name in sorted(order, key=lambda it: len(below[it]))]


def each_once(lists):
    """What the lists have, each once, where it first stands."""
    return list(dict.fromkeys(it for one in lists for it in one))
