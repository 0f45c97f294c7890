"""What a process of the gate is for: which crate, and which kind of work."""
import os
import re

KINDS = ("proof", "tests", "edits", "linking", "other")
# Rows that are no crate.
RT, SCRIPTS = "(rt itself)", "(scripts)"
# Commands of `rt` that prove; what any other one starts belongs to the scripts, as the checks of `rt try` do.
PROVING = ("ci", "must-fail", "all")
LINKERS = ("rattle-link", "clang", "clang++", "ld.lld", "lld")


class Work:
    """A crate or a row in parentheses, a kind, and the part of it: of edits which one, of linking what for."""

    def __init__(self, crate, kind, part=""):
        self.crate, self.kind, self.part = crate, kind, part


def after(words, flag):
    """The word behind this one, or nothing."""
    return next((words[at + 1] for at, word in enumerate(words[:-1]) if word == flag), "")


def work_of(words, folder, above):
    """What a process with these words in this folder does, given what its parent does."""
    names = [os.path.basename(word) for word in words]
    if "rt" in names[:3] and any(word in PROVING for word in words):
        return Work(RT, "other")
    if not above or above.crate == SCRIPTS:
        return Work(SCRIPTS, "other")
    if "rattle" in names:
        return of_rattle(words[names.index("rattle"):], folder)
    if any(name in LINKERS for name in names[:6]):
        return of_linker(words, above)
    ran = re.search(r"/rt-run-\d+-[^/]*/bin/(\w+)", " ".join(words))
    if ran:
        return Work(ran.group(1).removesuffix("_tests"), "other", "run")
    return above


def of_rattle(words, folder):
    """What rattle does by these words. An edit is tried in a folder of its own, over what a check kept in another."""
    crate, kept = after(words, "--crate-name"), after(words, "--incremental")
    if not crate or "--only" in words:
        named = re.search(r"/crates/(\w+)/", " ".join(words))
        return Work(named.group(1) if named else RT, "other")
    if "--crate-checked" in words:
        return Work(crate, "linking", "proof")
    if "/rt-edits-" in kept:
        return Work(crate, "edits", os.path.basename(kept))
    if "/rt-edit-" in folder:
        return Work(crate, "edits", "whole")
    return Work(crate, "tests" if "--test" in words else "proof")


def of_linker(words, above):
    """What a linker, or a compiler that links, works for: what it writes names the crate."""
    made = re.search(r"(?:^| |/)out/(\w+?)(_tests)?(?:\.by-rattle)?(?:\.o)?(?: |$)", " ".join(words))
    if made:
        return Work(made.group(1), "linking", "tests" if made.group(2) else "proof")
    return Work(above.crate, "linking", above.kind) if above.kind in ("proof", "tests") else above
