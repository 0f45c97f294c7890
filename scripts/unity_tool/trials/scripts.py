"""What the scripts write and print: files that are compared with what they would write, and checkers of the scripts
themselves."""
import glob
import json
import os
import re
import shutil
import sys

from unity_tool import paged
from unity_tool.repository import SCRIPTS, TOP, UNITY
from unity_tool.trials.asking import ask, read, script
from unity_tool.trials.cases import Case, faults, other_status, single, unlike
from unity_tool.trials.documents import documents

# what a script would write is there: the script, and what it writes
WRITTEN = [("editors.sh", "the files in editors/"), ("reading.sh", "docs/READING.md"),
           ("map.sh", "the tables of rooms and crates")]
# what a script counts by itself, and about how many seconds it takes
COUNTED = [(("python3", "-B", "scripts/sentences.py"), "the sentences and links of the pages", 3),
           (("python3", "-B", "scripts/room_rules.py"), "what the rooms of crates keep to", 3),
           (("python3", "-B", "scripts/exercises.py"), "the exercises", 30),
           (("bash", "scripts/gate_cost.sh", "--self-test"), "the report on what the gate costs", 1)]
FUZZ_SECONDS, FUZZ_SEED = "20", "1"


def is_written(name):
    return other_status(0, script(name, "--check"))


def counted(words):
    """What a script finds wrong that counts by itself."""
    came = ask(words)
    return faults(other_status(0, came), came.text.decode("utf-8", "replace")) if came.status else None


def alike():
    """Of documents that were changed at random two ways of one question say the same."""
    came = script("fuzz.sh", FUZZ_SECONDS, FUZZ_SEED)
    return faults(other_status(0, came), came.text.decode("latin-1"))


def none_left(room):
    """Where a proof fails, scripts/prove.sh removes the proved document of an earlier run."""
    document, proved = os.path.join(room, "pick.unity"), os.path.join(room, "pick.proved.unity")
    shutil.copy(os.path.join(TOP, "examples", "pick.unity"), document)
    open(proved, "wb").close()
    came = script("prove.sh", document)
    yield "an old proved document", faults(
        "it is still there" if os.path.exists(proved) else None, unlike(b"refuted", came.text.split(b" ")[0], "word"))


def matchers():
    """The patterns of editors/tasks.json match what the scripts print of a name that nothing declares, and of a claim
    that is false."""
    lines = (script("check.sh", "examples/unknown_name.unity"), script("prove.sh", "examples/pick.unity"))
    of_byte = lines[0].text.decode().splitlines() + lines[0].notes.decode().splitlines()
    of_step = (lines[1].text + lines[1].notes).decode().splitlines()
    shown = [("a byte's answer", of_byte[0]), ("a byte's place", of_byte[1]), ("a step's place", of_step[-2]),
             ("a step's line", of_step[-1])]
    for task in json.loads(read("editors", "tasks.json"))["tasks"]:
        patterns = [one["regexp"] for matcher in task["problemMatcher"] for one in matcher["pattern"]]
        for (what, line), pattern in zip(shown, patterns):
            yield "the pattern of `%s` on %s" % (task["label"], what), \
                None if re.search(pattern, line) else "%s does not match %s" % (pattern, line)


def matched():
    """The pattern of editors/matcher.json takes the place and the message of a refusal, and leaves out what passes."""
    pattern = json.loads(read("editors", "matcher.json"))["problemMatcher"][0]["pattern"][0]
    lines = {"a.unity:4:27: bad 3 Unexpected byte 61": ("a.unity", "4", "27", "bad 3 Unexpected byte 61"),
             "b/c.unity:13: refuted Pick.safe": ("b/c.unity", "13", None, "refuted Pick.safe"),
             "d.unity: accepted 2 steps 3 obligations": None}
    for line, wanted in lines.items():
        found = re.search(pattern["regexp"], line)
        taken = found and tuple(found.group(pattern[name]) for name in ("file", "line", "column", "message"))
        yield "the pattern of editors/matcher.json on " + line, unlike(wanted, taken, "match")


def node_answers():
    """By node alone the lines are those of scripts/check.sh, where the page is of the present sources."""
    if not paged.is_there() or not paged.is_present():
        return None
    names = [document.path for document in documents("examples/mistakes")]
    came, wanted = ask(["node", "scripts/check.mjs", *names]), script("check.sh", "--short", *names)
    lines = came.text[:came.text.rindex(b"\n", 0, -1) + 1]
    return faults(other_status(wanted.status, came), unlike(wanted.text, lines))


def page_answers(room):
    """The page's module answers as the built program over all of examples/, where node is there and the page is of the
    present sources: else it need not."""
    del room
    if paged.is_there() and paged.is_present():
        came = ask(["node", "--liftoff-only", "scripts/playground/try_answers.mjs", paged.PAGE, UNITY])
        yield "the answers of the page's module", faults(other_status(0, came), None if came.status == 0 else
                                                         came.text.decode())


def page_script(room):
    """Node reads the script of the page, where node is there: a browser would run none of one with a fault."""
    if shutil.which("node"):
        script = re.search(r"(?s)\n<script>\n(.*?)</script>", read("playground", "unity.html").decode()).group(1)
        file = os.path.join(room, "page.js")
        with open(file, "w", encoding="utf-8") as out:
            out.write(script)
        came = ask(["node", "--check", file])
        yield "the script of the page", faults(other_status(0, came), came.text.decode())


def python_with(module):
    """A Python that has this module, or nothing."""
    for python in (sys.executable, "/usr/bin/python3"):
        if os.path.exists(python) and ask([python, "-c", "import " + module]).status == 0:
            return python
    return None


def checkers():
    """What shellcheck and pyflakes find in the scripts, where they are there."""
    shells, pythons = (sorted(name for folder in (SCRIPTS, os.path.join(TOP, "bench")) for name in
                              glob.glob(os.path.join(folder, "**", "*" + ending), recursive=True))
                       for ending in (".sh", ".py"))
    if shutil.which("shellcheck"):
        yield "shellcheck of scripts/ and bench/", faults(ask(["shellcheck", "-x", *shells]).text.decode())
    python = python_with("pyflakes")
    if python:
        yield "pyflakes of scripts/ and bench/", faults(ask([python, "-m", "pyflakes", *pythons,
                                                  os.path.join(SCRIPTS, "unity-tool")]).text.decode())


def cases():
    yield single("documents that were changed at random", alike, 100)
    for name, what in WRITTEN:
        yield single(what, lambda name=name: is_written(name), 3)
    for words, what, seconds in COUNTED:
        yield single(what, lambda words=words: counted(words), seconds)
    yield Case("an old proved document", none_left, 1)
    yield Case("the patterns of editors/tasks.json", lambda room: matchers(), 1)
    yield Case("the pattern of editors/matcher.json", lambda room: matched(), 1)
    yield single("the lines of scripts/check.mjs", node_answers, 10)
    yield Case("the script of the page", page_script, 1)
    yield Case("the answers of the page's module", page_answers, 40)
    yield Case("the scripts themselves", lambda room: checkers(), 5)
