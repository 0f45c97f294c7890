#!/usr/bin/env python3
"""What the language server takes: python3 bench/server.py [--edits N]

For each of four documents of examples/ it opens the document in an editor of its own and types a letter more in a
comment at its end. It prints the milliseconds from this edit to what `unity` says of the new text, and to the last word
on all its steps: by the clock, and of processor, the middle ones of seven. A tenth of a second of those by the clock
goes by before the text is judged, since more may be typed. Then the same for a text whose last `end` is gone. Then so
many edits are made one after the other, without waiting, and it prints the memory of the server before and after them.
The first lines name the day, the processor, how many there are, and the load. It wants the built program, and for the
times by the clock nothing else at work."""
import argparse
import os
import statistics
import sys
import time

from today import TOP, machine

sys.path.insert(0, os.path.join(TOP, "scripts"))
from unity_tool.repository import is_built  # noqa: E402
from unity_tool.trials.editor import Editor  # noqa: E402

NAMES = (("count", 300), ("peterson", 500), ("msi", 2000), ("dining", 3000))
TIMES, URI = 7, "file:///measured"
COMMENT = "\n# a comment: "
HEAD = ("Document", "Aim", "Its answer: clock", "processor", "Last word: clock", "processor", "Half typed: clock",
        "processor", "Memory", "after the edits")


def document(name):
    with open(os.path.join(TOP, "examples", name + ".unity"), encoding="utf-8") as file:
        return file.read() + COMMENT


def type_one(editor, text, letter):
    """Types a letter at the end of a text, or takes it away where none is given."""
    place = {"line": text.count("\n"), "character": len(text) - text.rfind("\n") - 1}
    end = place if letter else {**place, "character": place["character"] + 1}
    editor.versions[URI] += 1
    editor.tell("textDocument/didChange", {
        "textDocument": {"uri": URI, "version": editor.versions[URI]},
        "contentChanges": [{"range": {"start": place, "end": end}, "text": letter}]})


def processor(number):
    """The milliseconds of processor that a process took, with those that it has waited for."""
    try:
        with open("/proc/%d/stat" % number, encoding="latin-1") as file:
            fields = file.read().rpartition(")")[2].split()
    except FileNotFoundError:
        return 0
    return sum(map(int, fields[11:15])) * 1000 / os.sysconf("SC_CLK_TCK")


def spent(editor):
    """The milliseconds of processor that the server took, with its copies at work."""
    server = editor.process.pid
    with open("/proc/%d/task/%d/children" % (server, server), encoding="utf-8") as file:
        copies = [int(it) for it in file.read().split()]
    return processor(server) + sum(processor(it) for it in copies)


def waited(editor, begun):
    """The milliseconds, by the clock and of processor, up to the first diagnostics of the present text and to the
    last."""
    marks, version = [], editor.versions[URI]
    while (URI, version) not in editor.judged:
        message = editor.next()
        told = message.get("params") or {}
        if not marks and message.get("method") == "textDocument/publishDiagnostics" and told["version"] == version:
            marks.append((time.monotonic(), spent(editor)))
    marks.append((time.monotonic(), spent(editor)))
    return [value for clock, work in marks for value in (1000 * (clock - begun[0]), work - begun[1])]


def measured(editor, text):
    """The middle times of several edits of a text."""
    editor.change(URI, text)
    editor.wait(URI)
    each = []
    for number in range(TIMES):
        begun = time.monotonic(), spent(editor)
        type_one(editor, text, "" if number % 2 else "x")
        each.append(waited(editor, begun))
    return ["%.0f" % statistics.median(some) for some in zip(*each)]


def megabytes(editor):
    """The memory of the server, in MB."""
    with open("/proc/%d/status" % editor.process.pid, encoding="utf-8") as lines:
        return "%.1f" % (next(int(line.split()[1]) for line in lines if line.startswith("VmRSS")) / 1024)


def row(name, aim, edits):
    """The cells of a document."""
    text = document(name)
    with Editor(UNITY_SPIN="0") as editor:
        editor.open(URI, text)
        editor.wait(URI)
        cells = measured(editor, text) + measured(editor, text[:text.rindex("end")] + COMMENT)[:2]
        editor.change(URI, text)
        editor.wait(URI)
        before = megabytes(editor)
        for number in range(edits):
            type_one(editor, text, "" if number % 2 else "x")
        editor.wait(URI)
        return [name, aim, *cells, before, megabytes(editor)]


def main():
    parser = argparse.ArgumentParser(description=__doc__, formatter_class=argparse.RawDescriptionHelpFormatter)
    parser.add_argument("--edits", type=int, default=1000, metavar="N", help="so many edits without waiting (1000)")
    given = parser.parse_args()
    if not is_built():
        print("the program is not built: bash scripts/build.sh", file=sys.stderr)
        return 1
    print(machine() + "\n\n| %s |" % " | ".join(HEAD))
    print("|---" * len(HEAD) + "|")
    for name, aim in NAMES:
        print("| %s |" % " | ".join(str(it) for it in row(name, aim, given.edits)), flush=True)
    print("\nload at the end: %.1f" % os.getloadavg()[0])
    return 0


if __name__ == "__main__":
    sys.exit(main())
