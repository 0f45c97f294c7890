"""What the page is made of: sources.py [--program] [--names]

Prints the sum of these files, by which a page is known to be the present one: the sources of unity_web and of the
crates below it, those of the page, and what the page shows of examples/, docs/ and editors/. With --program it is the
sum of those that the module in it is made of, which tells whether the page can be put together around it. With --names
it prints the names of the files.
"""
import glob
import hashlib
import os
import sys

TOP = os.path.normpath(os.path.join(os.path.dirname(os.path.abspath(__file__)), "../.."))
sys.path.insert(0, os.path.join(TOP, "scripts"))
sys.dont_write_bytecode = True
from unity_tool.map import below, rooms_of  # noqa: E402

MODULE = ["scripts/playground/module.sh", "scripts/playground/heap.c", "scripts/playground/drop_table.py"]
OTHERS = ["playground/src/*", "scripts/playground/build.py", "scripts/playground/lessons.py",
          "scripts/playground/exercises_read.py", "editors/unity.tmLanguage.json", "examples/README.md",
          "examples/*.unity", "examples/mistakes/*.unity", "examples/causes/*.unity", "examples/exercises/*",
          "docs/TUTORIAL.md", "docs/WRITING.md", "VERSION"]


def names(program=False):
    """The files that the page is made of, or those of the module alone."""
    uses = rooms_of(TOP)[1]
    crates = sorted({"unity_web"} | below(uses)["unity_web"])
    patterns = ["crates/%s/src/**/*.rt" % crate for crate in crates] + MODULE + ([] if program else OTHERS)
    found = {name for pattern in patterns for name in glob.glob(os.path.join(TOP, pattern), recursive=True)}
    return sorted(os.path.relpath(name, TOP) for name in found if os.path.isfile(name))


def total(files):
    """The sum of these files."""
    whole = hashlib.sha256()
    for name in files:
        with open(os.path.join(TOP, name), "rb") as file:
            whole.update(("%s %s\n" % (name, hashlib.sha256(file.read()).hexdigest())).encode())
    return whole.hexdigest()[:16]


def main(words):
    if not set(words) <= {"--program", "--names"}:
        print(__doc__.strip())
        return 0 if words in (["-h"], ["--help"]) else 64
    files = names("--program" in words)
    print("\n".join(files) if "--names" in words else total(files))
    return 0


if __name__ == "__main__":
    sys.exit(main(sys.argv[1:]))
