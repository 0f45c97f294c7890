"""What a crate's page says of its public calls, held against the crate's sources. See scripts/sentences.py."""
import glob
import os
import re

from pages import Place, cells, lines_of

MOST_LINES = 50
PAGE = re.compile(r"(?:^|/)crates/(\w+)/README\.md$")
HEAD = "| Call | What its clauses say |"
EDITS = "| Edit | The body | What it would break | Refused by |"
CODE = re.compile(r"`([^`]+)`")
SAYS = re.compile(r"((?:`\w+`, )*`\w+`):")
USE = re.compile(r"use Rattle\.(\w+)\.(proofs\.[\w.]+)\.\{([^}]*)\}")
EXPORT = re.compile(r"pub use [\w:]+::(?:\{([^}]*)\}|(\w+))\s*;")
MODULE = re.compile(r"pub mod (\w+);")
IMPL = re.compile(r"(?:unsafe )?(impl\b.*|(?:pub )?trait .*)")
ITEM = re.compile(r"\s*(pub )?(?:const |unsafe |extern \"C\" )*(fn|struct|enum|trait|type|const) (\w+)")
CLAUSE = re.compile(r"\s+ensures (\w+)?\s*\{")


class Crate:
    """What can be named of a crate: its public items, the clauses of each, and its calls."""

    def __init__(self, folder):
        self.folder = folder
        self.clauses = {}
        self.calls = set()
        exported = self.read_exports()
        for path in sorted(glob.glob(os.path.join(folder, "src", "**", "*.rt"), recursive=True)):
            self.read(lines_of(path), exported, self.is_open(path))

    def read_exports(self):
        """The names that the crate gives away, and its public modules."""
        self.modules = set()
        path = os.path.join(self.folder, "src", "lib.rt")
        if not os.path.exists(path):
            return set()
        text = "\n".join(lines_of(path))
        self.modules = set(MODULE.findall(text))
        self.clauses.update({name: set() for name in self.modules})
        names = [name for many, one in EXPORT.findall(text) for name in (many or one).split(",")]
        return {name.strip() for name in names if name.strip()}

    def is_open(self, path):
        """Whether the items of a file are public where they say so, as those of the root are."""
        name = os.path.splitext(os.path.basename(path))[0]
        return name in self.modules | {"lib", "main"}

    def read(self, lines, exported, is_open):
        """Takes in the items of a file."""
        owner, current = "", None
        for line in lines:
            impl, item, clause = IMPL.match(line), ITEM.match(line), CLAUSE.match(line)
            if line == "}":
                owner, current = "", None
            elif impl:
                owner = impl.group(1)
            elif item:
                current = self.take(item, owner if line.startswith(" ") else "", exported, is_open)
            elif clause and current:
                self.clauses[current].add(clause.group(1) or "")

    def take(self, item, owner, exported, is_open):
        """Takes in an item, where it is public, and returns its name."""
        said, kind, name = item.groups()
        is_said = said or " for " in owner or "trait " in owner
        is_given = is_open or exported & (set(re.findall(r"\w+", owner)) or {name})
        if not is_said or not is_given:
            return None
        self.clauses.setdefault(name, set())
        if kind == "fn" and not owner:
            self.calls.add(name)
        return name


def row_faults(crate, line, number):
    """What a row of the table of calls says that the sources don't."""
    (named, at), (says, column) = list(cells(line))[:2]
    known = [name for name in CODE.findall(named) if name in crate.clauses]
    for name in CODE.findall(named):
        if name not in crate.clauses:
            yield Place(number, at), "the crate has no public `%s`" % name
    clauses = set().union(*(crate.clauses[name] for name in known)) if known else set()
    for found in SAYS.finditer(says):
        for name in CODE.findall(found.group(1)):
            if name not in clauses:
                yield Place(number, column + found.start()), "none of these calls has a clause `%s`" % name


def block_faults(crate, block, number):
    """What is wrong with the usage: it calls a public item of the crate, or cites lemmas that are there."""
    uses = USE.findall("\n".join(block))
    for name, module, lemmas in uses:
        path = os.path.join(os.path.dirname(crate.folder), name, *module.split(".")) + ".antt"
        text = "\n".join(lines_of(path)) if os.path.exists(path) else ""
        for lemma in re.findall(r"[^\s,]+", lemmas):
            if not re.search(r"^\s*(?:\w+ )*%s(?![\w-])" % re.escape(lemma), text, re.MULTILINE):
                yield Place(number, 1), "%s has no `%s`" % (path, lemma)
    words = set(re.findall(r"\w+", "\n".join(block)))
    if not uses and crate.clauses and not words & (set(crate.clauses) | {"exit_for", "rt"}):
        yield Place(number, 1), "the usage has no public item of the crate"


def blocks(lines):
    """The blocks of code, each with the number of its first line."""
    block = None
    for number, line in enumerate(lines, 1):
        if line.startswith("```") and block is not None:
            yield number - len(block), block
        if line.startswith("```"):
            block = [] if block is None else None
        elif block is not None:
            block.append(line)


def rows(lines, head):
    """The rows below a head, each with its number."""
    is_table = False
    for number, line in enumerate(lines, 1):
        if is_table and line.startswith("|") and not line.startswith("|---"):
            yield number, line
        is_table = line == head or is_table and line.startswith("|")


def named_in(lines, head):
    """What the first cells of a table name."""
    return {name for _, line in rows(lines, head) for name in CODE.findall(next(cells(line))[0])}


def missing(crate, lines):
    """What a table lacks: a public call, where none is left out by `..`, and an edit of the crate."""
    if HEAD in lines and not any(", .." in line for _, line in rows(lines, HEAD)):
        for name in sorted(crate.calls - named_in(lines, HEAD)):
            yield Place(1, 1), "the table of calls has no `%s`" % name
    edits = {os.path.splitext(os.path.basename(path))[0] for path in glob.glob(crate.folder + "/must-fail/*.edit")}
    if EDITS in lines:
        for name in sorted(edits ^ named_in(lines, EDITS)):
            yield Place(1, 1), "`%s` is no edit of the table, or none of must-fail/" % name


def page_faults(path, lines):
    """For each thing that is asked of a crate's page None, or its place and what is wrong with it."""
    if not PAGE.search(os.path.abspath(path).replace(os.sep, "/")):
        return
    crate, usage = Crate(os.path.dirname(path)), list(blocks(lines))
    yield (Place(MOST_LINES, 1), "more than a screen of %d lines" % MOST_LINES) if len(lines) > MOST_LINES + 1 else None
    yield None if usage else (Place(1, 1), "no usage")
    for number, block in usage:
        yield from list(block_faults(crate, block, number)) or [None]
    for number, line in rows(lines, HEAD):
        yield from list(row_faults(crate, line, number)) or [None]
    yield from missing(crate, lines)
