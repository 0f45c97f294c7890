"""The pages of the repository as text: their paragraphs, sentences, headings and links. See scripts/sentences.py."""
import glob
import os
import re

PATTERNS = ["README.md", "CONTRIBUTING.md", "CHANGELOG.md", "docs/*.md", "examples/README.md", "examples/*/README.md",
            "editors/README.md", "crates/*/README.md"]
WRITTEN, UNTIL_HERE = "<!-- written by ", "<!-- until here -->"
FENCE = re.compile(r"\s*(```|~~~)")
ITEM = re.compile(r"\s*(?:[-*+]|\d+\.)\s+")
HEADING = re.compile(r"(#+)\s+(.*?)\s*#*$")
CODE = re.compile(r"(`+)(.+?)\1")
LINK = re.compile(r"!?\[((?:[^\[\]]|\[[^\[\]]*\])*)\]\(([^()\s]*)\)")
END = re.compile(r"[.!?][\"')*]*(?=\s|$)")
INITIAL = re.compile(r"(?:^|[\s(])[A-Z]$")
WORD = re.compile(r"[^\W_]")


class Place:
    """A place of a page: its line and column, from 1."""

    def __init__(self, line, column):
        self.line = line
        self.column = column


class Paragraph:
    """A stretch of text that holds whole sentences: its characters, and the place of each."""

    def __init__(self):
        self.text = ""
        self.places = []

    def add(self, text, line, column):
        if self.text:
            text, column = " " + text, column - 1
        self.text += text
        self.places += [Place(line, column + index) for index in range(len(text))]


def all_pages(top):
    """The pages that are read by default, as paths below the top."""
    found = []
    for pattern in PATTERNS:
        found += sorted(glob.glob(os.path.join(top, pattern)))
    return [os.path.relpath(path, top) for path in found]


def lines_of(path):
    with open(path, encoding="utf-8") as page:
        return page.read().split("\n")


def prose(lines):
    """The lines that are no code and no comment, each with its number; the others as empty ones."""
    fence, comment, before = None, False, ""
    for number, line in enumerate(lines, 1):
        found = FENCE.match(line)
        if fence:
            fence, line = (None if found and found.group(1) == fence else fence), ""
        elif found:
            fence, line = found.group(1), ""
        elif comment or line.lstrip().startswith("<!--"):
            comment, line = "-->" not in line, ""
        elif line.startswith("    ") and not before.strip():
            line = ""
            yield number, line
            continue
        before = line
        yield number, line


def own_prose(lines):
    """The same without what a script writes between its two marks: that is read on the pages where it comes from."""
    written = False
    for (number, line), whole in zip(prose(lines), lines):
        written = (written or whole.startswith(WRITTEN)) and not whole.startswith(UNTIL_HERE)
        yield number, "" if written else line


def cells(line):
    """The cells of a table's row, each with its column."""
    start = line.index("|") + 1
    for found in re.finditer(r"(?<!\\)\|", line[start:]):
        end = start + found.start()
        yield line[start:end], start + 1
        line, start = line[:end] + " " + line[end + 1:], end + 1


def paragraphs(lines):
    """The paragraphs of a page; a heading, an item of a list and a cell of a table are each one of their own."""
    current = Paragraph()
    for number, line in own_prose(lines):
        row = line.lstrip().startswith("|")
        item = ITEM.match(line)
        heading = HEADING.match(line)
        if not line.strip() or row or item or heading:
            if current.text:
                yield current
            current = Paragraph()
        if row:
            yield from row_paragraphs(line, number)
        elif line.strip():
            start = item.end() if item else heading.start(2) if heading else len(line) - len(line.lstrip())
            current.add(line[start:].rstrip(), number, start + 1)
        if heading:
            yield current
            current = Paragraph()
    if current.text:
        yield current


def row_paragraphs(line, number):
    for cell, column in cells(line):
        paragraph = Paragraph()
        paragraph.add(cell, number, column)
        yield paragraph


def masked(text):
    """The text in which a span of code is one word, and a link is its words without its address."""
    def blank(match, keep):
        return keep + " " * (len(match.group(0)) - len(keep))
    text = CODE.sub(lambda match: "x" + "_" * (len(match.group(0)) - 1), text)
    while LINK.search(text):
        text = LINK.sub(lambda match: blank(match, " " + match.group(1)), text, count=1)
    return text


def sentences(paragraph):
    """The sentences of a paragraph: of each its place and how many words it has."""
    text = masked(paragraph.text)
    start = 0
    for found in list(END.finditer(text)) + [None]:
        end = found.end() if found else len(text)
        if found and INITIAL.search(text[start:found.start()]):
            continue
        words = [word for word in text[start:end].split() if WORD.search(word)]
        if words:
            first = start + len(text[start:end]) - len(text[start:end].lstrip())
            yield paragraph.places[first], len(words)
        start = end


def slug(heading):
    """The name by which a link leads to a heading."""
    text = LINK.sub(lambda match: match.group(1), heading).replace("`", "").lower()
    return re.sub(r"[^\w\- ]", "", text).replace(" ", "-")


def anchors(lines):
    """The names of all headings of a page."""
    found = set()
    for _, line in prose(lines):
        heading = HEADING.match(line)
        if heading:
            name, count = slug(heading.group(2)), 0
            while (name + "-%d" % count if count else name) in found:
                count += 1
            found.add(name + "-%d" % count if count else name)
    return found


def links(lines):
    """The addresses that a page links, each with its place."""
    for number, line in prose(lines):
        text = CODE.sub(lambda match: "`" * len(match.group(0)), line)
        for found in LINK.finditer(text):
            yield found.group(2), Place(number, found.start() + 1)
            for inner in LINK.finditer(found.group(1)):
                yield inner.group(2), Place(number, found.start() + 1)
