"""The lines of a file of rows: blocks of entries, each a keyword and a text."""
import re
from dataclasses import dataclass, field

ENTRY = re.compile(r"(?P<key>given|a document|words|replace|with|first|refused|proved|"
                   r"document(?: (?P<file>\S+))?|status (?P<only>\d+)|answer (?P<status>\d+)(?P<exactly> exactly)?|"
                   r"(?:(?:repeat (?P<times>\d+)|count (?P<low>\d+)\.\.(?P<high>\d+)) )?(?P<place>[A-Z]+))"
                   r"(?P<colon>:(?: (?P<text>.*))?)?$")
ESCAPE = re.compile(r"\\(x[0-9a-f]{2}|.|$)")
ROW = "ROW"  # the place of a line with a dash
GOES_ON = "\uffff"  # stands where a line goes on in the next one


class Fault(Exception):
    """What is wrong in a file of rows, at a line and a column of it."""

    def __init__(self, file, line, message, column=1):
        super().__init__(f"{file}:{line}:{column}: {message}")


@dataclass
class Entry:
    """A line with its keyword, and the lines that go on with its text, each as characters that stand for bytes."""
    line: int
    match: re.Match
    lines: list = field(default_factory=list)

    @property
    def text(self):
        return "\n".join(self.lines).replace(GOES_ON + "\n", "")

    @property
    def generated(self):
        """The text, as often as it is to be repeated, or once for each number."""
        match, text = self.match, self.text
        if match["times"]:
            return text * int(match["times"])
        if match["low"]:
            numbers = range(int(match["low"]), int(match["high"]) + 1)
            return "".join(text.replace("{n}", str(n)).replace("{n-1}", str(n - 1)) for n in numbers)
        return text

    @property
    def answer(self):
        """The text of an answer: lines, or nothing, or a text whose last line has no end."""
        return self.text if self.match["exactly"] or not self.match["colon"] else self.text + "\n"


@dataclass
class Block:
    """Entries under a heading without a blank line between them: a row, or what is given for those after it."""
    name: str
    entries: list

    @property
    def line(self):
        return self.entries[0].line

    @property
    def is_given(self):
        return self.entries[0].match["key"] == "given"


def unescaped(text, file, line):
    """The text without its escapes."""
    def meaning(found):
        word = found[1]
        if not word:
            return GOES_ON
        if len(word) == 3:
            return chr(int(word[1:], 16))
        if word not in ("\\", "t"):
            raise Fault(file, line, f"no escape: {found[0]}", found.start() + 1)
        return "\t" if word == "t" else word
    return ESCAPE.sub(meaning, text.encode().decode("latin-1"))


def entry_of(file, number, line):
    match = ENTRY.match(f"{ROW}: {line[2:]}" if line.startswith("- ") else line)
    if not match:
        raise Fault(file, number, "no entry of a row")
    text = match["text"]
    return Entry(number, match, [unescaped(text, file, number)] if text else [])


def blocks_of(file, lines):
    """The blocks of these lines."""
    name, block, found = "", None, []
    for number, line in enumerate(lines, 1):
        if line.startswith("|"):
            if not block or not block.entries[-1].match["colon"]:
                raise Fault(file, number, "no text to go on with")
            block.entries[-1].lines.append(unescaped(line[2:], file, number))
        elif line.startswith("## ") or not line:
            name, block = line[3:] or name, None
        elif not line.startswith("# "):
            entry = entry_of(file, number, line)
            if line.startswith("- ") or not block:
                block = Block(name, [])
                found.append(block)
            block.entries.append(entry)
    return found
