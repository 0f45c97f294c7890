"""The cases of files of rows: what is asked, to the byte, and what is wanted."""
import glob
import os
import re
from collections import ChainMap
from dataclasses import dataclass

from .entries import Fault, blocks_of

TOP = os.path.dirname(os.path.dirname(os.path.dirname(os.path.abspath(__file__))))
FOLDER = os.path.join(TOP, "examples", "rows")
PLACE = re.compile(r"\{([A-Z]+)\}")
DOCUMENT = re.compile(r"^document (\S+)$", re.M)
MARK = b"@"


@dataclass(frozen=True)
class Case:
    """A row. What is wanted is of a kind: `answer`, `status`, `proved` or `a document`."""
    file: str
    line: int
    name: str
    words: tuple
    document: bytes
    kind: str
    status: int
    text: bytes
    refused: tuple = ()


class Scope:
    """What the entries of a block say."""

    def __init__(self, block, folder, file):
        self.file, self.folder, self.line = file, folder, block.line
        self.values, self.places, self.replaced, self.put = {}, {}, [], []
        for entry in block.entries:
            self.take(entry, entry.match)

    def take(self, entry, match):
        key = match["key"]
        if match["place"]:
            self.places[match["place"]] = entry.generated
        elif match["file"]:
            self.values["document"] = self.read(entry)
        elif match["status"]:
            self.values["answer"] = "answer", int(match["status"]), entry.answer
        elif match["only"]:
            self.values["answer"] = "status", int(match["only"]), None
        elif key in ("proved", "a document"):
            self.values["answer"] = key, 0, entry.answer if match["colon"] else None
        elif key == "replace":
            self.replaced.append(entry.text)
        elif key == "with":
            self.put.append(entry.text)
        elif key != "given":
            self.values[key] = entry.text

    def read(self, entry):
        """The document of a file beside this one."""
        name = entry.match["file"]
        try:
            with open(os.path.join(self.folder, name), "rb") as source:
                return source.read().decode("latin-1")
        except OSError:
            raise Fault(self.file, entry.line, f"no file {name}", len("document ") + 1) from None


class Row:
    """A block of a row, with what is given for it, the nearest first."""

    def __init__(self, scopes, name):
        self.scopes, self.name, self.own = scopes, name, scopes[0]
        self.values = ChainMap(*(scope.values for scope in scopes))
        self.places = ChainMap(*(scope.places for scope in scopes))
        self.used = set()

    def fault(self, message):
        return Fault(self.own.file, self.own.line, message)

    def value(self, key):
        if key not in self.values:
            raise self.fault(f"a row without {key}")
        return self.values[key]

    def cases(self):
        """The case of the row, or one for each length to which its document is cut."""
        kind, status, text = self.value("answer")
        words, document = tuple(self.value("words").split()), self.filled(self.edited(), self.places, True)
        for length in self.numbers("first") if "first" in self.values else [len(document)]:
            filled = None if text is None else self.filled(text, {**self.places, "LENGTH": str(length)}, False)
            source, wanted = self.marked(document[:length].encode("latin-1"), filled)
            yield Case(self.own.file, self.own.line, self.name, words, source, kind, status, wanted, self.refused())
        for name in self.own.places:
            if name not in self.used:
                raise self.fault(f"no place of the document: {{{name}}}")

    def edited(self):
        """The document, in which each text that is replaced stands once."""
        document = self.value("document")
        replaced = next((scope.replaced for scope in self.scopes if scope.replaced), [])
        put = next((scope.put for scope in self.scopes if scope.put), [])
        if len(replaced) != len(put):
            raise self.fault("as many texts to replace as texts that are put")
        for old, new in zip(replaced, put):
            if document.count(old) != 1:
                raise self.fault(f"not once in the document: {old!r}")
            document = document.replace(old, new)
        return document

    def filled(self, text, places, once):
        """The text with its places; in a document each stands once."""
        while found := PLACE.search(text):
            name = found[1]
            if name not in places:
                raise self.fault(f"no text for {{{name}}}")
            if once and (name in self.used or text.count(found[0]) != 1):
                raise self.fault(f"not once in the document: {{{name}}}")
            self.used.add(name)
            text = text.replace(found[0], places[name])
        return text

    def marked(self, source, text):
        """Source and answer without the mark, which in the answer stands for the byte that it stands before."""
        wanted = None if text is None else text.encode("latin-1")
        if wanted is None or MARK not in wanted:
            return source, wanted
        if source.count(MARK) != 1:
            raise self.fault("not one @ in the document")
        return source.replace(MARK, b""), wanted.replace(MARK, str(source.index(MARK)).encode())

    def numbers(self, key):
        """The numbers of a list such as 0 4..6."""
        found = []
        for word in self.values[key].split():
            low, _, high = word.partition("..")
            if not low.isdigit() or not (high or low).isdigit():
                raise self.fault(f"no number: {word}")
            found += range(int(low), int(high or low) + 1)
        return found

    def refused(self):
        """The calls that are refused, each a kind and a number."""
        words = self.values.get("refused", "").split()
        return tuple((kind, int(number)) for kind, number in zip(words[::2], words[1::2]))


def read(path):
    """The cases of a file, in order."""
    file, folder = os.path.relpath(path), os.path.dirname(path)
    with open(path, encoding="utf-8") as source:
        blocks = blocks_of(file, source.read().split("\n"))
    found, given, unused = [], {}, None
    for block in blocks:
        scope = Scope(block, folder, file)
        if not block.is_given:
            found += Row([scope] + [given[name] for name in (block.name, "") if name in given], block.name).cases()
            unused = None
        elif unused and block.name == unused.name:
            break
        else:
            given[block.name], unused = scope, block
    if unused:
        raise Fault(file, unused.line, "given for no row")
    if not found:
        raise Fault(file, 1, "no row")
    return found


def all_read(paths):
    """The cases of these files, in each of whose folders a row has to name each document."""
    named = set()
    for path in paths:
        with open(path, encoding="utf-8") as source:
            named |= {os.path.normpath(os.path.join(os.path.dirname(path), name))
                      for name in DOCUMENT.findall(source.read())}
    for folder in sorted({os.path.dirname(path) for path in paths}):
        for document in sorted(glob.glob(os.path.join(folder, "*.unity"))):
            if document not in named:
                raise Fault(os.path.relpath(document), 1, "no row is about this document")
    return [case for path in paths for case in read(path)]


def cases(folder=FOLDER):
    """The rows of all files in a folder and in those inside it."""
    paths = sorted(glob.glob(os.path.join(folder, "**", "*.rows"), recursive=True))
    if not paths:
        raise Fault(os.path.relpath(folder), 1, "no file of rows")
    return all_read(paths)
