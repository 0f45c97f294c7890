"""Puts the page together, as one file: build.py MODULE OUT.html COMMIT SOURCES PROGRAM

MODULE is a module, or a page: then the module that stands in it is taken. COMMIT, and the sums SOURCES of all sources
and PROGRAM of those of the module, are what the foot of the page says it was made from. The version there is that of
the file VERSION.
"""
import base64
import json
import os
import re
import sys

from exercises_read import exercises_of
from lessons import Lessons, inline

TOP = os.path.normpath(os.path.join(os.path.dirname(os.path.abspath(__file__)), "../.."))
SCRIPTS = ["engine.js", "sections.js", "told.js", "places.js", "answers.js", "claims.js", "editor.js", "keep.js",
           "requests.js", "pictures.js", "addresses.js", "lessons.js", "stepper.js", "search.js", "exercises.js",
           "page.js"]
KEPT = re.compile(r'<script type="text/plain" id="module">([^<]*)</script>')


def text_of(path):
    with open(os.path.join(TOP, path), encoding="utf-8") as file:
        return file.read()


def rows_of(path):
    """The rows of the tables of a page, each as the list of its cells."""
    for line in text_of(path).split("\n"):
        if line.startswith("| "):
            yield [cell.strip() for cell in line.strip("|").split(" | ")]


def plain(cell):
    """Prose without its marks: links are their text, and what is code stands in quotes."""
    text = re.sub(r"\[([^]]*)\]\([^)]*\)", r"\1", cell).replace("\\|", "|")
    return re.sub(r"`([^`]*)`", "“\\1”", text)


def codes():
    """The usual mistake and the cure of each code, from the tables of docs/WRITING.md."""
    found = {}
    for cells in rows_of("docs/WRITING.md"):
        code = re.match(r"(\d+) `\w+`$", cells[0])
        if code:
            found[code.group(1)] = {"mistake": plain(cells[1]), "cure": plain(cells[2])}
    return found


def documents():
    """The documents of examples/ by their names, as peterson or mistakes/ampersands."""
    found = {}
    for folder in ("", "mistakes/", "causes/"):
        for name in sorted(os.listdir(os.path.join(TOP, "examples", folder))):
            if name.endswith(".unity"):
                found[folder + name[:-len(".unity")]] = text_of("examples/" + folder + name)
    return found


def first_comment(text):
    """The first comment of a document, up to the end of its first sentence."""
    lines = re.search(r"(?:^#.*\n)+", text, re.M).group(0)
    words = " ".join(line.lstrip("# ") for line in lines.split("\n")).strip()
    return plain(re.sub(r"\.\./(\w+)\.unity", r"\1", words.split(". ")[0].rstrip(".")))


def gallery(texts):
    """The menu: groups with a title each, of documents with a sentence each."""
    protocols, small = [], []
    for cells in rows_of("examples/README.md"):
        names = re.findall(r"`(\w+)`", cells[0])
        if len(cells) == 4 and len(names) == 1 and names[0] in texts:
            protocols.append([names[0], "%s: %s" % (plain(cells[1]), plain(cells[2]))])
        elif len(cells) == 3 and len(names) == 1 and names[0] in texts:
            small.append([names[0], plain(cells[1])])
    protocol_names = {name for name, _ in protocols}
    small = [row for row in small if row[0] not in protocol_names]
    groups = [{"title": "Protocols, with their proofs", "rows": protocols}, {"title": "Small documents", "rows": small}]
    for folder, title in (("mistakes/", "Usual mistakes"), ("causes/", "Protocols with a mistake")):
        rows = [[name, first_comment(texts[name])] for name in texts if name.startswith(folder)]
        groups.append({"title": title, "rows": rows})
    told = {name for group in groups for name, _ in group["rows"]}
    if told != set(texts):
        sys.exit("build.py: examples/README.md has no sentence of %s" % ", ".join(sorted(set(texts) - told)))
    return groups


def exercises():
    """The exercises for the page: the task as HTML, and all else as it is needed to judge a text."""
    found = []
    for it in exercises_of(os.path.join(TOP, "examples", "exercises")):
        found.append({"name": it.name, "title": it.title, "chapter": it.chapter, "goal": it.goal,
                      "holes": it.holes, "hints": [plain(hint) for hint in it.hints], "solution": it.solution,
                      "start": it.start, "html": "".join("<p>%s</p>" % inline(part) for part in it.task)})
    return found


def module_of(path):
    """The module in base64: of a file of its own, or of the page that has it."""
    with open(path, "rb") as file:
        content = file.read()
    if path.endswith(".html"):
        return KEPT.search(content.decode()).group(1)
    return base64.b64encode(content).decode()


def data():
    texts = documents()
    lessons = Lessons(text_of("docs/TUTORIAL.md"))
    return {
        "grammar": json.loads(text_of("editors/unity.tmLanguage.json")),
        "documents": texts,
        "gallery": gallery(texts),
        "codes": codes(),
        "lessons": lessons.chapters,
        "tries": lessons.tries,
        "texts": lessons.texts,
        "exercises": exercises(),
    }


def page_script():
    """The scripts of the page as one, in which no name is declared twice: the browser would run none of it."""
    whole = "'use strict';\n" + "\n".join(text_of("playground/src/" + it) for it in SCRIPTS).rstrip("\n")
    names = re.findall(r"^(?:async )?function (\w+)|^(?:const|let) (.*)$", whole, re.M)
    found = [name for function, names_of in names for name in
             ([function] if function else re.findall(r"(?:^|, )(\w+)(?= =|[,;]|$)", names_of))]
    twice = sorted({name for name in found if found.count(name) > 1})
    if twice:
        sys.exit("build.py: declared twice in playground/src: %s" % ", ".join(twice))
    return whole


def script(text):
    """A text of JSON in a script element, which it must not end."""
    return re.sub(r"<(?=[/!])", r"\\u003c", text)


def main(module, out, commit, sources, program):
    parts = {
        "version": text_of("VERSION").strip(),
        "playground.css": text_of("playground/src/playground.css").rstrip("\n"),
        "commit": commit,
        "sources": sources,
        "program-sources": program,
        "module": module_of(module),
        "data": script(json.dumps(data(), ensure_ascii=False)),
        "playground.js": page_script(),
    }
    page = text_of("playground/src/index.html")
    page = re.sub(r"@(%s)@" % "|".join(map(re.escape, parts)), lambda mark: parts[mark.group(1)], page)
    with open(out, "w", encoding="utf-8") as file:
        file.write(page)
    print("%s: %d bytes" % (out, os.path.getsize(out)))


if __name__ == "__main__":
    main(*sys.argv[1:])
