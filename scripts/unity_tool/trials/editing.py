"""The chapter of docs/TUTORIAL.md on editors: what it types into Neovim, where that is there, shows what it says. A
block of `vim` or of `elisp` has what is typed, and the block of `text` below it lines that are seen then."""
import os
import re
import shutil

from unity_tool.repository import TOP
from unity_tool.trials.asking import ask, read
from unity_tool.trials.cases import Case, faults, other_status

# an editor that is not through after so many seconds is ended, and the test fails
LONGEST = 1800
BLOCK = re.compile(r"(?ms)^```(vim|elisp|text)\n(.*?)^```$")
# the language of what is typed, and the words that start the editor
EDITORS = {"vim": ["nvim", "--headless", "-u", "NONE", "-c", "luafile tests/editors/neovim.lua"],
           "elisp": ["emacs", "--batch", "-q", "-l", "tests/editors/emacs.el"]}


def chapter():
    """The chapter on editors."""
    page = read("docs", "TUTORIAL.md").decode()
    return re.search(r"(?ms)^## \d+\. In an editor$.*?(?=^## )", page).group()


def typed_in(language):
    """What the chapter types in this language, with the lines that are seen after it."""
    found, last_kind = [], ""
    for kind, text in BLOCK.findall(chapter()):
        if kind == language:
            found.append((text.splitlines(), []))
        elif kind == "text" and found and last_kind != "text":
            found[-1][1].extend(text.splitlines())
        last_kind = kind if kind == language or kind == "text" else "text"
    return found


def is_there(language):
    """Whether the editor is there, and for Emacs eglot too."""
    if not shutil.which(EDITORS[language][0]):
        return False
    return language != "elisp" or ask(["emacs", "--batch", "-q", "--eval",
                                       "(progn (require 'package) (package-initialize) (require 'eglot))"]).status == 0


def missing(wanted, seen):
    """What of these lines is not seen, in their order; nothing where all are."""
    at = 0
    for line in wanted:
        while at < len(seen) and seen[at].rstrip() != line.rstrip():
            at += 1
        if at == len(seen):
            return "this line is not seen:\n%s\nin:\n%s" % (line, "\n".join(seen))
        at += 1
    return None


def replayed(language, room):
    """Types what the chapter types, and looks for what it shows."""
    blocks = typed_in(language)
    if not is_there(language):
        return
    shutil.copy(os.path.join(TOP, "examples", "race.unity"), room)
    lines, seen = os.path.join(room, "lines"), os.path.join(room, "seen")
    with open(lines, "w", encoding="utf-8") as file:
        file.write("\n".join(line for typed, _ in blocks for line in typed) + "\n")
    program, *words = EDITORS[language]
    words = [it.replace("tests/", os.path.join(TOP, "tests") + os.sep) for it in words]
    came = ask([program, *words], cwd=room, timeout=LONGEST, env={
        **os.environ, "EDITORS": os.path.join(TOP, "editors"), "LINES_OF": lines, "SEEN": seen, "HOME": room})
    if not os.path.exists(seen):
        yield "the chapter in %s" % program, faults(other_status(0, came), "nothing was seen")
        return
    with open(seen, encoding="utf-8") as file:
        rest = file.read()
    for number, (typed, wanted) in enumerate(blocks):
        after = blocks[number + 1][0][0] if number + 1 < len(blocks) else None
        part, rest = rest.split("\n%s\n" % after, 1) if after and "\n%s\n" % after in rest else (rest, rest)
        yield "the chapter in %s: %s" % (program, typed[-1]), missing(wanted, part.splitlines())
    proved = ask(["bash", "scripts/check.sh", os.path.join(room, "race.unity")])
    yield "the document of the chapter in %s" % program, other_status(0, proved)


def extension(room):
    """The extension for Visual Studio Code, with a stand-in for the editor, where node is there."""
    del room
    if shutil.which("node"):
        came = ask(["node", "tests/editors/vscode.js", os.path.join(TOP, "examples", "race.unity"), "unity.run"],
                   timeout=LONGEST)
        wanted = ["28: refuted Race.claims obligation 18", "Race Race", "1], look[0], take[1], take[0]"]
        yield "the extension for Visual Studio Code", missing(wanted, came.text.decode().splitlines())


def cases():
    yield Case("the extension for Visual Studio Code", extension, 10)
    yield Case("the chapter on editors, in nvim", lambda room: replayed("vim", room), 20)
    yield Case("the chapter on editors, in emacs", lambda room: replayed("elisp", room), 20)
