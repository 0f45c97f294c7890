"""What is installed, and where: the program, its manual page, the tool for authors, pages, examples, the files of
editors and the completions of shells."""
import glob
import os
import re
from typing import NamedTuple

from unity_tool import completions
from unity_tool.repository import TOP, UNITY

# what is installed as a command, and the command of the tool that it is
INSTALLED = {"check": "check", "prove": "prove", "why": "why", "cost": "cost", "check-all": "all", "watch": "watch",
             "try": "try", "shrink": "shrink", "bounds": "bounds", "trace-svg": "trace", "tool": ""}
STARTER = '#!/bin/sh\nexec python3 -B "$(dirname "$(readlink -f "$0")")/../share/unity/scripts/unity-tool" %s"$@"\n'
SHARE = "share/unity"
# what goes below SHARE as it stands
KEPT = ("editors/**/*", "docs/*.png", "examples/README.md", "examples/*.unity", "examples/causes/*.unity",
        "examples/mistakes/*.unity", "scripts/unity-tool", "scripts/check.mjs", "scripts/unity_tool/**/*.py",
        "scripts/unity_tool/module.mjs", "playground/unity.html", "playground/src/told.js",
        "playground/src/places.js", "VERSION", "LICENSE")
# the pages for authors: the others are about the sources
PAGES = ("CERTIFICATES", "GALLERY", "LANGUAGE", "LOGIC", "PLAYGROUND", "REFERENCE", "TEACHING", "TERMS", "TUTORIAL",
         "WRITING")
LINK = re.compile(rb"\[([^]]*)\]\(([^)#\s]+)(#[^)\s]*)?\)")
LEFT_OUT = "scripts/unity_tool/trials/"
DETECTS = b'autocmd BufNewFile,BufRead *.unity set filetype=unity\n'
COMPILES = b'''" Compiler of UNITY documents: `:compiler unity`, then `:make`
let current_compiler = "unity"
CompilerSet makeprg=unity-check\\ --short\\ %:S
CompilerSet errorformat=%f:%l:%c:\\ %m,%f:%l:\\ %m,%-G%.%#
'''


class Item(NamedTuple):
    """A file: its name below the folder, its bytes and its mode, or the name beside it that it links to."""
    name: str
    data: bytes = b""
    mode: int = 0o644
    link: str = ""


def taken(path, name, mode=0o644):
    """A file of the repository, under this name."""
    with open(path, "rb") as file:
        return Item(name, file.read(), mode)


def programs():
    """The program, and a command for each command of the tool that authors use."""
    for name, command in INSTALLED.items():
        yield Item("bin/unity-" + name, (STARTER % (command and command + " ")).encode(), 0o755)
    yield taken(UNITY, "bin/unity", 0o755)
    yield taken(os.path.join(TOP, "docs", "unity.1"), "share/man/man1/unity.1")


def kept():
    """What stands below SHARE as in the repository."""
    names = {os.path.relpath(path, TOP) for pattern in KEPT + tuple("docs/%s.md" % page for page in PAGES)
             for path in glob.glob(os.path.join(TOP, pattern), recursive=True) if os.path.isfile(path)}
    for name in sorted(names):
        if not name.startswith(LEFT_OUT):
            mode = 0o755 if name in ("scripts/unity-tool", "scripts/check.mjs") else 0o644
            item = taken(os.path.join(TOP, name), "%s/%s" % (SHARE, name), mode)
            yield item._replace(data=with_links(name, item.data, names)) if name.endswith(".md") else item


def with_links(name, text, names):
    """A page with those of its links alone that lead to one of these names, or out: of the others the words stay."""
    def kept_link(found):
        target = os.path.normpath(os.path.join(os.path.dirname(name), found.group(2).decode()))
        leads = b"://" in found.group(2) or any(it == target or it.startswith(target + "/") for it in names)
        return found.group() if leads else found.group(1)
    return LINK.sub(kept_link, text)


def for_editors():
    """The files of Vim, Neovim and Emacs, where these look for them."""
    syntax, mode = (os.path.join(TOP, "editors", name) for name in ("unity.vim", "unity-mode.el"))
    for folder in ("share/vim/vimfiles", "share/nvim/site"):
        yield taken(syntax, folder + "/syntax/unity.vim")
        yield Item(folder + "/ftdetect/unity.vim", DETECTS)
        yield Item(folder + "/compiler/unity.vim", COMPILES)
    yield taken(mode, "share/emacs/site-lisp/unity-mode.el")


def for_shells(zsh):
    """The completions, which bash and fish look for under the name of each command, and zsh in the folder given."""
    bash, fish = "share/bash-completion/completions/", "share/fish/vendor_completions.d/"
    yield Item(bash + "unity", completions.written("bash").encode())
    yield Item(fish + "unity.fish", completions.written("fish").encode())
    yield Item(zsh + "/_unity", completions.written("zsh").encode())
    for name in INSTALLED:
        yield Item(bash + "unity-" + name, link="unity")
        yield Item(fish + "unity-%s.fish" % name, link="unity.fish")


def items(zsh="share/zsh/site-functions"):
    """All that is installed."""
    return [*programs(), *kept(), *for_editors(), *for_shells(zsh)]


def put(item, folder):
    """Writes a file below a folder, in the place of what is there, and gives its path."""
    path = os.path.join(folder, item.name)
    os.makedirs(os.path.dirname(path), exist_ok=True)
    if os.path.lexists(path):
        os.remove(path)
    if item.link:
        os.symlink(item.link, path)
        return path
    with open(path, "wb") as file:
        file.write(item.data)
    os.chmod(path, item.mode)
    return path
