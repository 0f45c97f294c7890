"""Puts the built program and what belongs to it under one folder, or takes it away again.

PREFIX is ~/.local where none is given. The program goes to PREFIX/bin, with a command for each of the tool, as
unity-why for why; the manual page to PREFIX/share/man/man1; and the tool, the pages, the examples and the editors'
files to PREFIX/share/unity. The completions of bash, zsh and fish, and the files of Vim, Neovim and Emacs go where
these look for them, below PREFIX/share. The commands need Python, and nothing of the repository or of the toolchain.
The program is the one that `scripts/build.sh` or `scripts/test.sh` built: nothing is compiled here.

With --remove all that was installed under PREFIX goes again. What stands in PREFIX/share/unity/installed says what that
is, and so a later install takes away what an earlier one has put there and it has not.
"""
import os

from unity_tool import layout
from unity_tool.repository import IS_INSTALLED, TOP, UNITY, is_built
from unity_tool.wrong_use import Failure

LISTED = layout.SHARE + "/installed"


def add_options(parser):
    usual = os.path.join(TOP, "..", "..") if IS_INSTALLED else os.path.expanduser("~/.local")
    parser.add_argument("prefix", metavar="PREFIX", nargs="?", default=os.path.normpath(usual), help="the folder")
    parser.add_argument("--remove", action="store_true", help="take away what was installed")


def installed(prefix):
    """The names of what was installed under a folder."""
    try:
        with open(os.path.join(prefix, LISTED), encoding="utf-8") as file:
            return file.read().splitlines()
    except OSError:
        return []


def remove(prefix, names):
    """Takes these away, and the folders that are empty then."""
    for name in names:
        path = os.path.join(prefix, name)
        if os.path.lexists(path):
            os.remove(path)
        folder = os.path.dirname(name)
        while folder and os.path.isdir(os.path.join(prefix, folder)) and not os.listdir(os.path.join(prefix, folder)):
            os.rmdir(os.path.join(prefix, folder))
            folder = os.path.dirname(folder)


def main(chosen):
    before = installed(chosen.prefix)
    if chosen.remove:
        if not before:
            raise Failure(1, "nothing is installed under %s" % chosen.prefix)
        remove(chosen.prefix, before + [LISTED])
        return 0
    if IS_INSTALLED:
        raise Failure(1, "it is installed from a checkout: bash scripts/install.sh")
    if not is_built():
        raise Failure(1, "%s is not built: bash scripts/build.sh" % os.path.relpath(UNITY, TOP))
    items = layout.items()
    names = [item.name for item in items]
    remove(chosen.prefix, sorted(set(before) - set(names)))
    for item in items + [layout.Item(LISTED, "".join(name + "\n" for name in names).encode())]:
        path = layout.put(item, chosen.prefix)
        if item.name.startswith("bin/"):
            print(path)
    return 0
