"""What scripts/install.sh and `unity-tool deb` put in place: the commands, links to them, the links of pages, what
shells complete, and the files of editors, each by the shell or the editor itself where it is there."""
import os
import re
import shutil

from unity_tool import layout
from unity_tool.trials.asking import ask, script
from unity_tool.trials.cases import Case, faults, other_status, unlike

# an installed command, or a link to one, and the script that does the same here
COMMANDS = [
    ("checks examples/count.unity", "bash scripts/check.sh examples/count.unity"),
    ("unity check < examples/count.unity", "crates/unity/out/unity check < examples/count.unity"),
    ("unity-why examples/pick.unity", "bash scripts/why.sh examples/pick.unity"),
    ("unity-watch examples/race.unity", "bash scripts/watch.sh examples/race.unity"),
    ("unity-try examples/lost_update_mended.unity Tally 1 1",
     "bash scripts/try.sh examples/lost_update_mended.unity Tally 1 1"),
    ("unity-check-all examples/causes 2", "bash scripts/check_all.sh examples/causes"),
]
# what a shell says where it completes: its words, and what is wanted of them
BASH = '''source share/bash-completion/completions/unity-check; compopt() { :; }
say() { COMP_WORDS=("$@"); COMP_CWORD=$(($# - 1)); _unity; printf "%s\\n" "${COMPREPLY[@]}"; }
say unity-check --js; say unity pro; say unity-tool sh; say unity-tool watch --sh; say unity-why share/unity/examples/gc
say unity-check-all share/unity/ex'''
COMPLETED = ["--json", "prove", "shrink", "--short", "share/unity/examples/gcd.unity", "share/unity/examples"]
FISH = '''source share/fish/vendor_completions.d/unity-check.fish
for it in "unity-check --js" "unity pro" "unity-tool sh" "unity-tool watch --sh" "unity-why share/unity/examples/gc"
    complete -C $it
end'''
ZSH = "fpath=($PWD/share/zsh/site-functions $fpath); autoload -Uz compinit; compinit -u -D; " \
    "print $_comps[unity] $_comps[unity-check-all]; autoload +X _unity"
VIM = ["-es", "-u", "NONE", "-i", "NONE", "--cmd", "set nocompatible runtimepath^=share/vim/vimfiles",
       "-c", "filetype plugin on", "-c", "syntax on", "-c", "edit share/unity/examples/pick.unity",
       "-c", "redir! > vim.said", "-c", "echo &filetype synIDattr(synID(search('^program'), 1, 1), 'name')",
       "-c", "compiler unity", "-c", "cgetexpr system('unity-check --short ' . expand('%'))",
       "-c", "echo map(getqflist(), 'v:val.lnum')", "-c", "redir END", "-c", "qa!"]
EMACS = '(progn (find-file "share/unity/examples/pick.unity") (font-lock-ensure) (goto-char (point-min))' \
    ' (search-forward "defined") (princ (format "%s %s %s" major-mode (get-text-property (1- (point)) (quote face))' \
    ' (string-match-p "unity-check --short .*pick.unity" compile-command))))'


def installed(room):
    """From a folder that scripts/install.sh wrote the commands do what the scripts do here, and it can be removed."""
    prefix = os.path.join(room, "here")
    for time in ("scripts/install.sh", "scripts/install.sh, once more"):
        yield time, other_status(0, script("install.sh", prefix))
    os.symlink(os.path.join(prefix, "bin", "unity-check"), os.path.join(room, "checks"))
    path = os.pathsep.join([os.path.join(prefix, "bin"), room, os.environ["PATH"]])
    for command, here in COMMANDS:
        came = ask(["bash", "-c", command + " 2>&1"], env={**os.environ, "PATH": path})
        wanted = ask(["bash", "-c", here + " 2>&1"])
        yield "the installed " + command, faults(other_status(wanted.status, came), unlike(wanted.text, came.text))
    yield "the links of the installed pages", unlike("", "\n".join(broken_links(prefix)), "list")
    yield from completed(prefix, room)
    yield from edited(prefix, {**os.environ, "PATH": path, "HOME": room})
    came = ask([os.path.join(prefix, "bin", "unity-tool"), "install", "--remove"])
    left = "\n".join(files_below(prefix))
    yield "unity-tool install --remove", faults(other_status(0, came), unlike("", left, "list"))


def files_below(folder):
    return sorted(os.path.relpath(os.path.join(here, name), folder) for here, _, names in os.walk(folder)
                  for name in names)


def broken_links(prefix):
    """The links of installed pages to files that are not there."""
    pages = [os.path.join(prefix, name) for name in files_below(prefix) if name.endswith(".md")]
    for page in pages:
        with open(page, "rb") as file:
            targets = [found.group(2).decode() for found in layout.LINK.finditer(file.read())]
        yield from ("%s: %s" % (page, it) for it in targets
                    if "://" not in it and not os.path.exists(os.path.join(os.path.dirname(page), it)))


def completed(prefix, room):
    """What the shells complete."""
    came = ask(["bash", "-c", BASH], cwd=prefix)
    yield "completions of bash", unlike("\n".join(COMPLETED) + "\n", came.text.decode() + came.notes.decode())
    if shutil.which("fish"):
        came = ask(["fish", "--no-config", "-c", FISH], cwd=prefix, env={**os.environ, "HOME": room})
        words = re.sub(r"\t.*", "", came.text.decode()).split("\n")
        yield "completions of fish", unlike(COMPLETED[:-1] + [""], words, "list")
    if shutil.which("zsh"):
        came = ask(["zsh", "-f", "-c", ZSH], cwd=prefix, env={**os.environ, "HOME": room})
        yield "completions of zsh", unlike("_unity _unity\n", came.text.decode() + came.notes.decode())
    if shutil.which("shellcheck"):
        found = ask(["shellcheck", "-s", "bash", "share/bash-completion/completions/unity"], cwd=prefix)
        yield "shellcheck of the completions", unlike("", found.text.decode())


def edited(prefix, environment):
    """What the editors do with a document: its kind, the colour of a word, and the line of a refusal."""
    if shutil.which("vim"):
        ask(["vim", *VIM], cwd=prefix, env=environment)
        with open(os.path.join(prefix, "vim.said"), encoding="utf-8") as file:
            yield "the files of Vim", unlike("unity unitySection\n[13]", file.read().strip())
        os.remove(os.path.join(prefix, "vim.said"))
    if shutil.which("nvim"):
        words = ["--headless", "-u", "NONE", "-i", "NONE", "-c", "filetype plugin on", "-c", "syntax on",
                 "-c", "edit share/unity/examples/pick.unity",
                 "-c", "echo &filetype synIDattr(synID(search('^program'), 1, 1), 'name')", "-c", "qa!"]
        data = {**environment, "XDG_DATA_HOME": os.path.join(prefix, "share")}
        came = ask(["nvim", *words], cwd=prefix, env=data)
        yield "the files of Neovim", unlike("unity unitySection", came.notes.decode().strip())
    if shutil.which("emacs"):
        came = ask(["emacs", "--batch", "-Q", "-L", "share/emacs/site-lisp", "-l", "unity-mode", "--eval", EMACS],
                   cwd=prefix, env=environment)
        yield "the mode of Emacs", unlike("unity-mode font-lock-function-name-face 0", came.text.decode())


def packed(room):
    """The package has what is installed, below /usr, and each time the same bytes."""
    if not shutil.which("dpkg-deb"):
        return
    made = []
    for name in ("one", "other"):
        os.mkdir(os.path.join(room, name))
        came = ask(["python3", "-B", "scripts/unity-tool", "deb", os.path.join(room, name)])
        yield "unity-tool deb", other_status(0, came)
        made.append(came.text.decode().strip())
    data = [open(path, "rb").read() for path in made]
    yield "the package, made twice", None if data[0] == data[1] else "the bytes differ"
    whole = os.path.join(room, "whole")
    came = ask(["dpkg-deb", "-x", made[0], whole])
    wanted = sorted("usr/" + item.name for item in layout.items("share/zsh/vendor-completions"))
    here = [re.sub(r"(\.1)\.gz$", r"\1", name) for name in files_below(whole)]
    others = [name for name in here if not name.startswith(("etc/", "usr/share/doc/"))]
    yield "the files of the package", faults(other_status(0, came), unlike("\n".join(wanted), "\n".join(others)))
    came = ask([os.path.join(whole, "usr", "bin", "unity-check"), "examples/count.unity"])
    yield "a command of the package", other_status(0, came)


def cases():
    yield Case("what is installed", installed, 15)
    yield Case("the package for Debian", packed, 15)
