"""Makes a package for Debian and its relatives: unity-checker_VERSION_ARCHITECTURE.deb.

It has what `install` puts under a folder, below /usr, with Emacs told of its mode. It goes to FOLDER, or to where you
are, and its name is printed. The same commit gives the same bytes. `dpkg-deb` makes it, and the program has to be
built. In Debian `unity` is the name of another package, and so this one is called `unity-checker`; its command is
`unity`.
"""
import gzip
import hashlib
import os
import re
import shutil
import subprocess
import tempfile

from unity_tool import layout
from unity_tool.repository import TOP, UNITY, is_built
from unity_tool.wrong_use import Failure

NAME = "unity-checker"
CONTROL = """Package: %s
Version: %s
Architecture: %s
Maintainer: the authors of unity <unity-checker@localhost>
Installed-Size: %d
Depends: %s
Suggests: nodejs, parallel, rsync
Conflicts: unity
Section: math
Priority: optional
Description: checker for proofs of UNITY programs
 unity checks proofs of programs in the notation of Chandy and Misra's book
 "Parallel Program Design". It finds certificates for what is claimed of a
 program, or a counterexample, and judges certificates by a checker that is
 itself proved. The package has the tools for authors, the examples, the
 pages, and files for bash, zsh, fish, Vim, Neovim and Emacs.
"""
EMACS_START = b"""(when (file-exists-p "/usr/share/emacs/site-lisp/unity-mode.el")
  (autoload 'unity-mode "unity-mode" "A mode for UNITY documents." t)
  (add-to-list 'auto-mode-alist '("\\\\.unity\\\\'" . unity-mode)))
"""
CONFIGURED = "etc/emacs/site-start.d/50%s.el" % NAME


def add_options(parser):
    parser.add_argument("folder", metavar="FOLDER", nargs="?", default=".", help="where the package goes")


def output_of(words):
    """What a program prints, or nothing where it fails."""
    done = subprocess.run(words, stdout=subprocess.PIPE, stderr=subprocess.DEVNULL, cwd=TOP, check=False)
    return done.stdout.decode().strip() if done.returncode == 0 else ""


def compressed(data):
    return gzip.compress(data, 9, mtime=0)


def needs():
    """What the package depends on: Python, and the C library in the version whose symbols the program has."""
    with open(UNITY, "rb") as file:
        found = re.findall(rb"GLIBC_(\d+)\.(\d+)", file.read())
    libraries = ["libc6 (>= %d.%d)" % max((int(one), int(other)) for one, other in found)] if found else []
    return ", ".join(["python3 (>= 3.8)"] + libraries)


def packed(item):
    """A file of the package: the manual page is compressed, as Debian wants it."""
    if item.name.startswith("share/man/"):
        item = layout.Item(item.name + ".gz", compressed(item.data))
    return item._replace(name="usr/" + item.name)


def contents():
    """The files of the package."""
    with open(os.path.join(TOP, "LICENSE"), "rb") as file:
        licence = file.read()
    with open(os.path.join(TOP, "CHANGELOG.md"), "rb") as file:
        changes = file.read()
    documents = "usr/share/doc/%s/" % NAME
    return [packed(item) for item in layout.items("share/zsh/vendor-completions")] + [
        layout.Item(documents + "copyright", licence), layout.Item(documents + "changelog.gz", compressed(changes)),
        layout.Item(CONFIGURED, EMACS_START)]


def described(items, version):
    """What the package says of itself."""
    size = sum(len(item.data) for item in items) // 1024 + 1
    sums = "".join("%s  %s\n" % (hashlib.md5(item.data).hexdigest(), item.name) for item in items if not item.link)
    architecture = output_of(["dpkg", "--print-architecture"])
    control = CONTROL % (NAME, version, architecture, size, needs())
    return architecture, [layout.Item("DEBIAN/control", control.encode()), layout.Item("DEBIAN/md5sums", sums.encode()),
                          layout.Item("DEBIAN/conffiles", ("/%s\n" % CONFIGURED).encode())]


def main(chosen):
    if not is_built():
        raise Failure(1, "%s is not built: bash scripts/build.sh" % os.path.relpath(UNITY, TOP))
    if not shutil.which("dpkg-deb"):
        raise Failure(1, "there is no dpkg-deb, which makes the package")
    with open(os.path.join(TOP, "VERSION"), encoding="utf-8") as file:
        version = file.read().strip()
    items = contents()
    architecture, about = described(items, version)
    path = os.path.join(chosen.folder, "%s_%s_%s.deb" % (NAME, version, architecture))
    moment = os.environ.get("SOURCE_DATE_EPOCH") or output_of(["git", "log", "-1", "--format=%ct"]) or "0"
    os.umask(0o022)
    with tempfile.TemporaryDirectory() as room:
        os.chmod(room, 0o755)
        for item in items + about:
            layout.put(item, room)
        done = subprocess.run(["dpkg-deb", "--root-owner-group", "--build", room, path], stdout=subprocess.DEVNULL,
                              env={**os.environ, "SOURCE_DATE_EPOCH": moment}, check=False)
    if done.returncode:
        raise Failure(1, "dpkg-deb does not make %s" % path)
    print(path)
    return 0
