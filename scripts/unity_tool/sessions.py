"""Sessions of the shell: commands with what they print, as a page of docs/ or a file of tests/ has them.

In a page a block of code that begins with ```LANGUAGE NAME is a file of that name, and a block that begins with
```console has commands; those of ```console where NAME are for where there is a program of that name. A file
NAME.console has commands alone. A command stands on a line after `$ `, and below it what it prints, on standard output
and standard error. In a file its status stands below that, as [1], where it is not 0; a line that is empty, or a
comment after `#`, stands between commands.
"""
import os
import re
import shutil
import subprocess
from typing import NamedTuple

from unity_tool.repository import TOP, UNITY


class Command(NamedTuple):
    """A command, the number of its line, and what it prints; its status too, or nothing where a page tells none."""
    line: int
    words: str
    wanted: bytes


class File(NamedTuple):
    """A file that a page has."""
    name: str
    text: bytes


def parts_of_page(text):
    """The files and the commands of a page, in their order."""
    found, inside, lines = [], None, []

    def end_block():
        if inside == "console":
            found.extend(commands_in(lines))
        elif inside:
            found.append(File(inside, "".join(line + "\n" for _, line in lines).encode()))

    for number, line in enumerate(text.split("\n"), 1):
        if not line.startswith("```"):
            lines.append((number, line))
        elif inside is not None:
            end_block()
            inside = None
        else:
            inside, lines = kind_of(line), []
    return found


def kind_of(line):
    """What a block is that begins with this line: the name of a file, or `console`; else nothing."""
    named, where = re.fullmatch(r"```[a-z]+ ([^ ]+)", line), re.fullmatch(r"```console where ([^ ]+)", line)
    if line == "```console" or where and shutil.which(where.group(1)):
        return "console"
    return named.group(1) if named else ""


def commands_in(lines):
    """The commands of numbered lines; what stands before the first of them is left out."""
    found = []
    for number, line in lines:
        if line.startswith("$ "):
            found.append([number, line[2:], []])
        elif found:
            found[-1][2].append(line + "\n")
    return [Command(number, words, "".join(wanted).encode()) for number, words, wanted in found]


def parts_of_console(text):
    """The commands of a file NAME.console."""
    lines = [(number, line) for number, line in enumerate(text.split("\n"), 1) if line and not line.startswith("#")]
    return [Command(line, words, wanted if re.search(rb"(?m)^\[\d+\]\n\Z", wanted) else wanted + b"[0]\n")
            for line, words, wanted in commands_in(lines)]


def script_of(parts, room, tells_status):
    """What the shell does: each file is written, and each command carried out, in the order of the page."""
    lines = []
    for number, part in enumerate(parts):
        made = os.path.join(room, str(number))
        if isinstance(part, File):
            write(made, part.text)
            lines.append('cp "%s" "%s"' % (made, part.name))
        else:
            write(made, part.words.encode() + b"\n")
            lines.append('. "%s" > "%s.came" 2>&1' % (made, made))
            lines += ['echo "[$?]" >> "%s.came"' % made] if tells_status else []
    return "\n".join(lines) + "\n"


def write(name, data):
    with open(name, "wb") as file:
        file.write(data)


def carry_out(parts, room, tells_status=False):
    """Carries the commands out in one shell, which begins at the top of the repository with an empty folder as HOME and
    the built program as `unity`. Gives each command with what it printed."""
    home, path = os.path.join(room, "home"), os.path.join(room, "bin")
    os.mkdir(home)
    os.mkdir(path)
    if tells_status:
        os.symlink(UNITY, os.path.join(path, "unity"))
    session = os.path.join(room, "session")
    write(session, script_of(parts, room, tells_status).encode())
    subprocess.run(["bash", session], cwd=TOP, stdin=subprocess.DEVNULL, check=False,
                   env={"UNITY_SPIN": "0", **os.environ, "HOME": home, "PATH": path + os.pathsep + os.environ["PATH"]})
    for number, part in enumerate(parts):
        if isinstance(part, Command):
            came = os.path.join(room, "%d.came" % number)
            yield part, open(came, "rb").read() if os.path.exists(came) else b""
