"""The commands of pages and of sessions: each prints what the page or the file says."""
import glob
import os

from unity_tool import sessions
from unity_tool.repository import TOP
from unity_tool.trials.asking import read
from unity_tool.trials.cases import Case, unlike

# about how many seconds a command of a page takes
EACH_SECONDS = 0.3


def carry_out(name, parts, room, tells_status):
    """Carries the commands of a file out."""
    if not parts:
        yield name, "it has no commands"
    for command, came in sessions.carry_out(parts, room, tells_status):
        yield "%s:%d: %s" % (name, command.line, command.words), unlike(command.wanted, came)


def page(name, room):
    return carry_out(name, sessions.parts_of_page(read(name).decode()), room, False)


def console(name, room):
    return carry_out(name, sessions.parts_of_console(read(name).decode()), room, True)


def seconds_of(name):
    """How many seconds a session takes, as its first line may say: `# seconds: 5`."""
    first = read(name).split(b"\n", 1)[0]
    return float(first.split(b":")[1]) if first.startswith(b"# seconds:") else 1


def pages():
    """The pages that have commands, with how many."""
    for name in sorted(glob.glob(os.path.join(TOP, "*.md")) + glob.glob(os.path.join(TOP, "*", "**", "*.md"),
                                                                        recursive=True)):
        commands = read(name).count(b"\n$ ")
        if b"\n```console\n" in read(name) and commands:
            yield os.path.relpath(name, TOP), commands


def consoles():
    """The sessions, in the order of their names."""
    found = [name for folder in ("examples", "tests") for name in
             glob.glob(os.path.join(TOP, folder, "**", "*.console"), recursive=True)]
    return sorted(os.path.relpath(name, TOP) for name in found)


def cases():
    for name, commands in pages():
        yield Case(name, lambda room, name=name: page(name, room), commands * EACH_SECONDS)
    for name in consoles():
        yield Case(name, lambda room, name=name: console(name, room), seconds_of(name))
