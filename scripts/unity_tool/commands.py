"""The commands, which module carries each out, and how they end."""
import argparse
import errno
import importlib
import os
import re
import sys
from typing import NamedTuple

from unity_tool.repository import IS_INSTALLED
from unity_tool.wrong_use import Failure, WrongUse

WRITE_FAULT, INTERRUPTED = 8, 130


class Command(NamedTuple):
    """A command: its module, how it is called, and what it does."""
    module: str
    usage: str
    does: str


COMMANDS = {
    "check": Command("check", "bash scripts/check.sh FILE..", "checks documents"),
    "prove": Command("prove", "bash scripts/prove.sh FILE [BUDGET]", "finds the certificates of a document"),
    "why": Command("why", "bash scripts/why.sh FILE [BUDGET]", "says why a document is refused"),
    "cost": Command("cost", "bash scripts/cost.sh FILE [--using] [BUDGET]", "says what certificates cost"),
    "vacuous": Command("vacuous", "bash scripts/vacuous.sh FILE", "tells steps that say nothing"),
    "watch": Command("watch", "bash scripts/watch.sh FILE", "reads the claims of a proof on a schedule"),
    "try": Command("trying", "bash scripts/try.sh FILE PROGRAM COUNT SEED [--step NAME] > DOCUMENT",
                   "tries random schedules"),
    "shrink": Command("shrink", "bash scripts/shrink.sh FILE > DOCUMENT", "shortens a schedule"),
    "trace": Command("trace", "bash scripts/trace_svg.sh < TRACE > PICTURE", "draws a trace"),
    "bounds": Command("bounds", "bash scripts/bounds.sh FILE PROGRAM [P Q BOUND INSTANCE..]",
                      "tries the leads-to of a proof on all executions of 8 steps"),
    "all": Command("check_all", "bash scripts/check_all.sh FOLDER [JOBS] [--log LOG] [--hosts HOSTS]",
                   "checks all documents below a folder"),
    "unity": Command("pass_on", "bash scripts/unity.sh WORD.. < FILE", "runs `unity` on standard input"),
    "place": Command("place", "scripts/unity-tool place NAME FILE < ANSWER", "shows the place that an answer names"),
    "spin": Command("spin", "scripts/unity-tool spin FILE [STEP..]", "asks SPIN for a second opinion"),
    "solvers": Command("solvers", "scripts/unity-tool solvers FILE [BUDGET]", "asks z3 and cvc5 for a second opinion"),
    "lsp": Command("lsp", "scripts/unity-tool lsp", "serves editors that speak LSP"),
    "install": Command("install", "bash scripts/install.sh [--remove] [PREFIX]", "puts all of this under one folder"),
    "completions": Command("completions", "scripts/unity-tool completions SHELL", "writes completions for a shell"),
    "deb": Command("deb", "scripts/unity-tool deb [FOLDER]", "makes a package for Debian"),
    "run-tests": Command("trials.run", "scripts/unity-tool run-tests [OPTION..]", "runs the tests"),
    "page": Command("page", "bash scripts/page.sh FILE", "tries the commands of a page"),
    "reading": Command("reading_page", "bash scripts/reading.sh [--check | --write | --text PART]",
                       "says what a reader of the theorem has to read"),
    "map": Command("map_pages", "bash scripts/map.sh [--check]", "writes the tables of rooms and crates"),
    "editors": Command("editors", "bash scripts/editors.sh [--check]", "writes the files in editors/"),
    "fuzz": Command("fuzz", "bash scripts/fuzz.sh SECONDS SEED > DOCUMENT", "changes documents at random"),
    "ends": Command("ends", "bash scripts/ends.sh [EACH [PROGRAM]]", "refuses memory, reads and writes"),
}


# what works where it is installed; all else is for a checkout of the repository
FOR_AUTHORS = ["check", "prove", "why", "cost", "watch", "try", "shrink", "trace", "bounds", "all", "unity", "place",
               "completions", "install", "vacuous", "spin", "solvers", "lsp"]


class Parser(argparse.ArgumentParser):
    """A parser for which other words than it takes are a wrong use."""

    def error(self, message):
        raise WrongUse


def present():
    """The commands that there are here."""
    return {name: it for name, it in COMMANDS.items() if name in FOR_AUTHORS or not IS_INSTALLED}


def usage_of(name):
    """How a command is called: where it is installed by the tool's own name."""
    usage = COMMANDS[name].usage
    return re.sub(r"^(bash )?scripts/[\w.-]+( %s\b)?" % name, "unity-tool " + name, usage) if IS_INSTALLED else usage


def overview():
    wide = max(map(len, present()))
    rows = ["  %-*s  %s" % (wide, name, command.does) for name, command in present().items()]
    called = "unity-tool" if IS_INSTALLED else "scripts/unity-tool"
    return "usage: %s COMMAND WORD..\n\n%s\n\n`%s COMMAND --help` says more.\n" % (called, "\n".join(rows), called)


def carry_out(name, words):
    """Carries a command out, and returns its status."""
    command = COMMANDS[name]
    module = importlib.import_module("unity_tool." + command.module)
    parser = Parser(prog="unity-tool " + name, usage=usage_of(name), description=module.__doc__, allow_abbrev=False,
                    formatter_class=argparse.RawDescriptionHelpFormatter)
    try:
        module.add_options(parser)
        return module.main(parser.parse_args(words))
    except WrongUse:
        sys.stderr.write("usage: %s\n" % usage_of(name))
        return 64
    except Failure as failure:
        sys.stderr.write(failure.says + "\n")
        return failure.status


def main(words):
    """Carries out the command that the words name. Where what it says, or a file, can't be written the status is that
    of `unity` for a write that failed."""
    if not words or words[0] in ("-h", "--help") or words[0] not in present():
        (sys.stdout if words[:1] in (["-h"], ["--help"]) else sys.stderr).write(overview())
        return 0 if words[:1] in (["-h"], ["--help"]) else 64
    try:
        status = carry_out(words[0], words[1:])
        sys.stdout.flush()
        return status
    except KeyboardInterrupt:
        return INTERRUPTED
    except OSError as fault:
        if fault.filename is not None:
            sys.stderr.write("%s: %s\n" % (fault.filename, fault.strerror))
            return WRITE_FAULT
        if fault.errno not in (errno.EPIPE, errno.ENOSPC):
            raise
        os.dup2(os.open(os.devnull, os.O_WRONLY), sys.stdout.fileno())
        return WRITE_FAULT
