"""SPIN at work on a model: written, compiled and run within limits of time and memory, and its trail read."""
import os
import re
import shutil
import signal
import subprocess
import tempfile
import time
from typing import NamedTuple, Optional

HOLDS, VIOLATED, UNDECIDED = "holds", "violated", "undecided"
DEPTH = 1000000
# where so many seconds are left in all, the compiler is not asked to take its time
QUICK = 15
# one of several questions may take so much of the whole time, where it is left
LEAST = 6
# a search that is stopped has so many seconds to tell how far it was
MOMENT = 2


class Limits:
    """What may be taken: seconds, from now on, and MB of memory for a search; `whole` is the limit of all questions."""

    def __init__(self, seconds, memory, whole=None):
        self.seconds, self.memory, self.end = seconds, memory, time.monotonic() + seconds
        self.whole = seconds if whole is None else whole

    def left(self):
        return self.end - time.monotonic()

    def part(self, questions):
        """The limits of the next one of so many questions, so that what takes long leaves some time to the others."""
        left = max(0.0, self.left())
        return Limits(max(left / questions, min(left, self.whole / LEAST)), self.memory, self.whole)

    def reached(self):
        """What is said where the time was over."""
        if self.seconds > self.whole - 1 or self.seconds < 1:
            return "the limit of %d s was reached%s" % (self.whole, " before" if self.seconds < 1 else "")
        return "it was not done in %d s, its part of the limit of %d s" % (self.seconds, self.whole)


class Found(NamedTuple):
    """What SPIN found: how it ended, the states that it saw, and of a violation the initial state, the choices, where
    its cycle begins, and which claim; where it did not decide, why."""
    verdict: str
    states: int = 0
    initial: Optional[dict] = None
    choices: Optional[list] = None
    cycle: Optional[int] = None
    claim: Optional[int] = None
    why: str = ""


class Said(NamedTuple):
    """What a program printed, and its status, or nothing where the time was over."""
    text: str
    status: Optional[int]


def is_there():
    """Whether SPIN and a compiler are there."""
    return shutil.which("spin") is not None and shutil.which("gcc") is not None


def run(words, room, limits):
    """What these words print in a folder, within the time that is left; all that they start ends with them."""
    if limits.left() <= 0:
        return Said("", None)
    with subprocess.Popen(words, cwd=room, stdin=subprocess.DEVNULL, stdout=subprocess.PIPE, stderr=subprocess.STDOUT,
                          start_new_session=True) as process:
        try:
            text, _ = process.communicate(timeout=max(0.0, limits.left()))
            return Said(text.decode("utf-8", "replace"), process.returncode)
        except subprocess.TimeoutExpired:
            return Said(last_words(process), None)
        finally:
            tell_all(process.pid, signal.SIGKILL)


def last_words(process):
    """What a process that is stopped still prints."""
    tell_all(process.pid, signal.SIGINT)
    try:
        return process.communicate(timeout=MOMENT)[0].decode("utf-8", "replace")
    except subprocess.TimeoutExpired:
        return ""


def tell_all(group, number):
    """Sends a signal to what is left of a group of processes."""
    try:
        os.killpg(group, number)
    except (ProcessLookupError, PermissionError):
        pass


def search(model, is_fair, processes, limits):
    """Searches a model for a violation of its assertions, the shortest one first; or by fair runs for what must never
    be."""
    with tempfile.TemporaryDirectory() as room:
        with open(os.path.join(room, "model.pml"), "w", encoding="utf-8") as file:
            file.write(model)
        flags = ["-DNFAIR=%d" % (processes // 4 + 3)] if is_fair else ["-DBFS", "-DSAFETY"]
        flags += ["-O1" if limits.seconds > QUICK else "-O0", "-w", "-DNOREDUCE", "-DVECTORSZ=65536",
                  "-DMEMLIM=%d" % limits.memory]
        for words, made in ((["spin", "-a", "model.pml"], "pan.c"), (["gcc", *flags, "-o", "pan", "pan.c"], "pan")):
            said = run(words, room, limits)
            if said.status != 0 or not os.path.exists(os.path.join(room, made)):
                return Found(UNDECIDED, why=refusal(words[0], said, limits))
        # (-E: a choice of a start at which the program may not begin ends there, and is no fault)
        told = run(["./pan", *(["-a", "-f", "-m%d" % DEPTH] if is_fair else ["-E"])], room, limits)
        return judged(told, is_fair, room, limits)


def refusal(program, said, limits):
    """Why a model was not made."""
    if said.status is None:
        return limits.reached()
    if said.status < 0:
        return "%s was stopped by signal %d" % (program, -said.status)
    lines = [line for line in said.text.split("\n") if "rror" in line] + said.text.strip().split("\n")
    return "%s does not take the model: %s" % (program, lines[0].strip() or "status %d" % said.status)


def judged(told, is_fair, room, limits):
    """What a search found, by what it printed."""
    errors, states = (re.search(it, told.text) for it in (r"errors: (\d+)", r"(\d+) states, stored"))
    nominal = re.search(r"(\d+) nominal states", told.text)
    seen = int((nominal or states).group(1)) if states else 0
    if told.status is None:
        return Found(UNDECIDED, seen, why=limits.reached())
    if errors and errors.group(1) != "0":
        replayed = run(["./pan", "-r"], room, limits)
        if replayed.status is None:
            return Found(UNDECIDED, seen, why=limits.reached())
        found = trail(replayed.text, seen)
        return found if is_fair or found.claim is not None else Found(UNDECIDED, seen, why=stopped_at(told.text))
    if "out of memory" in told.text or "memory limit" in told.text or "MEMLIM" in told.text:
        return Found(UNDECIDED, seen, why="the limit of %d MB was reached" % limits.memory)
    if "max search depth too small" in told.text:
        return Found(UNDECIDED, seen, why="a run went deeper than %d steps" % DEPTH)
    return Found(HOLDS, seen) if errors else Found(UNDECIDED, seen, why="SPIN was stopped")


def stopped_at(text):
    """What SPIN says where it stopped and no claim is broken."""
    said = re.search(r"(?m)^pan:\d+: (.*)$", text)
    return "SPIN stopped where no claim is broken" + (": " + said.group(1) if said else "")


def trail(replayed, seen):
    """The run of a trail."""
    initial, choices, cycle, claim = {}, [], None, None
    for line in replayed.split("\n"):
        if "@= " in line:
            name, value = line.split("@= ")[1].split()
            initial[name] = int(value)
        elif "@@ " in line:
            choices.append(line.split("@@ ")[1].strip())
        elif "@! " in line:
            claim = int(line.split("@! ")[1])
        elif "START OF CYCLE" in line:
            cycle = len(choices)
    return Found(VIOLATED, seen, initial, choices, cycle, claim)
