"""How `unity` is asked: the built program, where it is there; else the page's module, where node is there; else the
sources are compiled as they are. UNITY_PAGE=1 asks the page's module before the built program.

The built program gets 4 GB of memory at most, or as many MB as UNITY_MEMORY says. A document that wants more ends in
status 9: a text of 100 bytes can ask for so much, and nothing else on the machine is to suffer from it.
"""
import os
import re
import subprocess
import sys
from typing import NamedTuple

from unity_tool import compiled, paged
from unity_tool.repository import TOP, UNITY, is_built
from unity_tool.wrong_use import Failure

READ_FAULT, WANT_OF_MEMORY, USUAL_MEMORY = 7, 9, 4096
BAD_WORDS = 6
BUILDING = "the program is not built: bash scripts/build.sh"
# a shell that limits the memory of what it becomes; where the system grants less, that stays
LIMITED = ["sh", "-c", 'ulimit -Sv "$0" 2> /dev/null; exec "$@"']


class Answer(NamedTuple):
    """The status of `unity`, and what it wrote."""
    status: int
    text: bytes

    def first_line(self):
        return self.text.split(b"\n", 1)[0].decode("latin-1")


def most_memory():
    """How many MB of memory the program may take."""
    said = os.environ.get("UNITY_MEMORY") or str(USUAL_MEMORY)
    if not re.fullmatch(r"[1-9][0-9]{0,8}", said):
        raise Failure(64, "UNITY_MEMORY is a number of MB, and no " + said)
    return int(said)


def need_built():
    """Ends the command where the program is not built."""
    if not is_built():
        raise Failure(1, BUILDING)


def way():
    """What answers: the built program, the page's module, or the sources."""
    if is_built() and not os.environ.get("UNITY_PAGE"):
        return "built"
    return "page" if paged.is_there() else "sources"


def need_answers():
    """Ends a command that asks many questions where each would compile the sources anew."""
    if way() == "sources":
        raise Failure(1, BUILDING)


def limited(words):
    """The built program with these words, and a limit of its memory."""
    return LIMITED + [str(most_memory() * 1024), UNITY] + [str(word) for word in words]


def run_built(words, **ways):
    """Runs the built program, and gives its status and what it wrote. Where the limit of memory is too small for the
    program to start, that is said, and the status is the one for want of memory."""
    done = subprocess.run(limited(words), stderr=subprocess.PIPE, check=False, **ways)
    if (done.returncode in (126, 127) or done.returncode < 0) and not starts():
        sys.stderr.write("the program does not start in %d MB of memory\n" % most_memory())
        return WANT_OF_MEMORY, b""
    if done.stderr:
        sys.stderr.buffer.write(done.stderr)
        sys.stderr.flush()
    return done.returncode if done.returncode >= 0 else 128 - done.returncode, done.stdout


def starts():
    """Whether the built program starts within the limit of memory: with no words it ends at once."""
    done = subprocess.run(limited([]), stdin=subprocess.DEVNULL, stdout=subprocess.DEVNULL, stderr=subprocess.DEVNULL,
                          check=False)
    return done.returncode == BAD_WORDS


def ask(words, text):
    """What `unity` says by these words of this text."""
    if way() == "sources":
        return Answer(*compiled.run(words, text))
    run = run_built if way() == "built" else paged.run
    return Answer(*run(words, input=text, stdout=subprocess.PIPE))


def pass_on(words):
    """Runs `unity` by these words on standard input, and gives its status; what it writes goes to standard output."""
    if way() == "sources":
        return compiled.run(words)[0]
    run = run_built if way() == "built" else paged.run
    return run(words, stdin=standard_input())[0]


def standard_input():
    """Standard input as it was given: a number that scripts/unity.sh tells, nothing where it is that of the tool, and a
    folder, which can't be read either, where it is closed."""
    if os.environ.get("UNITY_INPUT"):
        return int(os.environ["UNITY_INPUT"])
    try:
        os.fstat(0)
        return None
    except OSError:
        return os.open(TOP, os.O_RDONLY | os.O_DIRECTORY)


def ask_each(word, texts, ask_all=map):
    """What `unity` says by this word of each text, in the way that `ask_all` goes through them. The sources are
    compiled once for all of them."""
    if way() == "sources":
        return [Answer(*each) for each in compiled.run_each(word, texts)]
    return list(ask_all(lambda text: ask([word], text), texts))


def unity(words, text):
    """What `unity` says by these words of this text, and its status; texts of a byte a character."""
    answer = ask(words, text.encode("latin-1"))
    return answer.text.decode("latin-1"), answer.status
