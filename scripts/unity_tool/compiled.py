"""`unity` from the sources, which are compiled as they are, in about a minute and with no proof."""
import os
import re
import subprocess
import sys
import tempfile
import time

from unity_tool.repository import TOP

CRATE = os.path.join(TOP, "crates", "unity")
UNREAD = 2
# how often the seconds so far are told: on a terminal in one line, and else in a line of their own
EACH_SECOND, EACH_LINE = 1, 30


def tell(begun, is_terminal):
    sys.stderr.write("%scompiling the sources of `unity`, without a proof: %d s so far%s" % (
        "\r" if is_terminal else "", time.monotonic() - begun, "" if is_terminal else "\n"))
    sys.stderr.flush()


def wait_for(process):
    """Waits for the end, and tells what is done and for how long."""
    begun, is_terminal = time.monotonic(), sys.stderr.isatty()
    while True:
        tell(begun, is_terminal)
        try:
            process.wait(EACH_SECOND if is_terminal else EACH_LINE)
            break
        except subprocess.TimeoutExpired:
            pass
    if is_terminal:
        sys.stderr.write("\r\033[K")


def try_sources(words, stdin, stdout):
    """Runs the sources by these words of `rt try`, and gives the status, and what the toolchain said."""
    with tempfile.TemporaryFile() as notes:
        with subprocess.Popen(["rt", "try"] + words, stdin=stdin, stdout=stdout, stderr=notes, cwd=CRATE) as process:
            wait_for(process)
        notes.seek(0)
        return process.returncode, notes.read()


def run(words, text=None):
    """The status of `unity`, and what it wrote, by these words of this text. Without a text it reads standard input,
    and writes to standard output. What the toolchain says of the sources is shown where they did not come to run."""
    with tempfile.TemporaryFile() as given, tempfile.TemporaryFile() as answer:
        given.write(text or b"")
        given.seek(0)
        ways = (None, None) if text is None else (given, answer)
        status, said = try_sources(["--"] + [str(word) for word in words], *ways)
        if not re.search(rb"(?m)^run=ended", said):
            sys.stderr.buffer.write(said)
            sys.stderr.flush()
        answer.seek(0)
        return status, answer.read()


def run_each(word, texts):
    """The status and the text of each answer, by one word. The sources are compiled once for all texts; their answers
    come one after the other, each below a line with its number."""
    with tempfile.TemporaryDirectory() as room, tempfile.TemporaryFile() as answers:
        for number, text in enumerate(texts, 1001):
            with open(os.path.join(room, str(number)), "wb") as file:
                file.write(text)
        _, said = try_sources(["--cases", room, "--", word], subprocess.DEVNULL, answers)
        answers.seek(0)
        rest = answers.read()
    found = []
    for number in range(1001, 1001 + len(texts)):
        _, _, rest = rest.partition(b"== %d\n" % number)
        status = re.search(rb"(?m)^case=%d run=ended status=(\d+) " % number, said)
        if not status:
            sys.stderr.buffer.write(said)
        found.append((int(status.group(1)) if status else UNREAD, rest.split(b"== %d\n" % (number + 1), 1)[0]))
    return found
