"""Changes the documents of examples/ at random, and compares what two ways of one question say of each.

A document is read whole and byte by byte; what `prove` and `upgrade` write is checked; `obligations` tells of the steps
that `check` accepts; the schedule that `run` follows is replayed, and watched; and `fixed` is a run up to a place. Each
time both must say the same, and no question may end by a signal. After so many seconds it counts what it did on
standard error, and exits with status 0. The first document of which the two say different things goes to standard
output, and what they say to standard error; then the status is 1. The same SEED, a number, gives the same documents in
the same order. A question that takes 5 seconds or 1 GB is given up. It wants the built program.
"""
import glob
import os
import random
import re
import resource
import socket
import subprocess
import sys
import threading
import time

from unity_tool.document import TOKEN
from unity_tool.files import write
from unity_tool.obligations import accepted_text
from unity_tool.plan import Plan
from unity_tool.program import need_built
from unity_tool.repository import TOP, UNITY
from unity_tool.schedules import Scheduled
from unity_tool.trying import number

# a question that takes more seconds of processor, or more MB, is given up
MOST_SECONDS = 5
MOST_MEGABYTES = 1024
# no longer document is read byte by byte
MOST_SLOW_BYTES = 20000
BUDGET = 2000
WORDS = ("and or not => = /= < <= > >= + - * div mod ( ) [ ] , ; : := :: .. || [] <|| <[] |> ~ . all any sum true "
         "false if program declare always initially start assign end proof schedule certificates boolean array of by "
         "text with using from weaken trans either psp induct exists imply conj disj cancel union until detects "
         "constant fixed leadsto ensures unless invariant stable defined case split round quot complete").split()
NUMBERS = ("0 1 2 3 7 10 16 4095 4096 4097 65535 65536 2147483647 2147483648 1000000000 4611686018427387904 "
           "9223372036854775807 9223372036854775808 18446744073709551616").split()


class Draw:
    """Random numbers that are the same for one seed, from one Python to the next."""

    def __init__(self, seed):
        self.source = random.Random(seed)

    def below(self, most):
        return int(self.source.random() * most)

    def one(self, items):
        return items[self.below(len(items))]


class Unity:
    """The program, asked about texts."""

    def __init__(self, program):
        self.program, self.given_up = program, 0

    def ask(self, words, text, slow=False):
        """The status and the answer; None for the answer where the question is given up."""
        command = [self.program] + [str(word) for word in words]
        if slow:
            status, answer = read_slowly(command, text)
        else:
            done = subprocess.run(command, input=text, stdout=subprocess.PIPE, preexec_fn=bounded, check=False)
            status, answer = done.returncode, done.stdout
        if status == 9 or status in (-9, -24):
            self.given_up += 1
            return status, None
        return status, answer


def bounded():
    resource.setrlimit(resource.RLIMIT_CPU, (MOST_SECONDS, MOST_SECONDS + 1))
    resource.setrlimit(resource.RLIMIT_AS, (MOST_MEGABYTES << 20, MOST_MEGABYTES << 20))
    resource.setrlimit(resource.RLIMIT_CORE, (0, 0))


def read_slowly(command, text):
    """As it is, but each read of the program gives one byte: packets are not joined."""
    ours, its = socket.socketpair(socket.AF_UNIX, socket.SOCK_SEQPACKET)
    with subprocess.Popen(command, stdin=its, stdout=subprocess.PIPE, preexec_fn=bounded) as process:
        its.close()

        def feed():
            try:
                for at in range(len(text)):
                    ours.send(text[at:at + 1])
            except OSError:
                pass
            ours.close()

        feeder = threading.Thread(target=feed)
        feeder.start()
        answer = process.stdout.read()
        process.wait()
        feeder.join()
    return process.returncode, answer


class Changes:
    """Changes of a text, at random."""

    def __init__(self, draw):
        self.draw = draw
        self.ways = [self.other_number, self.other_number, self.other_word, self.other_word, self.other_token,
                     self.without_token, self.token_twice, self.more_token, self.swapped, self.without_line,
                     self.line_twice, self.other_byte, self.cut, self.other_version]

    def changed(self, text):
        for _ in range(1 + self.draw.below(3)):
            text = self.draw.one(self.ways)(text)
        return text

    def places(self, text, pattern=rb"\S"):
        return [found.span() for found in re.finditer(TOKEN.pattern.encode(), text)
                if re.match(pattern, found.group())] or [(0, 0)]

    def replaced(self, text, pattern, news):
        start, end = self.draw.one(self.places(text, pattern))
        return text[:start] + self.draw.one(news) + text[end:]

    def other_number(self, text):
        start, end = self.draw.one(self.places(text, rb"[0-9]"))
        near = [b"%d" % max(0, int(text[start:end][:30] or b"0") + more) for more in (-1, 1, 2)]
        return text[:start] + self.draw.one(near + near + [it.encode() for it in NUMBERS]) + text[end:]

    def other_word(self, text):
        return self.replaced(text, rb"[A-Za-z]", [text[a:b] for a, b in self.places(text, rb"[A-Za-z]")])

    def other_token(self, text):
        return self.replaced(text, rb"\S", [text[a:b] for a, b in self.places(text)] + [it.encode() for it in WORDS])

    def without_token(self, text):
        return self.replaced(text, rb"\S", [b""])

    def token_twice(self, text):
        start, end = self.draw.one(self.places(text))
        return text[:end] + b" " + text[start:end] + text[end:]

    def more_token(self, text):
        start, _ = self.draw.one(self.places(text))
        return text[:start] + self.draw.one(WORDS).encode() + b" " + text[start:]

    def swapped(self, text):
        places = self.places(text)
        at = self.draw.below(max(1, len(places) - 1))
        (a, b), (c, d) = places[at], places[min(at + 1, len(places) - 1)]
        return text[:a] + text[c:d] + text[b:c] + text[a:b] + text[d:] if b <= c else text

    def lines(self, text):
        lines = text.split(b"\n")
        return lines, self.draw.below(len(lines))

    def without_line(self, text):
        lines, at = self.lines(text)
        return b"\n".join(lines[:at] + lines[at + 1:])

    def line_twice(self, text):
        lines, at = self.lines(text)
        return b"\n".join(lines[:at + 1] + lines[at:])

    def other_byte(self, text):
        at = self.draw.below(len(text) + 1)
        return text[:at] + bytes([self.draw.below(256)]) + text[at + 1:]

    def cut(self, text):
        return text[:self.draw.below(len(text) + 1)] if self.draw.below(4) == 0 else text

    def other_version(self, text):
        now, then = self.draw.one([(b"unity 1", b"unity 2"), (b"unity 2", b"unity 1")])
        return text.replace(now, then, 1)


class Differ(Exception):
    """Two ways of one question say different things."""


class Questions:
    """Questions that can be put in two ways."""

    def __init__(self, unity, draw):
        self.unity, self.draw, self.compared = unity, draw, 0

    def ask(self, words, text, slow=False):
        status, answer = self.unity.ask(words, text, slow)
        if status < 0 and answer is not None:
            raise Differ("`%s` ends by signal %d" % (" ".join(str(word) for word in words), -status))
        return status, answer

    def same(self, one, other, says):
        if one[1] is None or other[1] is None:
            return
        self.compared += 1
        if one != other:
            raise Differ("%s: status %d and\n%sand status %d and\n%s" % (
                says, one[0], one[1].decode("latin-1"), other[0], other[1].decode("latin-1")))

    def all_of(self, text):
        checked = self.ask(["check"], text)
        if checked[1] is None:
            return
        if len(text) <= MOST_SLOW_BYTES:
            self.same(checked, self.ask(["check"], text, True), "`check` of the whole and byte by byte")
        self.proved(text, checked)
        self.upgraded(text, checked)
        self.listed(text, checked)
        if checked[0] < 2:
            self.runs(text, checked)

    def proved(self, text, checked):
        """What `prove` writes is accepted, with the same text; what it refutes or refuses is not accepted. Where
        `check` finds a certificate wrong it looks at no later step, so it may not come to one that `prove` refuses."""
        proved = self.ask(["prove", BUDGET], text)
        if proved[0] == 0:
            again = self.ask(["check"], proved[1])
            self.same((0, again[1]), again, "`check` of what `prove` wrote")
            if checked[0] == 0:
                self.same(checked, again, "`check` before and after `prove`")
        elif proved[0] == 2 or checked[0] != 1 and proved[0] in (1, 3):
            self.same(checked, proved, "`check` and `prove`")
        elif proved[0] == 1 and not re.match(rb"rejected 5\d ", checked[1]):
            self.same(checked, proved, "`check` and `prove`")

    def upgraded(self, text, checked):
        """What `upgrade` writes is accepted, with the same text; what it refuses `check` refuses."""
        upgraded = self.ask(["upgrade"], text)
        if upgraded[0] == 0:
            self.same(checked, self.ask(["check"], upgraded[1]), "`check` before and after `upgrade`")
        else:
            self.same(checked, upgraded, "`check` and `upgrade`")

    def listed(self, text, checked):
        """`obligations` tells of the steps that `check` accepts, and refuses what it refuses. Where a certificate is
        wrong `check` looks at no later step."""
        told = self.ask(["obligations"], text)
        if checked[0] == 0 and told[0] == 0 and told[1] is not None:
            told = (0, accepted_text(told[1]))
        if not re.match(rb"rejected 5\d ", checked[1]):
            self.same(checked, told, "`check` and `obligations`")

    def runs(self, text, checked):
        """`replay` of the choices that `run` makes, `fixed`, and `watch`."""
        names = re.findall(rb"(?m)^\s*program\s+([A-Za-z][A-Za-z0-9_]*)", text)
        if not names:
            return
        name, steps = self.draw.one(names), self.draw.below(20)
        run = self.ask(["run", name.decode(), steps], text)
        if run[0] not in (0, 5) or run[1] is None:
            return
        self.fixed(text, name, steps, run)
        lines = run[1].decode("latin-1").split("\n")[1:-1]
        taken = [re.sub("^undefined ", "", line).split(" ")[1] for line in lines[1:] if not line.startswith("rounds ")]
        try:
            scheduled = Scheduled(Plan(text.decode("latin-1")), name.decode())
        except (SystemExit, RecursionError):
            return
        document = scheduled.text(taken).encode("latin-1")
        replayed = self.ask(["replay"], document)
        self.same(run, (replayed[0], replayed[1] and replayed[1].replace(b"replay", b"run", 1)), "`run` and `replay`")
        self.watched(document, checked, replayed)

    def fixed(self, text, name, steps, run):
        fixed = self.ask(["fixed", name.decode(), steps], text)
        found = fixed[1] and re.search(rb"(?m)^fixed (\d+)\n", fixed[1])
        if found:
            run = self.ask(["run", name.decode(), found.group(1).decode()], text)
            fixed = (fixed[0], fixed[1].replace(found.group(), b"", 1))
        self.same(run, fixed, "`run` and `fixed`")

    def watched(self, document, checked, replayed):
        """Of an accepted proof no step is violated; a violated one is at a place of the trace."""
        watched = self.ask(["watch"], document)
        if watched[1] is None or replayed[1] is None:
            return
        trace = replayed[1].split(b"\n")
        if watched[0] == 10:
            place = int(watched[1].split(b"\n")[0].split(b" ")[-1])
            self.same((10, watched[1].split(b"\n")[-2]), (10 if checked[0] else 0, trace[place + 1]),
                      "`watch` and `replay`, and `check`")
        elif watched[0] == 0:
            told = re.match(rb"watched \S+ (\d+) states (\d+ rounds)\n", watched[1])
            states = sum(1 for line in trace if re.match(rb"\d", line))
            wanted = b"rounds " + told.group(2).split(b" ")[0]
            self.same((int(told.group(1)), wanted), (states, trace[-2]), "`watch` and `replay`")


def originals():
    """The documents of examples/, each with its name."""
    files = sorted(glob.glob(os.path.join(TOP, "examples", "**", "*.unity"), recursive=True))
    found = []
    for file in files:
        with open(file, "rb") as opened:
            found.append((os.path.relpath(file, TOP), opened.read()))
    return found


def add_options(parser):
    parser.add_argument("seconds", metavar="SECONDS", type=number, help="how long")
    parser.add_argument("seed", metavar="SEED", type=number, help="a number that determines the documents")


def main(chosen):
    need_built()
    draw, unity = Draw(chosen.seed), Unity(UNITY)
    changes, questions = Changes(draw), Questions(unity, draw)
    documents, begun, count = originals(), time.monotonic(), 0
    while time.monotonic() - begun < chosen.seconds:
        count += 1
        name, text = draw.one(documents)
        text = changes.changed(text)
        try:
            questions.all_of(text)
        except Differ as told:
            write(text)
            sys.stderr.write("document %d of seed %d, from %s: %s\n" % (count, chosen.seed, name, told))
            return 1
    sys.stderr.write("%d documents, %d answers compared, %d questions given up\n" % (
        count, questions.compared, unity.given_up))
    return 0
