"""Draws a trace.

TRACE is what `unity run`, `unity fixed` or `unity replay` prints. The picture, in SVG, is a table with a line for each
state: its number, the statement that led to it and the values, those that changed in bold on a coloured ground. Below
stands the last line of the trace, the rounds or the step that is undefined. Where the trace ends at a fixed point, its
line has a ground of its own, and below stands the line `fixed I`. Where the answer of `unity watch` stands before the
trace, as `scripts/watch.sh` prints them, and names a step that is violated, the line of that place has a ground of its
own, and below stands the step with its parameters; such a trace may end at that place. Anything that is no trace is
refused, with status 1.
"""
import re
import sys

from unity_tool.files import write
from unity_tool.wrong_use import Failure

STYLE = "<style>text { font: 13px monospace; fill: #202020 } .head, .new { font-weight: bold }"
REST_STYLE, FAULT_STYLE = ".rest { fill: #d9f2d9 }", ".fault { fill: #ffd6d6 }"
LAST_STYLE = ".bad { font-weight: bold; fill: #a00000 } .mark { fill: #ffe08a } line { stroke: #b0b0b0 }</style>"
LETTER, LINE, LEFT = 8, 20, 10


class Trace:
    """The lines of a trace: its title, its states, and how it ends."""

    def __init__(self, text):
        self.title = self.fault = self.rest = self.last = ""
        self.place, self.names, self.states, self.number = None, [], [], 0
        for line in text.split("\n")[:-1] if text.endswith("\n") else text.split("\n") if text else []:
            self.number += 1
            (self.take if self.title else self.take_head)(line)
        if not self.last and not self.fault:
            self.fail("the trace has no end")
        if self.fault and len(self.states) <= self.place:
            self.fail("the trace ends before the place")

    def fail(self, why):
        raise Failure(1, "trace_svg.sh: line %d: %s" % (self.number, why))

    def take_head(self, line):
        """A line before the states: the answer of `watch`, or the title."""
        violated = re.fullmatch(r"violated [A-Za-z0-9_.]+ place ([0-9]+)", line)
        if self.number == 1 and violated:
            self.fault, self.place = line, int(violated.group(1))
        elif self.fault and re.fullmatch(r"[A-Za-z][A-Za-z0-9_]* = -?[0-9]+", line):
            self.fault += ", " + line
        elif self.fault and line.split()[:1] == [str(self.place)]:
            pass
        elif re.fullmatch(r"(run|replay) [A-Za-z][A-Za-z0-9_]*", line):
            self.title = line
        else:
            self.fail("no trace begins so")

    def take(self, line):
        """A line of the trace itself."""
        words = line.split()
        if self.last:
            self.fail("the trace has ended before")
        elif self.rest and not line.startswith("rounds "):
            self.fail("the trace has come to rest before")
        elif re.match("(rounds|undefined) ", line):
            self.last = line
        elif re.fullmatch("fixed [0-9]+", line) and self.states and int(words[1]) == len(self.states) - 1:
            self.rest = line
        elif re.match("[0-9]+( |$)", line):
            self.take_state(words)
        else:
            self.fail("this is no state")

    def take_state(self, words):
        """A state: its number, the statement but for the first, and the values."""
        first = 2 if self.states else 1
        values = [word.partition("=") for word in words[first:]]
        if self.states and len(values) != len(self.names):
            self.fail("this state has another number of values")
        self.names = [name if equals else "" for name, equals, _ in values]
        self.states.append([words[0], words[1] if self.states else ""] + [it[2] if it[1] else it[0] for it in values])


def plain(text):
    return text.replace("&", "&amp;").replace("<", "&lt;").replace(">", "&gt;")


def cell(x, y, kind, text):
    return '<text x="%d" y="%d"%s>%s</text>' % (x, y, ' class="%s"' % kind if kind else "", plain(text))


def ground(kind, x, y, width):
    return '<rect class="%s" x="%d" y="%d" width="%d" height="18"/>' % (kind, x, y, width)


class Picture:
    """The picture of a trace, line by line."""

    def __init__(self, trace):
        self.trace, self.lines = trace, []
        self.heads = ["state", "statement"] + trace.names if trace.states else []
        self.wide = [max(map(len, column)) for column in zip(self.heads, *trace.states)]
        self.x, self.left = [], LEFT
        for wide in self.wide:
            self.x.append(self.left)
            self.left += wide * LETTER + 16
        self.draw()

    def draw(self):
        trace = self.trace
        width = max([self.left + 2] + [len(it) * LETTER + 30 for it in (trace.title, trace.last, trace.fault)])
        feet = [it for it in (trace.rest, trace.last, trace.fault) if it]
        height = len(trace.states) * LINE + 76 + LINE * len(feet)
        self.lines += [
            '<svg xmlns="http://www.w3.org/2000/svg" width="%d" height="%d" viewBox="0 0 %d %d">' % (
                width, height, width, height),
            "<title>%s</title>" % plain(trace.title), STYLE, *([REST_STYLE] if trace.rest else []),
            *([FAULT_STYLE] if trace.fault else []), LAST_STYLE,
            '<rect width="%d" height="%d" fill="#ffffff"/>' % (width, height), cell(10, 24, "head", trace.title)]
        self.lines += [cell(x, 52, "head", head) for x, head in zip(self.x, self.heads)]
        self.lines.append('<line x1="10" y1="60" x2="%d" y2="60"/>' % (self.left - 6))
        for number in range(len(trace.states)):
            self.draw_state(number, 78 + number * LINE)
        self.draw_feet(len(trace.states) * LINE + 86)

    def draw_state(self, number, y):
        trace, state = self.trace, self.trace.states[number]
        violated = bool(trace.fault) and number == trace.place
        fixed = bool(trace.rest) and number == len(trace.states) - 1
        self.lines += [ground("rest", 4, y - 14, self.left - 8)] if fixed else []
        self.lines += [ground("fault", 4, y - 14, self.left - 8)] if violated else []
        name = "bad" if violated else "head" if fixed else ""
        for column, value in enumerate(state):
            changed = number and column > 1 and value != trace.states[number - 1][column]
            if changed:
                self.lines.append(ground("mark", self.x[column] - 4, y - 14, self.wide[column] * LETTER + 8))
            self.lines.append(cell(self.x[column], y, "new" if changed else name if column < 2 else "", value))

    def draw_feet(self, y):
        trace = self.trace
        undefined = trace.last.startswith("undefined")
        for text, kind in ((trace.rest, "head"), (trace.last, "bad" if undefined else ""), (trace.fault, "bad")):
            if text:
                self.lines.append(cell(10, y, kind, text))
                y += LINE
        self.lines.append("</svg>")


def add_options(parser):
    del parser  # it takes no words


def main(chosen):
    del chosen
    trace = Trace(sys.stdin.buffer.read().decode("latin-1"))
    write(("\n".join(Picture(trace).lines) + "\n").encode("latin-1"))
    return 0
