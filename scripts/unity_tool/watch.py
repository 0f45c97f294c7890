"""Runs `unity watch` on a document.

It prints what `unity` prints and exits with its status. Where a step is violated, it shows the line of that step on
standard error, and then prints the trace of `unity replay` up to the place: what stands on standard output is what
`scripts/trace_svg.sh` draws. Where the answer names a byte of the file, or a step that does not follow its rule, it
shows that place on standard error. It asks the program that `scripts/check.sh` asks.
"""
import re

from unity_tool.files import add_forms, one_line, read_document, record, write, write_json
from unity_tool.places import show
from unity_tool.program import ask


def add_options(parser):
    parser.add_argument("file", metavar="FILE", help="a document with a schedule")
    add_forms(parser)


def trace_up_to(text, place):
    """The replay of a document, up to the state at a place."""
    lines = ask(["replay"], text).text.splitlines(True)
    last = next((number for number, line in enumerate(lines[1:], 1) if line.split()[0:1] == [place]), len(lines))
    return b"".join(lines[:last + 1])


def main(chosen):
    text = read_document(chosen.file)
    answer = ask(["watch"], text)
    violated = re.match(rb"violated [^ ]* place ([0-9]+)\n", answer.text)
    trace = trace_up_to(text, violated.group(1)) if violated and not chosen.short else b""
    if chosen.json:
        write_json({**record(chosen.file, answer, text), "trace": trace.decode("latin-1")})
    elif chosen.short:
        write(one_line(chosen.file, answer, text))
    else:
        write(answer.text)
        show(answer.text, chosen.file, text)
        write(trace)
    return answer.status
