"""Shortens a schedule on which a step is violated.

It drops choices of the schedule, blocks of them first and then one by one, as long as `unity watch` says that the same
step of the proof is violated, whatever its parameters and its place. When none can be dropped by itself, the document
with what is left as its schedule goes to standard output, and to standard error what `unity` says of it, and how many
choices are left. It exits with the status of `unity`: 10 where a step is violated, and else at once, with the answer on
standard error and nothing on standard output. It wants the built program, or the page's module.
"""
from unity_tool.files import read_document
from unity_tool.places import show
from unity_tool.plan import Plan
from unity_tool.program import ask, need_answers
from unity_tool.schedules import shrink
from unity_tool.trying import say


def add_options(parser):
    parser.add_argument("file", metavar="FILE", help="a document with a schedule")


def main(chosen):
    text = read_document(chosen.file)
    need_answers()
    answer = ask(["watch"], text)
    if answer.status != 10:
        say(answer.text)
        show(answer.text, chosen.file, text)
        return answer.status
    say(shrink(Plan(text.decode("latin-1"))).encode("latin-1") + b"\n")
    return answer.status
