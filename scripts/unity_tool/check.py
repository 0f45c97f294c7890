"""Runs `unity check` on documents.

It prints what `unity` prints and exits with its status; of several files each answer stands below the name of its file,
and the status is the first that is not 0. Where the answer names a byte of the file, or a step, it also shows the place
on standard error: a byte by its line and a caret, a step by its line. The built program is taken where it is there;
else the page's module, where node is there; else the sources are compiled as they are, in about a minute for all files
together, and with no proof.
"""
from unity_tool.files import add_forms, need_readable, one_line, read_document, record, write, write_json
from unity_tool.places import show
from unity_tool.program import ask_each


def add_options(parser):
    parser.add_argument("files", metavar="FILE", nargs="+", help="a document")
    add_forms(parser)


def main(chosen):
    need_readable(*chosen.files)
    texts = [read_document(name) for name in chosen.files]
    answers = ask_each("check", texts)
    if chosen.json:
        write_json([record(*each) for each in zip(chosen.files, answers, texts)])
    for name, answer, text in [] if chosen.json else zip(chosen.files, answers, texts):
        if chosen.short:
            write(one_line(name, answer, text))
            continue
        if len(texts) > 1:
            print(name)
        write(answer.text)
        show(answer.text, name, text)
    return next((answer.status for answer in answers if answer.status), 0)
