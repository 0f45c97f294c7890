"""Finds the certificates of a document.

Where `unity prove` finds them, the document with its certificates goes to a file beside FILE, whose name has `.proved`
before its ending, and that name is printed. Else that file is removed where an earlier run left it, and it prints what
`unity` prints, and on standard error the line of the step that it names, or the place of the byte. It exits with the
status of `unity`. BUDGET is 1000000 where none is given; a small one, as 10000, tells sooner which obligation is dear,
and `scripts/why.sh` what a refusal means.
"""
import os

from unity_tool.files import add_forms, one_line, read_document, record, write, write_json
from unity_tool.places import show
from unity_tool.program import ask


def add_options(parser):
    parser.add_argument("file", metavar="FILE", help="a document")
    parser.add_argument("budget", metavar="BUDGET", nargs="?", default="1000000", help="the units of the search")
    add_forms(parser)


def proved_name(name):
    """The name of the file for the document with its certificates."""
    return name[:-len(".unity")] + ".proved.unity" if name.endswith(".unity") else name + ".proved"


def keep(name, answer):
    """Writes what was found beside the document, or removes what an earlier run found."""
    proved = proved_name(name)
    if answer.status == 0:
        with open(proved, "wb") as file:
            file.write(answer.text)
    elif os.path.lexists(proved):
        os.remove(proved)


def main(chosen):
    text = read_document(chosen.file)
    answer = ask(["prove", chosen.budget], text)
    keep(chosen.file, answer)
    if chosen.json:
        tell_json(chosen.file, answer, text)
    elif answer.status == 0:
        print(proved_name(chosen.file))
    elif chosen.short:
        write(one_line(chosen.file, answer, text))
    else:
        write(answer.text)
        show(answer.text, chosen.file, text)
    return answer.status


def tell_json(name, answer, text):
    if answer.status == 0:
        write_json({"file": name, "status": 0, "proved": proved_name(name)})
    else:
        write_json(record(name, answer, text))
