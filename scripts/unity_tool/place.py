"""Shows the place in FILE that an answer of `unity`, on standard input, names, as that of a file of this name."""
import sys

from unity_tool.files import read_document
from unity_tool.places import show


def add_options(parser):
    parser.add_argument("name", metavar="NAME", help="the name that is shown")
    parser.add_argument("file", metavar="FILE", help="the document")


def main(chosen):
    show(sys.stdin.buffer.read(), chosen.name, read_document(chosen.file))
    return 0
