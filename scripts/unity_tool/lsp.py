"""A language server for documents, on standard input and output, for editors.

It speaks the Language Server Protocol: diagnostics with the words of `why` as one types, hover, definition, references,
symbols, completion, rename, folding, tokens, marks for steps, and actions. A search is made in a process of its own,
which the next edit ends. editors/README.md says how editors start it. It wants the built program, or node for the
page's module. It ends when the editor does.
"""
from unity_tool.server.serve import serve


def add_options(parser):
    parser.add_argument("--stdio", action="store_true", help="by standard input and output, as it is without this")


def main(chosen):
    del chosen
    return serve()
