"""The subjects of the tests: a name, and a function that gives the tests of it.

A subject of your own is a line here: its function takes nothing, and yields a `Case` for each test (cases.py).
"""
from unity_tool.trials import (asked_rows, causes, editing, generated, installing, machines, mistakes, nesting,
                               prefixes, refusing, scripts, serving, serving_faults, sessions, solving, spinning,
                               suffixes, wrong_seconds)

SUBJECTS = [
    ("documents", suffixes.beside_documents),
    ("files", suffixes.every_file),
    ("mistakes", mistakes.cases),
    ("causes", causes.cases),
    ("rows", asked_rows.cases),
    ("sessions", sessions.cases),
    ("generated", generated.cases),
    ("nesting", nesting.cases),
    ("refusing", refusing.cases),
    ("scripts", scripts.cases),
    ("installing", installing.cases),
    ("machines", machines.cases),
    ("server", serving.cases),
    ("server-faults", serving_faults.cases),
    ("server-sessions", serving.sessions_cases),
    ("prefixes", prefixes.cases),
    ("all-prefixes", prefixes.all_cases),
    ("editing", editing.cases),
    ("spin", spinning.cases),
    ("spin-faults", wrong_seconds.cases),
    ("spin-documents", spinning.documents_cases),
    ("solver-documents", solving.cases),
]
# what takes long is run with `--subject NAME` alone
ASKED_ALONE = ("server-sessions", "all-prefixes", "spin-documents", "solver-documents")
