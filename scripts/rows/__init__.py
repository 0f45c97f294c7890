"""Rows: words and a document with the answer of the program. examples/rows/README.md tells the form of their files."""
from .entries import Fault
from .cases import Case, cases, read
from .running import asker, judged, run, told

__all__ = ["Case", "Fault", "asker", "cases", "judged", "read", "run", "told"]
