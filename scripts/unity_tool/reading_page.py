"""What a reader of the theorem has to read.

The contract of `unity` cites definitions, which cite others, down to the toolchain's library. This follows the names
from the clauses on, through definitions and types, and prints for each part of docs/READING.md the files and how many
lines of the definitions that are reached stand in each. With --check it compares these with the page, and fails where a
file is missing or superfluous or a number differs, or where README.md quotes a clause that the contract does not have.
With --write it writes the numbers into the page, follows files that were moved, and adds rows, whose sentences are
yours to write. With --text it prints the definitions of a part.
"""
from unity_tool import reading
from unity_tool.repository import TOP


def add_options(parser):
    does = parser.add_mutually_exclusive_group()
    does.add_argument("--check", action="store_true", help="compare with the page")
    does.add_argument("--write", action="store_true", help="write the numbers into the page")
    does.add_argument("--text", metavar="PART", help="print the definitions of a part")


def main(chosen):
    words = ["--check"] * chosen.check + ["--write"] * chosen.write
    return reading.main(TOP, words + (["--text", chosen.text] if chosen.text else []))
