"""Writes the tables of rooms and crates in README.md and docs/ARCHITECTURE.md.

The rooms are the headings of crates.txt, with a sentence each, and what a crate is is the first paragraph of its page.
It stands on the crates that its files name; those on which another of them stands are left out. With --check it writes
nothing, and fails where a page has other tables. It also fails where crates.txt has a crate above one that it names,
where a crate's page does not begin with its name and a paragraph, and where a table of CONTRIBUTING.md names a file of
a crate that is not there.
"""
from unity_tool import map as tables
from unity_tool.repository import TOP


def add_options(parser):
    parser.add_argument("--check", action="store_true", help="write nothing, and compare with the pages")


def main(chosen):
    return tables.main(TOP, ["--check"] * chosen.check)
