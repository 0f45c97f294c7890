#!/usr/bin/env python3
"""Counts the words of each sentence of the pages, and follows their links: python3 scripts/sentences.py [PAGE..]

No sentence has more than 35 words. A block of code has none; an item of a list, a heading and a cell of a table hold
sentences of their own; a span of code is one word, and of a link its text counts and not its address. Tables that a
script writes between its marks are read on the pages that they come from. A relative link leads to a file or folder
that is there, and behind a `#` to a heading of that page.

A crate's page has at most a screen and a usage. Its table of calls names public items of the crate alone, and all of
its calls unless a row ends with `..`; a name before a colon there is a clause of one of these calls (crate_pages.py).

Each fault is a line `file:line:column: message`; the last line is `N passed, M failed`, with one test for each
sentence, link, row and usage. The status is 1 where one failed. Without a PAGE all pages are read: README.md,
CONTRIBUTING.md, CHANGELOG.md, docs/, and the pages of examples/, editors/ and crates/."""
import argparse
import os
import sys

import crate_pages
import pages

MOST_WORDS = 35


def sentence_faults(lines):
    """For each sentence None, or its place and what is wrong with it."""
    for paragraph in pages.paragraphs(lines):
        for place, words in pages.sentences(paragraph):
            yield (place, "a sentence of %d words" % words) if words > MOST_WORDS else None


def link_fault(path, address):
    """What is wrong with a link of this page, or None."""
    file, _, anchor = address.partition("#")
    target = os.path.normpath(os.path.join(os.path.dirname(path), file)) if file else path
    if not os.path.exists(target):
        return "a link to %s, which is not there" % address
    if anchor and target.endswith(".md") and anchor not in pages.anchors(pages.lines_of(target)):
        return "a link to %s, which has no such heading" % address
    return None


def link_faults(path, lines):
    """For each relative link None, or its place and what is wrong with it."""
    for address, place in pages.links(lines):
        if "://" in address or address.startswith("mailto:"):
            continue
        fault = link_fault(path, address)
        yield (place, fault) if fault else None


def main():
    parser = argparse.ArgumentParser(description=__doc__, formatter_class=argparse.RawDescriptionHelpFormatter)
    parser.add_argument("pages", metavar="PAGE", nargs="*", help="a page; without one, all of them")
    words = parser.parse_args()
    top = os.path.dirname(os.path.dirname(os.path.abspath(__file__)))
    passed = failed = 0
    for path in words.pages or [os.path.relpath(os.path.join(top, page)) for page in pages.all_pages(top)]:
        lines = pages.lines_of(path)
        for fault in [*sentence_faults(lines), *link_faults(path, lines), *crate_pages.page_faults(path, lines)]:
            if fault:
                place, message = fault
                print("%s:%d:%d: %s" % (path, place.line, place.column, message))
                failed += 1
            else:
                passed += 1
    print("%d passed, %d failed" % (passed, failed))
    return 1 if failed else 0


if __name__ == "__main__":
    sys.exit(main())
