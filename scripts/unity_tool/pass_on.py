"""Runs `unity` on standard input.

The words are those of `unity`: check, prove BUDGET, run PROGRAM STEPS and so on. It prints what `unity` prints and
exits with its status. The built program is taken where it is there; else the page's module, where node is there; else
the sources are compiled as they are, in about a minute and with no proof.

The built program gets 4 GB of memory at most, or as many MB as UNITY_MEMORY says. A document that wants more ends in
status 9: a text of 100 bytes can ask for so much, and nothing else on the machine is to suffer from it.
"""
import argparse

from unity_tool import program


def add_options(parser):
    parser.add_argument("words", metavar="WORD", nargs=argparse.REMAINDER, help="a word of `unity`")


def main(chosen):
    return program.pass_on(chosen.words)
