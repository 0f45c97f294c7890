"""The reserved words of the language by kinds, and its symbols, from the table that the grammars are written from."""
import functools
import json
import os

from unity_tool.repository import TOP

TABLE = os.path.join(TOP, "editors", "words.json")


@functools.lru_cache(maxsize=None)
def table():
    with open(TABLE, encoding="utf-8") as file:
        return json.load(file)


@functools.lru_cache(maxsize=None)
def kind_of_word():
    """The kind of each reserved word."""
    return {word: kind for kind, words in table().items() if kind != "symbols" for word in words}
