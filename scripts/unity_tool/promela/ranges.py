"""The ranges of variables and of bound names, as numbers."""
import re

from unity_tool.formulas import value_of


def words_of(variable):
    """The words of an enumeration, in order."""
    return re.findall(r"\w+", re.sub(r"#[^\n]*", "", variable.text).split("{")[1]) if "{" in variable.text else []


def ends_of(variable):
    """The least and the greatest value, as numbers."""
    if variable.ends:
        return value_of(variable.ends[0], {}), value_of(variable.ends[1], {})
    return 0, len(words_of(variable)) - 1 if words_of(variable) else 1


def places_of(variable):
    """The first and the last index of an array."""
    return tuple(value_of(it, {}) for it in variable.places)


def numbers(binder, known):
    """The numbers of a binder, each with what is known besides."""
    name, (low, high) = binder
    return [{**known, name: it} for it in range(value_of(low, known), value_of(high, known) + 1)]
