"""Where a name comes from that a crate passes on.

A crate passes on what stands in crates below it: the definitions of CRATE as `from_CRATE`, its lemmas as
`lemmas_from_CRATE`, and its items as `from_CRATE`."""
import re

OF_ANTT = re.compile(r"\bRattle\.\w+\.(specs|proofs)\.(?:lemmas_)?from_(\w+)(?=\W|$)")
OF_CODE = re.compile(r"(?<![\w:])\w+::from_(\w+)(?=\W|$)")


def origin(path):
    """The path by which the crate that has the name writes it itself."""
    return OF_CODE.sub(r"\1", OF_ANTT.sub(r"Rattle.\2.\1", path))
