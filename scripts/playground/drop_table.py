"""Drops the table of a WebAssembly module that puts nothing into it: drop_table.py IN OUT

The linker gives the table 64-bit indexes, which wasm-opt 108 and older engines refuse.
"""
import sys

TABLES, ELEMENTS = 4, 9


def number(data, at):
    """The number in LEB128 at this place, and the place after it."""
    value = shift = 0
    while True:
        byte = data[at]
        value |= (byte & 127) << shift
        at, shift = at + 1, shift + 7
        if byte < 128:
            return value, at


def sections(data):
    """Each section's kind and its bytes, head and all."""
    at = 8
    while at < len(data):
        size, start = number(data, at + 1)
        yield data[at], data[at:start + size]
        at = start + size


def main(given, out):
    with open(given, "rb") as module:
        data = module.read()
    parts = list(sections(data))
    if any(kind == ELEMENTS for kind, _ in parts):
        sys.exit("drop_table.py: the module puts functions into its table")
    with open(out, "wb") as module:
        module.write(data[:8] + b"".join(part for kind, part in parts if kind != TABLES))


if __name__ == "__main__":
    main(*sys.argv[1:])
