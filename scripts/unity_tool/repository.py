"""Where things stand: the repository, or the folder that `unity-tool install` wrote."""
import os

SCRIPTS = os.path.dirname(os.path.dirname(os.path.realpath(__file__)))
TOP = os.path.dirname(SCRIPTS)
IS_INSTALLED = not os.path.isdir(os.path.join(TOP, "crates"))
UNITY = os.path.normpath(os.path.join(TOP, "..", "..", "bin", "unity")) if IS_INSTALLED else \
    os.path.join(TOP, "crates", "unity", "out", "unity")


def version():
    """The number of this version, which stands in one file."""
    with open(os.path.join(TOP, "VERSION"), encoding="utf-8") as file:
        return file.read().strip()


def is_built():
    """Whether the built program is there."""
    return os.path.isfile(UNITY) and os.access(UNITY, os.X_OK)
