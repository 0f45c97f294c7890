"""The documents that are tried, with the files that stand beside them."""
import os

from unity_tool.repository import TOP
from unity_tool.trials.asking import read

# each holds documents, and the files beside them
FOLDERS = ("examples", "examples/causes", "examples/mistakes", "tests/limits", "tests/places")


class Document:
    """A document, and what stands beside it."""

    def __init__(self, folder, name):
        self.folder, self.name = folder, name
        self.path = "%s/%s.unity" % (folder, name)

    def text(self):
        return read(self.path)

    def size(self):
        return os.path.getsize(os.path.join(TOP, self.path))

    def beside(self, suffix):
        """The name of a file beside it."""
        return "%s/%s%s" % (self.folder, self.name, suffix)

    def has(self, suffix):
        return os.path.exists(os.path.join(TOP, self.beside(suffix)))

    def wanted(self, suffix):
        """What a file beside it holds."""
        return read(self.beside(suffix))

    def is_mistake(self):
        return self.folder == "examples/mistakes"

    def is_accepted(self):
        """Whether `check` accepts it as it stands."""
        return self.has(".expected") and self.wanted(".expected").startswith(b"accepted ")


def documents(folder):
    """The documents of a folder, in the order of their names."""
    names = sorted(os.listdir(os.path.join(TOP, folder)))
    return [Document(folder, name[:-len(".unity")]) for name in names if name.endswith(".unity")]


def all_documents():
    return [document for folder in FOLDERS for document in documents(folder)]
