"""Made-up trees for `.ci/test_meaning.py` and `.ci/test_docs.py`: a few tiny crates and their docs, in a temporary folder."""
import contextlib
import importlib.machinery
import importlib.util
import io
import tempfile
import unittest
from pathlib import Path

from sources import Tree


def script(name):
    """A script of .ci/ as a module: its name has no suffix, so `import` does not find it."""
    loader = importlib.machinery.SourceFileLoader(name, str(Path(__file__).resolve().parent / name))
    module = importlib.util.module_from_spec(importlib.util.spec_from_loader(name, loader))
    loader.exec_module(module)
    return module


class MadeUpTree(unittest.TestCase):
    """Tests on a tree that each test gets anew: the texts of `files`, by their paths."""

    files = {}

    def setUp(self):
        folder = tempfile.TemporaryDirectory()
        self.addCleanup(folder.cleanup)
        self.root = Path(folder.name)
        for path, text in self.files.items():
            self.write(path, text)

    def tree(self):
        """The tree as it is now: what a `Tree` has read it keeps."""
        return Tree(self.root)

    def write(self, path, text):
        """Writes a file, in folders that are made where they are missing."""
        file = self.root / path
        file.parent.mkdir(parents=True, exist_ok=True)
        file.write_text(text)
        if text.startswith("#!"):
            file.chmod(0o755)

    def read(self, path):
        """The text of a file."""
        return (self.root / path).read_text()

    def replace(self, path, old, new):
        """Puts a text in the place of one that stands once in a file."""
        text = self.read(path)
        self.assertEqual(text.count(old), 1, f"{old!r} in {path}")
        self.write(path, text.replace(old, new))

    def remove(self, path):
        """Removes a file."""
        (self.root / path).unlink()

    def assert_passes(self, check):
        """A check finds nothing wrong."""
        self.assertEqual(check(self.tree()), [])

    def assert_finds(self, check, *beginnings):
        """A check finds just as many faults, whose messages begin so."""
        found = check(self.tree())
        self.assertEqual(len(found), len(beginnings), found)
        for message, beginning in zip(found, beginnings):
            self.assertEqual(message[:len(beginning)], beginning)

    def run_main(self, main, *words):
        """Runs a script's `main` with these words on the tree: its status, and the lines that it prints."""
        printed = io.StringIO()
        with contextlib.redirect_stdout(printed):
            status = main([*words], self.root)
        return status, printed.getvalue().splitlines()
