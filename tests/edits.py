"""Checks that each edit that the prover must refuse still applies to its crate: each of its files
is there, and each text that it changes stands there once, behind the changes before.

The gate tries those of `crates/CRATE/must-fail/`. Those of `planted/CRATE/` are tried by hand, so
that nothing else says where they have become stale.
"""
import pathlib
import re
import unittest
from typing import Dict, Iterator, Tuple

from .support import repository
from .support.program import TOP

FOLDERS = re.compile("(src|specs|proofs)/")


def changes_in(edit: str) -> Iterator[Tuple[str, str, str]]:
    """The changes of an edit: the file, the text that stands there, and the one in its place."""
    path = old = ""
    for line in repository.read(edit).splitlines():
        word, _, rest = line.partition(":")
        if word == "file":
            path = rest.strip()
        elif word == "old":
            old = rest[1:]
        elif word == "new":
            yield path, old, rest[1:]


class EditTest(unittest.TestCase):
    def test_each_edit_applies(self):
        for edit in repository.edits():
            with self.subTest(edit):
                self.apply(edit)

    def apply(self, edit: str):
        """Applies an edit to the texts of its crate."""
        crate = pathlib.PurePath(edit).parts[1]
        texts: Dict[str, str] = {}
        for path, old, new in changes_in(edit):
            self.assertRegex(path, FOLDERS)
            file = f"crates/{crate}/{path}"
            self.assertTrue((TOP / file).is_file(), f"there is no {file}")
            text = texts.get(path) or repository.read(file)
            self.assertNotEqual(old, new)
            self.assertEqual(text.count(old), 1, f"in {path}: {old}")
            texts[path] = text.replace(old, new)
        self.assertTrue(texts, "it changes nothing")

    def test_nothing_else_stands_among_the_edits(self):
        for path in repository.files():
            if re.match(r"crates/\w+/must-fail/|planted/\w+/", path):
                with self.subTest(path):
                    self.assertTrue(path in repository.edits() or path.endswith(".md"))
