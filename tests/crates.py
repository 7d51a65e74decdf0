"""Compares crates.txt with the folders of crates/ and with docs/inside/ARCHITECTURE.md, and looks for
names that crates had before.

In crates.txt each crate stands under the heading of its family, and below the crates that it uses.
On the page each family has a heading and a table with the same crates in the same order. The page
ends with a table of former names. These are to stand nowhere else, but where a crate, a module or a
file still has the name.
"""
import functools
import pathlib
import re
import unittest
from typing import Dict, FrozenSet, List, Set

from .support import repository

PAGE = "docs/inside/ARCHITECTURE.md"


def family_tables() -> Dict[str, List[str]]:
    """The crates of each family's table, by the family."""
    tables = repository.tables(repository.read(PAGE))
    return {
        heading: [row[0].strip("`") for row in rows]
        for (heading, first), rows in tables.items()
        if first == "Crate"
    }


def families_listed() -> Dict[str, List[str]]:
    """The crates of each family in crates.txt, by the family."""
    found: Dict[str, List[str]] = {}
    for crate in repository.listed():
        found.setdefault(crate.family, []).append(crate.name)
    return found


def picture() -> str:
    """The first piece of code on the page."""
    return repository.read(PAGE).split("```")[1]


@functools.lru_cache(maxsize=None)
def names_that_exist() -> FrozenSet[str]:
    """Names of crates, and of modules and other files in them."""
    found = set()
    for path in repository.files():
        if path.startswith("crates/"):
            found.update(pathlib.PurePath(part).stem for part in pathlib.PurePath(path).parts[1:])
    return frozenset(found)


def former_names() -> List[str]:
    """The names in the table of former names."""
    tables = repository.tables(repository.read(PAGE))
    rows = [row for (_, first), rows in tables.items() if first == "Former crate" for row in rows]
    return [row[0].strip("`") for row in rows]


def without_former_names(text: str) -> str:
    """The page without its table of former names."""
    return re.sub(r"(?m)^\| Former crate .*\n(\|.*\n)*", "", text)


def names_as_code(text: str) -> Set[str]:
    """Words in backquotes, in paths and in imports. Elsewhere a word may be one of our language."""
    words = r"`(\w+)\b|\bcrates/(\w+)|\bRattle\.(\w+)|\b(\w+)::"
    return {word for found in re.findall(words, text, re.ASCII) for word in found if word}


def names_in(path: str) -> Set[str]:
    """What a file names as code, and its words with an underscore: in a source those of comments,
    since its functions may be called so. Texts in quotes are data."""
    text = repository.read(path)
    if path == PAGE:
        text = without_former_names(text)
    text = re.sub(r'"[^"\n]*"', "", text)
    is_source = path in repository.sources()
    prose = "\n".join(re.findall("(?://|--).*", text)) if is_source else text
    words = re.findall(r"\w+", prose, re.ASCII)
    return {word for word in words if "_" in word} | names_as_code(text)


class CrateTest(unittest.TestCase):
    maxDiff = None

    def test_each_folder_is_listed_once(self):
        folders = {path.split("/")[1] for path in repository.files() if path.startswith("crates/")}
        self.assertEqual(sorted(crate.name for crate in repository.listed()), sorted(folders))

    def test_each_crate_stands_below_those_that_it_uses(self):
        above = set()
        for crate in repository.listed():
            with self.subTest(crate.name):
                own = set(crate.uses) & repository.crates()
                self.assertEqual(own - above, set(), "it uses crates that stand below it")
            above.add(crate.name)

    def test_each_crate_stands_in_one_table(self):
        in_tables = [crate for crates in family_tables().values() for crate in crates]
        for name in sorted(repository.crates()):
            with self.subTest(name):
                self.assertEqual(in_tables.count(name), 1)

    def test_each_crate_of_a_table_is_there(self):
        for family, crates in family_tables().items():
            with self.subTest(family):
                self.assertEqual(set(crates) - repository.crates(), set())

    def test_families_are_those_of_crates_txt(self):
        self.assertEqual(list(family_tables().items()), list(families_listed().items()))

    def test_each_crate_of_the_picture_is_there(self):
        for name, star in re.findall(r"\b([a-z]+_[a-z_]*)(\*?)", picture()):
            with self.subTest(name + star):
                fits = [crate for crate in repository.crates() if crate.startswith(name)]
                self.assertTrue(fits if star else name in fits)


class FormerNameTest(unittest.TestCase):
    def test_no_former_name_is_left(self):
        self.assertNotEqual(former_names(), [], "the page has no table of them")
        gone = set(former_names()) - names_that_exist()
        for path in repository.files():
            with self.subTest(path):
                self.assertEqual(gone & names_in(path), set())
