"""Checks that what the pages name is there: each path and each name of code in backquotes, in a
link, and in a piece of code, and each crate of a heading; and that no merge has left its marks. The
picture of families in docs/inside/ARCHITECTURE.md is left to the module `crates`.

A path is looked for at the top and in crates/, else in the crates that the line or the heading
names, or beside the line's last path. A name is there where some source, definition or proof has
the word. An edit that must be refused is named by its crate and its file, without ending.
"""
import functools
import pathlib
import posixpath
import re
import unittest
from typing import Dict, FrozenSet, List, Optional, Set

from . import crates
from .support import repository
from .support.program import TOP

# Words of Rust's crate, of std, of prints, of Python and of style, which no crate has.
ELSEWHERE = {
    "acquire_adaptive_send_token",
    "call_once",
    "finalize",
    "non_throttling_initial",
    "panic",
    "unittest",
    "opened_context",
    "ConfigBag",
    "client/http/body/",
}

PAGE = re.compile(
    r"(README|CONTRIBUTING|CHANGELOG|SECURITY)\.md|docs/(inside/)?[^/]+\.md|bench/README\.md"
    r"|crates/\w+/CALLING\.md"
)
NAME = r"[A-Za-z_][A-Za-z0-9_]*"
NAMES = re.compile(rf"{NAME}(::{NAME})*")
# A path has a slash and a small letter, or an ending of our files.
PATH = re.compile(r"(?=.*[a-z])[A-Za-z0-9_.*-]*/[A-Za-z0-9_.*/-]*")
FILE = re.compile(r"[A-Za-z0-9_.*-]+\.(rt|antt|md|sh|json|txt|edit|py|status|facts|requests)")
# What stands for many names, files of Rust's crate, and a front of a name.
PATTERN = re.compile(r".*NAME.*|.*\.rs|.*_")
LINK = re.compile(r"\]\(([A-Za-z0-9_./-]+)\)")


def pages() -> List[str]:
    """The pages for readers, those for callers in their crates too."""
    return [path for path in repository.files() if PAGE.fullmatch(path)]


@functools.lru_cache(maxsize=None)
def there() -> FrozenSet[str]:
    """All files and folders. An edit is there as `crates/CRATE/NAME` too."""
    found = set()
    for path in repository.files():
        found.add(path)
        found.update(str(folder) for folder in pathlib.PurePath(path).parents)
    for path in repository.edits():
        edit = pathlib.PurePath(path)
        crate = edit.parts[1]
        found.add(f"crates/{crate}/{edit.stem}")
    return frozenset(found)


@functools.lru_cache(maxsize=None)
def file_names() -> Dict[str, Set[str]]:
    """The names of files, those of each crate by its name, and all by the empty one."""
    found: Dict[str, Set[str]] = {"": set()}
    for path in map(pathlib.PurePath, repository.files()):
        found[""].add(path.name)
        if path.parts[0] == "crates" and len(path.parts) > 3:
            found.setdefault(path.parts[1], set()).add(path.name)
    return found


@functools.lru_cache(maxsize=None)
def words() -> FrozenSet[str]:
    """What a name may be: words of the crates' files and of hosts, names of crates, edits,
    examples, checks."""
    found = set(ELSEWHERE)
    for path in repository.sources():
        found |= repository.words_of(path)
    for path in map(pathlib.PurePath, repository.files()):
        if path.parts[0] in ("examples", "tests"):
            found.add(path.name.partition(".")[0])
        if path.parts[0] == "hosts":
            found |= repository.words_of(str(path))
    found.update(pathlib.PurePath(path).stem for path in repository.edits())
    return frozenset(found | repository.crates())


@functools.lru_cache(maxsize=None)
def words_in(crate: str) -> FrozenSet[str]:
    """The words of a crate's files, and the names of these."""
    found = set()
    for path in repository.sources():
        if path.startswith(f"crates/{crate}/"):
            found |= repository.words_of(path)
            found.update(re.findall(r"\w+", path))
    return frozenset(found)


@functools.lru_cache(maxsize=None)
def found_at(path: str) -> Optional[str]:
    """The path where it is there, as it stands, as a pattern, or without its ending."""
    if "*" in path:
        return path if any(TOP.glob(path.lstrip("/"))) else None
    return path if {path, path + ".antt", path + ".json"} & there() else None


def found_in(crate: str, path: str) -> Optional[str]:
    """The path where it is there in a crate, in one of its folders, or as the name of a file."""
    for folder in ("", "src/", "specs/", "proofs/"):
        found = found_at(f"crates/{crate}/{folder}{path}")
        if found:
            return found
    is_file = path in file_names().get(crate, ())
    return f"crates/{crate}/{path}" if is_file else None


class Page:
    """A page that is read line by line. What it names and isn't there is found missing."""

    def __init__(self, path: str):
        self.path, self.missing, self.count = path, [], 0
        self.headed: Set[str] = set()
        self.crate, self.folder, self.number = "", "", 0

    def read(self, text: str):
        if self.path == crates.PAGE:
            text = text.replace(crates.picture(), "\n" * crates.picture().count("\n"), 1)
        in_code = False
        for self.number, line in enumerate(text.splitlines(), 1):
            self.crate, self.folder = "", ""
            if line.startswith("```"):
                in_code = not in_code
            elif in_code:
                self.read_code(line)
            elif line.startswith("    "):
                self.read_command(line)
            else:
                self.read_prose(line)

    def read_code(self, line: str):
        """Words of a piece of code that have a capital or an underscore are names."""
        for word in re.findall(r"\w+", re.sub(r'"[^"]*"', "", line), re.ASCII):
            if re.match(r"[A-Za-z]+[A-Z_]|[A-Z][a-z]", word):
                self.look_for_name(word)

    def read_command(self, line: str):
        """Words of a command that have a slash are paths."""
        for word in line.split():
            word = re.sub(r"^\./", "", word)
            if re.fullmatch(r"[a-z][A-Za-z0-9_.-]*/[A-Za-z0-9_./-]*", word):
                self.look_for_path(word)

    def read_prose(self, line: str):
        if line.startswith("#"):
            self.read_heading(line.lstrip("# "))
        for target in LINK.findall(line):
            self.count += 1
            page = posixpath.join(posixpath.dirname(self.path), target)
            if posixpath.normpath(page) not in there():
                self.say(f"no page {target}")
        # every second part between backquotes is a token; a last one that isn't closed is none
        for token in line.split("`")[1:-1:2]:
            self.look_for(re.sub(r"^\./", "", token))

    def read_heading(self, line: str):
        """A heading of nothing but crates."""
        self.headed = set()
        found = re.split(", | and ", line)
        if "_" not in line and found[0] not in repository.crates():
            return
        if all(re.fullmatch("[a-z0-9_]+", name) for name in found):
            self.headed = set(found)
            for name in found:
                self.count += 1
                if name not in repository.crates():
                    self.say(f"no crate {name}")

    def look_for(self, token: str):
        """Looks for what stands in backquotes, if it is a crate, a path or a name."""
        if token in repository.crates():
            self.count += 1
            self.crate, self.folder = token, ""
        elif token in words() or PATTERN.fullmatch(token):
            self.count += 1
        elif PATH.fullmatch(token) or FILE.fullmatch(token):
            self.look_for_path(token)
        elif NAMES.fullmatch(token):
            self.look_for_name(token)

    def look_for_name(self, token: str):
        """Each part of a path of names is a word of the code, behind a crate one of its own."""
        self.count += 1
        first, *parts = token.split("::")
        if first in repository.crates():
            is_there = words_in(first).issuperset(parts)
        else:
            is_there = words().issuperset([first, *parts])
        if not is_there:
            self.say(f"no name {token}")

    def look_for_path(self, path: str):
        """A path that is found is the place of what the line names next."""
        self.count += 1
        path = path.rstrip("/")
        found = self.place_of(path)
        if found is None:
            self.say(f"no path {path}")
            return
        parts = found.split("/")
        if parts[0] == "crates":
            self.crate = parts[1] if len(parts) > 1 else ""
        self.folder = found[: found.rfind("/") + 1]

    def place_of(self, path: str) -> Optional[str]:
        """Where a path is, by what the line and the heading name."""
        found = found_at(path) or found_at(f"crates/{path}")
        if not found and self.folder:
            found = found_at(self.folder + path)
        if not found and self.crate:
            found = found_in(self.crate, path)
        for name in sorted(self.headed):
            found = found or found_in(name, path)
        if found or self.crate or self.headed:
            return found
        if path in file_names()[""]:
            return path
        places = [place for name in sorted(repository.crates()) if (place := found_in(name, path))]
        return places[0] if len(places) == 1 else path if places else None

    def say(self, text: str):
        self.missing.append(f"{self.path}:{self.number}: {text}")


class PageTest(unittest.TestCase):
    def test_what_pages_name_is_there(self):
        for path in pages():
            with self.subTest(path):
                page = Page(path)
                page.read(repository.read(path))
                self.assertEqual(page.missing, [])

    def test_no_merge_has_left_its_marks(self):
        for path in pages():
            with self.subTest(path):
                self.assertNotRegex(repository.read(path), r"(?m)^(<<<<<<<|>>>>>>>) ")
