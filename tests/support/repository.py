"""The files of the repository, and what crates.txt says of its crates."""
import functools
import os
import pathlib
import re
from typing import Dict, FrozenSet, List, NamedTuple, Tuple

from .program import TOP

LEFT_OUT = {".git", "out", "target", "__pycache__"}


class Crate(NamedTuple):
    """A line of crates.txt: the crate, what it uses, and the heading that it stands under."""

    name: str
    uses: List[str]
    family: str


@functools.lru_cache(maxsize=None)
def files() -> List[str]:
    """All files, as paths from the top."""
    found = []
    for folder, folders, names in os.walk(TOP):
        folders[:] = sorted(set(folders) - LEFT_OUT)
        inside = pathlib.Path(folder).relative_to(TOP)
        found.extend(str(inside / name) for name in sorted(names))
    return found


@functools.lru_cache(maxsize=None)
def sources() -> FrozenSet[str]:
    """The files of the crates' sources, definitions and proofs."""
    folders = re.compile(r"crates/\w+/(src|specs|proofs)/")
    return frozenset(path for path in files() if folders.match(path))


@functools.lru_cache(maxsize=None)
def edits() -> List[str]:
    """The edits that the prover must refuse."""
    edit = re.compile(r"(crates/\w+/must-fail|planted/\w+)/[^/]+\.edit")
    return [path for path in files() if edit.fullmatch(path)]


@functools.lru_cache(maxsize=None)
def crates() -> FrozenSet[str]:
    """The folders of crates/ that have sources."""
    found = (re.match(r"crates/(\w+)/src/", path) for path in files())
    return frozenset(crate[1] for crate in found if crate)


def read(path: str) -> str:
    """The text of a file, with its path from the top."""
    return (TOP / path).read_text(encoding="utf-8", errors="replace")


@functools.lru_cache(maxsize=None)
def words_of(path: str) -> FrozenSet[str]:
    """The words of a file: letters, digits and underscores, as names in code are."""
    return frozenset(re.findall(r"[A-Za-z0-9_]+", read(path)))


@functools.lru_cache(maxsize=None)
def listed() -> List[Crate]:
    """The lines of crates.txt in their order. A comment behind an empty line is a heading."""
    found, family, before = [], "", ""
    for line in read("crates.txt").splitlines():
        if line.startswith("#") and not before:
            family = line.lstrip("# ")
        elif re.match("[a-z]", line):
            name, _, uses = line.partition("#")[0].partition(":")
            found.append(Crate(name.split()[0], uses.split(), family))
        before = line
    return found


def tables(text: str) -> Dict[Tuple[str, str], List[List[str]]]:
    """The rows of each table of a page, by the heading above the table and its first cell."""
    found: Dict[Tuple[str, str], List[List[str]]] = {}
    heading, rows = "", None
    for line in text.splitlines():
        if line.startswith("#"):
            heading = line.lstrip("# ")
        if not line.startswith("|"):
            rows = None
            continue
        cells = [cell.strip() for cell in line.strip("|").split("|")]
        if rows is None:
            rows = found.setdefault((heading, cells[0]), [])
        elif not set(line) <= set("|- "):
            rows.append(cells)
    return found
