"""Answers words that need no program, and refuses words that are no command, as the program does.

`tests/words.py` compares both.
"""
import functools
import os
import pathlib
import re
from typing import List, Optional

HELP = (["--help"], ["help"], ["-h"])
VERSION = (["--version"], ["version"], ["-V"])
WITH_SCHEMA = ("replay", "client", "fleet", "wait", "waiters")
WITH_INPUT = (*WITH_SCHEMA, "serve", "check")
NAMES = (
    *("replay", "client", "wait", "waiters", "fleet", "serve", "check", "make"),
    *("--schema", "--help", "--version"),
)
# For a longer word no name is near.
LONGEST_WORD = 64
NUMBER = re.compile(r"0|[1-9][0-9]*")


class Refused(Exception):
    """Why words were refused."""


def answer(top: pathlib.Path, words: List[str]) -> Optional[bytes]:
    """The text that answers these words, from the files of the repository at `top`. None where a
    program has to run. Raises `Refused`, and `OSError` where the text can't be read."""
    if not all(is_text(word) for word in words):
        raise Refused("the arguments aren't UTF-8; try --help")
    if words in HELP:
        return own_text(top, r'^pub const HELP: .*\n((?:.*\n)*?)";$')
    if words in VERSION:
        return own_text(top, r'^pub const VERSION: &str = "(.*)\\n";$') + b"\n"
    if len(words) == 2 and words[0] == "--schema" and words[1] in WITH_SCHEMA:
        return (top / f"docs/schema/{words[1]}.json").read_bytes()
    if not needs_program(words):
        raise Refused(reason(words))
    return None


def is_text(word: str) -> bool:
    """Whether the bytes of this word are UTF-8."""
    try:
        os.fsencode(word).decode()
    except UnicodeDecodeError:
        return False
    return True


def own_text(top: pathlib.Path, pattern: str) -> bytes:
    """A text of the program's, as its source has it."""
    source = (top / "crates/cli_commands/src/help.rt").read_text(encoding="utf-8")
    found = re.search(pattern, source, re.MULTILINE)
    if not found:
        raise OSError("the program's texts aren't where they were")
    return found[1].encode()


def needs_program(words: List[str]) -> bool:
    """Whether these words are a command that is left to the program. It says too whether a number
    fits 64 bits."""
    if len(words) == 3 and words[0] == "make":
        return all(NUMBER.fullmatch(word) for word in words[1:])
    return words == ["client", "--moments"] or (len(words) == 1 and words[0] in WITH_INPUT)


def reason(words: List[str]) -> str:
    """Why words that are no command are refused."""
    if not words:
        return "a command is missing; try --help"
    first = words[0]
    if first == "make":
        return "make N SEED: two decimal numbers, N at most 1000"
    if first == "--schema":
        return "--schema COMMAND: replay, client, fleet, wait or waiters"
    if first in WITH_INPUT:
        return f"give the script on standard input: {first} < FILE"
    if [first] in HELP:
        return "--help stands alone; try --help"
    if [first] in VERSION:
        return "--version stands alone; try --help"
    near = nearest(os.fsencode(first))
    return f"no such command; did you mean {near}? Try --help" if near else "no such command; try --help"


def nearest(word: bytes) -> Optional[str]:
    """The name with the fewest changes, the first of several. None where more than half of the word
    is changed."""
    if len(word) > LONGEST_WORD:
        return None
    near = min(NAMES, key=lambda name: changes(word, name.encode()))
    return near if changes(word, near.encode()) <= len(word) // 2 else None


@functools.lru_cache(maxsize=None)
def changes(word: bytes, name: bytes) -> int:
    """How many bytes of a word are left out, put in or changed where it becomes a name."""
    if not word or not name:
        return len(word) + len(name)
    changed = changes(word[1:], name[1:]) + (word[0] != name[0])
    return min(changed, changes(word[1:], name) + 1, changes(word, name[1:]) + 1)
