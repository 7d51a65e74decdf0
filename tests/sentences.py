"""Checks how long the sentences of the pages for users are. Of their text only prose counts: no
code, no tables, no headings. The sections to which the first page leads are short as a whole.
"""
import re
import unittest
from typing import Dict, List, Tuple

from .support import repository

PAGE = re.compile(r"(README|CONTRIBUTING|CHANGELOG|SECURITY)\.md|docs/[^/]+\.md")
LONG = 25  # the most words of a sentence that isn't long
WORDS_OF_README = 850
WORDS_OF_AN_ANSWER = 400
SECTION = re.compile(r"\]\(([A-Za-z_./]+\.md)#([a-z0-9-]+)\)")


def pages() -> List[str]:
    return [path for path in repository.files() if PAGE.fullmatch(path)]


def prose_of(page: str) -> str:
    """The text without headings, tables and code. What stands in backquotes counts as a word."""
    kept, in_code = [], False
    for line in page.splitlines():
        if line.startswith("```"):
            in_code = not in_code
        left_out = in_code or line.startswith(("```", "    ", "#"))
        kept.append("" if left_out else line)
    text = "\n".join(line for line in kept if not line.startswith("|"))
    text = re.sub(r"\]\([^)]*\)", "]", text)
    return re.sub(r"`[^`]*`", "Code", text)


def sentences_of(page: str) -> List[str]:
    """The sentences of a page. An item of a list ends the one before it."""
    found = []
    for paragraph in re.split(r"\n\s*\n|\n(?=\s*(?:[-*]|\d+\.)\s)", prose_of(page)):
        text = re.sub(r"\s+", " ", re.sub(r"^\s*(?:[-*]|\d+\.)\s+", "", paragraph)).strip()
        found.extend(part for part in re.split(r"(?<=[.!?])\s+", text) if part)
    return found


def words_of(sentence: str) -> int:
    return len(re.findall(r"[\w'’-]+", sentence))


def sections_of(page: str) -> Dict[str, str]:
    """The text of each section with all that stands below its heading, by the name that a link has
    for it."""
    found: Dict[str, str] = {}
    open_ones: List[Tuple[int, str]] = []
    for line in page.splitlines():
        heading = re.match("(#+) (.*)", line)
        if heading:
            level = len(heading[1])
            open_ones = [(above, name) for above, name in open_ones if above < level]
            name = re.sub(r"[^a-z0-9_ -]", "", heading[2].lower()).replace(" ", "-")
            open_ones.append((level, name))
            found[name] = ""
        for _, name in open_ones:
            found[name] += f"{line}\n"
    return found


class SentenceTest(unittest.TestCase):
    def test_at_most_one_sentence_in_ten_is_long(self):
        for path in pages():
            with self.subTest(path):
                sentences = sentences_of(repository.read(path))
                long = [sentence for sentence in sentences if words_of(sentence) > LONG]
                self.assertLessEqual(10 * len(long), len(sentences), "\n".join(long))

    def test_the_first_page_is_short(self):
        page = repository.read("README.md")
        long = [sentence for sentence in sentences_of(page) if words_of(sentence) > LONG]
        self.assertEqual(long, [])
        self.assertLessEqual(len(page.split()), WORDS_OF_README)

    def test_a_section_that_the_first_page_names_is_short(self):
        for path, name in SECTION.findall(repository.read("README.md")):
            with self.subTest(f"{path}#{name}"):
                section = sections_of(repository.read(path))[name]
                self.assertLessEqual(len(section.split()), WORDS_OF_AN_ANSWER)

    def test_sentences_are_told_apart(self):
        page = "# A heading\n\nOne two. Three `a b`\nfour!\n\n- five\n- six? Seven\n\n| a | b |\n"
        self.assertEqual(
            sentences_of(page), ["One two.", "Three Code four!", "five", "six?", "Seven"]
        )
