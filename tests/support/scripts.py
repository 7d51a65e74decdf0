"""What scripts and prints are made of."""
import json
from typing import Iterable, List

MIDDLE_WORD = 2**63 - 1


class Words:
    """The random words of a script: each is drawn once, but the last one again and again."""

    def __init__(self, words: List[int]):
        self.left = list(words) or [MIDDLE_WORD]

    def draw(self) -> int:
        return self.left.pop(0) if len(self.left) > 1 else self.left[0]


def to_text(lines: Iterable[list]) -> str:
    """Lines as the program prints them."""
    return "".join(json.dumps(line, separators=(",", ":")) + "\n" for line in lines)


def to_lines(text: str) -> List[list]:
    """The lines of a print, read as JSON."""
    return [json.loads(line) for line in text.splitlines()]
