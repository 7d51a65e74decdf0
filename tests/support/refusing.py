"""Runs of a program with one of its requests for memory refused.

The program is run behind a library that a C compiler makes of bench/refuse.c. A program that is
compiled without proofs has an allocator of its own, so that nothing is refused there.
"""
import pathlib
import subprocess
from typing import List, Tuple, Union

from .program import TOP

Word = Union[str, pathlib.Path]


class Refusing:
    """The library, which is made in this folder by this compiler."""

    def __init__(self, room: pathlib.Path, compiler: str = "gcc"):
        self.library = room / "refuse.so"
        self.count = room / "requests"
        source = TOP / "bench/refuse.c"
        words = [compiler, "-O2", "-shared", "-fPIC", "-o", self.library, source]
        subprocess.run(words, check=True)

    def run(self, command: List[Word], text: bytes, number: int) -> Tuple[int, bytes]:
        """The status and what was written, where the request of this number is refused."""
        names = {"LD_PRELOAD": str(self.library), "REFUSED_REQUEST": str(number)}
        return ended(command, text, names)

    def run_whole(self, command: List[Word], text: bytes) -> Tuple[Tuple[int, bytes], int]:
        """The same with ample memory, and how many requests there were."""
        names = {"LD_PRELOAD": str(self.library), "REQUESTS_FILE": str(self.count)}
        return ended(command, text, names), int(self.count.read_text())


def ended(command: List[Word], text: bytes, names: dict) -> Tuple[int, bytes]:
    ran = subprocess.run(command, input=text, capture_output=True, env=names, check=False)
    return ran.returncode, ran.stdout
