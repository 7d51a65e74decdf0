"""Refuses each request for memory of a conversation with a host in turn, one a run.

It wants the proved program and a C compiler. Where one of them isn't there it is skipped.
"""
import os
import pathlib
import shutil
import tempfile
from concurrent.futures import ThreadPoolExecutor
from typing import Dict, List, Tuple

from .support.program import EXAMPLES, ProgramTest, is_proved, path
from .support.refusing import Refusing

NO_MEMORY = 5
# A retry behind a response of 503, and a line that is no message.
LINES = (EXAMPLES / "serve/a_retry_after_503.lines").read_bytes().splitlines(keepends=True)


def compiler() -> str:
    """The name of a C compiler, where there is one."""
    return next((name for name in ("gcc", "clang", "cc") if shutil.which(name)), "")


class MemoryTest(ProgramTest):
    def setUp(self) -> None:
        if not compiler():
            self.skipTest("there is no C compiler")
        if not is_proved():
            self.skipTest("a program without proofs has an allocator of its own")

    def test_what_was_told_before_memory_ran_out_is_right(self):
        with tempfile.TemporaryDirectory() as room:
            refusing = Refusing(pathlib.Path(room), compiler())
            (status, whole), requests = refusing.run_whole([path(), "serve"], b"".join(LINES))
            told = fronts(refusing)
            ends = refused_in_turn(refusing, requests)
        self.assertEqual((status, whole), (0, told[-1]))
        short = {number: end for number, end in ends.items() if end != (0, whole)}
        wrong = [n for n, end in short.items() if end[0] != NO_MEMORY or end[1] not in told]
        self.assertEqual(wrong, [])
        self.assertLessEqual(set(told) - {whole}, {end[1] for end in short.values()})


def fronts(refusing: Refusing) -> List[bytes]:
    """What is told of no line of the conversation, of the first one, of the first two, and so on."""
    texts = [b"".join(LINES[:count]) for count in range(len(LINES) + 1)]
    return [refusing.run([path(), "serve"], text, 0)[1] for text in texts]


def refused_in_turn(refusing: Refusing, requests: int) -> Dict[int, Tuple[int, bytes]]:
    """By the number of the request that is refused, how the conversation ended and what was told."""
    text = b"".join(LINES)
    numbers = range(1, requests + 1)
    with ThreadPoolExecutor(os.cpu_count()) as pool:
        ends = pool.map(lambda number: refusing.run([path(), "serve"], text, number), numbers)
        return dict(zip(numbers, ends))
