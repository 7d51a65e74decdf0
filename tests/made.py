"""Asks `make` for its line, and compares it with one that is worked out here from the words of the
generator and from what a bucket lets each invocation do.

A run whose first attempt is answered makes 34 calls, and each further attempt 25 more. The bucket
has 500 tokens, a retry costs 10, and an invocation makes at most three attempts.
"""
import itertools
from typing import Iterator, List

from .support.program import ProgramTest, run
from .support.scripts import to_text

MASK_64 = 2**64 - 1
MASK_128 = 2**128 - 1
MULTIPLIER = 0x2360ED051FC65DA44385DF649FCCF645
CALLS, FURTHER_CALLS = 34, 25
CAPACITY, COST, ATTEMPTS = 500, 10, 3
ASKED = [(0, 7), (1, 0), (10, 7), (1000, 7), (1000, MASK_64)]


def rotated_right(value: int, turn: int, bits: int) -> int:
    return (value >> turn | value << (bits - turn)) & (2**bits - 1)


def seed_bytes(state: int) -> bytes:
    """The 32 bytes that `seed_from_u64` makes of a number: eight words of PCG32."""
    out = b""
    for _ in range(8):
        state = (state * 6364136223846793005 + 11634580027462260723) & MASK_64
        mixed = (((state >> 18) ^ state) >> 27) & 0xFFFFFFFF
        out += rotated_right(mixed, state >> 59, 32).to_bytes(4, "little")
    return out


def words(seed: int) -> Iterator[int]:
    """The words of Pcg64, a generator of 128 bits with the output XSL RR."""
    given = seed_bytes(seed)
    increment = int.from_bytes(given[16:], "little") | 1
    state = (int.from_bytes(given[:16], "little") + increment) & MASK_128
    state = (state * MULTIPLIER + increment) & MASK_128
    while True:
        state = (state * MULTIPLIER + increment) & MASK_128
        yield rotated_right(((state >> 64) ^ state) & MASK_64, state >> 122, 64)


class Bucket:
    """The bucket of the made clients, with the permit of the invocation before."""

    def __init__(self):
        self.granted, self.available, self.held, self.forgotten = 0, CAPACITY, 0, 0

    def pays(self) -> bool:
        """Whether it pays for a retry. The permit that was held is then forgotten."""
        if self.available < COST:
            return False
        self.forgotten, self.held = self.forgotten + self.held, COST
        self.available -= COST
        return True

    def succeed(self):
        """Takes back the permit that is held, else grants one token."""
        if self.held:
            self.available, self.held = self.available + self.held, 0
        elif self.available < CAPACITY:
            self.granted, self.available = self.granted + 1, self.available + 1

    def sums(self) -> List[int]:
        return [CAPACITY, self.granted, self.available, self.held, self.forgotten]


def line(count: int, seed: int) -> list:
    """The line of `make`: outputs, errors, calls, and the sums of the bucket."""
    bucket = Bucket()
    outputs = calls = 0
    for word in itertools.islice(words(seed), count):
        failures, attempt = word % 3, 1
        while attempt <= failures and attempt < ATTEMPTS and bucket.pays():
            attempt += 1
        calls += CALLS + FURTHER_CALLS * (attempt - 1)
        if attempt > failures:
            outputs += 1
            bucket.succeed()
    return ["made", count, seed, outputs, count - outputs, calls, bucket.sums()]


class MadeTest(ProgramTest):
    def test_make_prints_its_line_each_time(self):
        for count, seed in ASKED:
            with self.subTest(count=count, seed=seed):
                ran = [run("make", str(count), str(seed)) for _ in range(2)]
                self.assertEqual(ran, [(0, to_text([line(count, seed)]))] * 2)
