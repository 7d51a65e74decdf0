"""Runs fleets of waiters through `waiters`, and compares what happened with what was worked out
from the rules of a fleet: whose turn it is, how long a waiter sleeps, and what its next poll costs.
"""
import collections
import json
from typing import Any, Dict, List

from .support.program import EXAMPLES, ProgramTest, run
from .support.scripts import to_lines, to_text

SECOND = 1_000_000_000
OUTPUT, SERVICE_ERROR = ["Output", [1, ""]], ["Service", [2, ""]]
FAILED_STATUS = 20
PAIR = EXAMPLES / "waiters/one_of_two.json"


def waiter(*polls: List[Any], max_wait: int = 300 * SECOND) -> Dict[str, Any]:
    return {"min": 2 * SECOND, "max": 120 * SECOND, "max_wait": max_wait, "polls": list(polls)}


def fleet(waiters: List[Dict[str, Any]], capacity: int, refill: int = 0) -> Dict[str, Any]:
    """A script of these waiters, under a bucket of this capacity. The refill is thousandths of a
    token a second; a poll costs 5 tokens.
    """
    bucket = [capacity, 5, 5, 10, 0, refill]
    return {"bucket": bucket, "start": 0, "words": [], "fuel": 1000, "waiters": waiters}


class FleetTest(ProgramTest):
    def assert_prints(self, script: Dict[str, Any], *lines: List[Any]) -> None:
        wanted = (FAILED_STATUS, to_text(lines))
        self.assertEqual(run("waiters", text=json.dumps(script)), wanted)

    def test_a_failure_state_ends_a_waiter(self):
        self.assert_prints(
            fleet([waiter([5 * SECOND, SERVICE_ERROR, "Failure"])], 5),
            ["poll", 0, 1, 5 * SECOND],
            ["end", 0, "FailureState"],
            ["bucket", 0, [5, 0, 5, 0, 0]],
        )

    def test_an_error_that_no_acceptor_matched_ends_a_waiter(self):
        self.assert_prints(
            fleet([waiter([0, SERVICE_ERROR, "NoAcceptorsMatched"])], 5),
            ["poll", 0, 1, 0],
            ["end", 0, "OperationFailed"],
            ["bucket", 0, [5, 0, 5, 0, 0]],
        )

    def test_an_error_that_is_not_of_the_model_ends_a_waiter_whatever_its_state(self):
        self.assert_prints(
            fleet([waiter([0, "Timeout", "Success"])], 5),
            ["poll", 0, 1, 0],
            ["end", 0, "OperationFailed"],
            ["bucket", 0, [5, 0, 5, 0, 0]],
        )

    def test_the_longest_wait_ends_with_a_poll_without_a_sleep_before_it(self):
        self.assert_prints(
            fleet([waiter([0, OUTPUT, "NoAcceptorsMatched"], max_wait=5 * SECOND)], 50),
            ["poll", 0, 1, 0],
            ["sleep", 0, 2 * SECOND],
            ["poll", 0, 2, 2 * SECOND],
            ["sleep", 0, 3 * SECOND],
            ["poll", 0, 3, 5 * SECOND],
            ["poll", 0, 4, 5 * SECOND],
            ["end", 0, "ExceededMaxWait"],
            ["bucket", 0, [50, 0, 35, 0, 15]],
        )


class FuelTest(ProgramTest):
    def assert_ends(self, script: Dict[str, Any], ends: Dict[str, int], sums: List[int]) -> None:
        """Compares how many waiters ended in each way, and the bucket."""
        lines = to_lines(run("waiters", text=json.dumps(script)).output)
        self.assertEqual(collections.Counter(line[2] for line in lines if line[0] == "end"), ends)
        self.assertEqual(lines[-1], ["bucket", 0, sums])

    def test_less_fuel_leaves_waiters_unfinished(self):
        pair = json.loads(PAIR.read_text())
        before, paid = [5, 0, 5, 0, 0], [5, 0, 0, 0, 5]
        for fuel in range(8):
            with self.subTest(fuel=fuel):
                if fuel < 5:
                    ends, sums = {"Unfinished": 2}, before
                elif fuel < 7:
                    ends, sums = {"Ok": 1, "Unfinished": 1}, paid
                else:
                    ends, sums = {"Ok": 1, "NoQuota": 1}, paid
                self.assert_ends({**pair, "fuel": fuel}, ends, sums)

    def test_many_waiters_share_a_bucket_that_runs_dry_and_refills(self):
        """The second polls, at 2 s, take the whole bucket. At 4 s it has 100 for the third."""
        polls = [[0, OUTPUT, "Retry"], [0, SERVICE_ERROR, "Retry"], [0, OUTPUT, "Success"]]
        script = fleet([waiter(*polls)] * 64, capacity=320, refill=50_000)
        shortest = {**script, "words": [0]}
        self.assert_ends(shortest, {"Ok": 20, "NoQuota": 44}, [320, 100, 0, 0, 420])
