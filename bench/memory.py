#!/usr/bin/env python3
"""Refuses each request for memory of a run in turn, one a run, for an example of each command. Each
such run must end with status 5 and nothing written, or with the status and the text that the run has
with ample memory. So it does for the rows of kept identities, each of whose runs must end
as with ample memory, or with a failure behind a front of its print. Prints a line for each example:
the requests, and how many runs ended so and so.

It wants the proved programs (./smithy_replay --prove; rt run in crates/golden_auth) and gcc.
"""
import pathlib
import sys
import tempfile

TOP = pathlib.Path(__file__).resolve().parent.parent
sys.path.insert(0, str(TOP))

from tests.support.refusing import Refusing  # noqa: E402

PROGRAM = TOP / "crates/smithy_replay/out/smithy_replay"
ROWS = TOP / "crates/golden_auth/out/golden_auth"
NO_MEMORY = 5
EXAMPLES = [
    (["replay"], "examples/teapot.json"),
    (["replay"], "examples/retry.json"),
    (["check"], "examples/teapot.txt"),
    (["client"], "examples/client/a_retry_after_503.json"),
    (["client"], "examples/client/rows/two_retries.json"),
    (["fleet"], "examples/fleet/a_retry_each.json"),
    (["wait"], "examples/wait/fifth_poll.json"),
    (["waiters"], "examples/waiters/both.json"),
    (["make", "3", "7"], None),
    (["--help"], None),
]


def without_memory(ended, whole):
    """Whether a run of the program ended for want of memory."""
    return ended == (NO_MEMORY, b"")


def stopped_short(ended, whole):
    """Whether a run of the program of rows failed behind a front of its print."""
    return ended[0] > 0 and whole[1].startswith(ended[1])


def tried(refusing, command, text, is_refused):
    """Refuses each request of one example. Says whether every run ended as it must."""
    whole, requests = refusing.run_whole(command, text)
    without, same, bad = 0, 0, []
    for number in range(1, requests + 1):
        ended = refusing.run(command, text, number)
        if ended == whole:
            same += 1
        elif is_refused(ended, whole):
            without += 1
        else:
            bad.append((number, ended[0], len(ended[1])))
    name = " ".join([command[0].name, *command[1:]])
    print(f"{name}: {requests} requests, {without} end for want of memory, {same} with the run's own result, {len(bad)} otherwise {bad[:5]}")
    return not bad


def main():
    if not PROGRAM.exists():
        sys.exit("memory: the program isn't built; ./smithy_replay --prove builds it")
    if not ROWS.exists():
        sys.exit("memory: the program of rows isn't built; rt run in its folder builds it")
    with tempfile.TemporaryDirectory() as room:
        refusing = Refusing(pathlib.Path(room))
        ends = []
        for words, script in EXAMPLES:
            text = (TOP / script).read_bytes() if script else b""
            ends.append(tried(refusing, [PROGRAM, *words], text, without_memory))
        ends.append(tried(refusing, [ROWS, "identities"], b"", stopped_short))
        return not all(ends)


sys.exit(main())
