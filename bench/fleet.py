#!/usr/bin/env python3
"""The time by the clock that `fleet` takes for 1, 2 and 4 callers with the same invocations each, the
best of some runs, and the processor time of that run. Reading and printing, which one thread does,
grow with the callers; so each is also taken with no fuel for any call but the first.

A lock round each whole invocation would let no two callers run at once: the time by the clock would
then be the processor time at least. Other work on the machine changes all of this.

It wants the proved program (./smithy_replay --prove).
"""
import json
import os
import pathlib
import subprocess
import sys
import time

TOP = pathlib.Path(__file__).resolve().parent.parent
PROGRAM = TOP / "crates/smithy_replay/out/smithy_replay"
INVOCATIONS, FUEL = 500, 45


def script(callers, fuel):
    """Callers whose every invocation succeeds at its first attempt."""
    client = json.loads((TOP / "examples/fleet/a_retry_each.json").read_text())["callers"][0]["client"]
    response = [0, 200, [], [[0, "ok"]], False, None]
    invocation = {"input": [1, "x"], "fuel": fuel, "stop": "None", "responses": [response]}
    record = {"client": client, "invocations": [invocation] * INVOCATIONS}
    text = {"bucket": [500, 5, 5, 10, 0, 0], "start": 7, "words": [], "callers": [record] * callers}
    return json.dumps(text).encode()


def run(text):
    """Milliseconds by the clock and of processors of one run."""
    before, begun = os.times(), time.monotonic()
    subprocess.run([PROGRAM, "fleet"], input=text, stdout=subprocess.DEVNULL, stderr=subprocess.DEVNULL)
    spent, after = time.monotonic() - begun, os.times()
    busy = after.children_user + after.children_system - before.children_user - before.children_system
    return spent * 1000, busy * 1000


def main():
    if not PROGRAM.exists():
        sys.exit("fleet: the program isn't built; ./smithy_replay --prove builds it")
    runs = int(sys.argv[1]) if len(sys.argv) > 1 else 9
    print("| callers | ms | to one caller | ms of processors | ms with fuel 1 |\n|---|---|---|---|---|")
    one = None
    for callers in (1, 2, 4):
        whole, busy = min(run(script(callers, FUEL)) for _ in range(runs))
        little, _ = min(run(script(callers, 1)) for _ in range(runs))
        one = one or whole
        print(f"| {callers} | {whole:.0f} | {whole / one:.2f} | {busy:.0f} | {little:.0f} |")


main()
