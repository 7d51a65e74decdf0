#!/usr/bin/env python3
"""Compares `smithy_replay replay` with what it does in plain Rust (bench/plain), in one run.

    bench/compare.py [PROGRAM]

Both programs are built, and their prints compared. Then the instructions of both are counted by
callgrind, and their page faults, processor time and greatest memory are taken. The first program is
PROGRAM, or the one that ./smithy_replay runs. Where that isn't proved it has checks of memory: its
figures say nothing of the proved one, and its instructions aren't counted, since it works in a
process of its own. It needs cargo, Debian's librust-serde-json-dev, valgrind, strip and time.
"""
import math
import os
import pathlib
import re
import statistics
import subprocess
import sys
import tempfile
from typing import Dict, List, NamedTuple, Tuple

TOP = pathlib.Path(__file__).resolve().parent.parent
PLAIN = TOP / "bench" / "plain"
RUNS = 15

CONFIGURED = (
    '["Configure Client",["Layer",[]]],["Configure Operation",["Layer",[]]],'
    '["Configure Final",["Layer",[]]],["Serialize",["Request",["GET","/",[],"x"]]],'
    '["Initial","Go"]'
)
ATTEMPT = (
    ',["Choose",["Chosen","noAuth",["",null],null,[],null]]'
    ',["Endpoint",["Endpoint",["http://h",[],null]]]'
    ',["Apply",["Request",["GET","http://h/",[],"x"]]]'
    ',["Sign",["Request",["GET","http://h/",[],"x"]]]'
    ',["Transmit",["Response",[503,[],""]]],["Stream","NotStreaming"],["Body",["Read",""]]'
    ',["Deserialize",["Outcome",["Failed",["Connector","Io","x"]]]]'
    ',["Decide",["Delay",1]],["Start Retry","Started"]'
)
CALLS_OF_ATTEMPT = 23
MERGING_HOOK = ',["Hook read_before_attempt",["Hook",null,[["capture",1]],null]]'
UNASKED = ',["Stream","NotStreaming"]'


class Program(NamedTuple):
    """A command that replays a script, and what it is called in the table."""

    name: str
    words: List[str]


class Usage(NamedTuple):
    """What one run took: page faults, and processor time in ms."""

    faults: int
    ms: float


def script(calls: int, answers: str) -> str:
    """A script of so many calls."""
    head = f'{{"fuel":{calls},"input":[1,"x"],"output_kind":1,"error_kind":2,"answers":['
    return head + answers + "]}\n"


def retries(calls: int, hook: str = "") -> str:
    """A script whose attempts are each followed by a delay, as that of bench/replay.sh."""
    attempts = -(-calls // CALLS_OF_ATTEMPT)
    return script(calls, CONFIGURED + (hook + ATTEMPT) * attempts)


def unasked(size: int) -> str:
    """A script of about so many bytes, with answers that nothing asks for."""
    return script(0, '["Initial","Go"]' + UNASKED * (size // len(UNASKED)))


def cases() -> Dict[str, str]:
    """The scripts that are measured, by what they are."""
    found = {f"{calls} calls": retries(calls) for calls in (1000, 20000, 100000)}
    found["20000 calls, of which each 23rd merges a layer"] = retries(20000, MERGING_HOOK)
    found["1 MiB that nothing asks for"] = unasked(1 << 20)
    return found


def output(words: List[str]) -> str:
    """What a command prints."""
    return subprocess.run(words, check=True, stdout=subprocess.PIPE, text=True).stdout.strip()


def measured_program() -> str:
    """The path of the program that is compared."""
    if len(sys.argv) > 1:
        return str(pathlib.Path(sys.argv[1]).resolve())
    return output([str(TOP / "smithy_replay"), "--which"])


def what_it_is(path: str) -> str:
    """What is said of the program that is compared."""
    if path == str(TOP / "crates" / "smithy_replay" / "out" / "smithy_replay"):
        return f"The proved program, `{path}`."
    if has_checks(path):
        return f"Not proved, and with checks of memory, so its figures say nothing: `{path}`."
    return f"Not known to be proved: `{path}`."


def has_checks(path: str) -> bool:
    """Whether a program was built with checks of memory, as `rt try` builds it."""
    return b"__asan_init" in pathlib.Path(path).read_bytes()


def build_plain() -> str:
    """Builds the plain program, and answers its path."""
    subprocess.run(["cargo", "build", "--release", "--offline", "--quiet"], cwd=PLAIN, check=True)
    return str(PLAIN / "target" / "release" / "plain_replay")


def without_symbols(path: str, copy: pathlib.Path) -> str:
    """A copy that valgrind can read: it fails on symbols of a newer form than it knows."""
    subprocess.run(["strip", "--strip-all", "-o", str(copy), path], check=True)
    return str(copy)


def ended(words: List[str], path: pathlib.Path) -> Tuple[int, bytes]:
    """How a command ends over a script, and what it prints on standard output."""
    pipes = {"stdout": subprocess.PIPE, "stderr": subprocess.DEVNULL}
    with open(path, "rb") as source:
        run = subprocess.run(words, stdin=source, **pipes)
    return run.returncode, run.stdout


def compare_prints(programs: List[Program], paths: List[pathlib.Path]) -> None:
    """Ends this command where two programs print, or end, differently over a script."""
    for path in paths:
        if len({ended(program.words, path) for program in programs}) > 1:
            sys.exit(f"the prints of {path} differ")


def said(words: List[str], path: pathlib.Path) -> str:
    """What a command says on standard error over a script."""
    with open(path, "rb") as source:
        run = subprocess.run(
            words, stdin=source, stdout=subprocess.DEVNULL, stderr=subprocess.PIPE, text=True
        )
    return run.stderr


def instructions(program: Program, path: pathlib.Path, folder: pathlib.Path) -> float:
    """The instructions of a run; not a number where the program has checks of memory."""
    if has_checks(program.words[0]):
        return math.nan
    copy = without_symbols(program.words[0], folder / "counted")
    words = ["valgrind", "--tool=callgrind", "--callgrind-out-file=/dev/null", copy]
    text = said(words + program.words[1:], path)
    found = re.search(r"Collected : (\d+)", text)
    if found is None:
        sys.exit(f"callgrind counted nothing of {program.name}:\n{text}")
    return int(found.group(1))


def memory(program: Program, path: pathlib.Path) -> int:
    """The greatest memory of a run, in KB. A small process asks for it, since what a process had
    counts for the one that it starts."""
    return int(said(["/usr/bin/time", "-f", "%M"] + program.words, path).split()[-1])


def usage(program: Program, path: pathlib.Path) -> Usage:
    """What one run takes."""
    with open(path, "rb") as source:
        pipes = {"stdout": subprocess.DEVNULL, "stderr": subprocess.DEVNULL}
        child = subprocess.Popen(program.words, stdin=source, **pipes)
        _, status, taken = os.wait4(child.pid, 0)
        child.returncode = os.waitstatus_to_exitcode(status)
    return Usage(taken.ru_minflt, 1000 * (taken.ru_utime + taken.ru_stime))


def usages(programs: List[Program], path: pathlib.Path) -> Dict[str, List[Usage]]:
    """What so many runs in turn take, by program."""
    taken: Dict[str, List[Usage]] = {program.name: [] for program in programs}
    for _ in range(RUNS):
        for program in programs:
            taken[program.name].append(usage(program, path))
    return taken


def row(what: str, figures: List[List[float]], digits: int) -> str:
    """A row: the middle figure of each program, and for all but the first the middle ratio of the
    first one's figures to theirs."""
    cells = [f"{statistics.median(figures[0]):.{digits}f}"]
    for others in figures[1:]:
        ratios = [mine / other for mine, other in zip(figures[0], others)]
        cells.append(f"{statistics.median(others):.{digits}f}")
        cells.append(f"{statistics.median(ratios):.3f}")
    return f"| {what} | " + " | ".join(cells) + " |"


def rows(what: str, programs: List[Program], path: pathlib.Path) -> None:
    """Prints the rows of a script."""
    taken = usages(programs, path)
    spent = [[instructions(program, path, path.parent)] for program in programs]
    faults = [[run.faults for run in taken[program.name]] for program in programs]
    times = [[run.ms for run in taken[program.name]] for program in programs]
    most = [[memory(program, path)] for program in programs]
    print(row(f"{what}: instructions", spent, 0))
    print(row("page faults", faults, 0))
    print(row("processor time, ms", times, 1))
    print(row("greatest memory, KB", most, 0), flush=True)


def forms(path: str, plain: str) -> List[Program]:
    """What is compared: the program at the path, and the plain one in both of its manners."""
    return [
        Program("replay", [path, "replay"]),
        Program("plain", [plain]),
        Program("plain by trees", [plain, "trees"]),
    ]


def main() -> None:
    """Builds, compares, and prints a table."""
    path, plain = measured_program(), build_plain()
    with tempfile.TemporaryDirectory() as name:
        folder = pathlib.Path(name)
        programs = forms(path, plain)
        paths = {what: folder / f"{what}.json" for what in cases()}
        for what, text in cases().items():
            paths[what].write_text(text)
        compare_prints(programs, list(paths.values()) + sorted((TOP / "examples").glob("*.json")))
        commit = output(["git", "-C", str(TOP), "rev-parse", "--short", "HEAD"])
        print(f"{what_it_is(path)} Commit {commit}.\n")
        print("| | replay | plain | ratio | plain by trees | ratio |\n|---|---|---|---|---|---|")
        for what, script_path in paths.items():
            rows(what, programs, script_path)


if __name__ == "__main__":
    main()
