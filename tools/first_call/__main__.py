"""Does the work of the first call of ./smithy_replay, which runs this where no program stands.

    python3 -B tools/first_call ROOM short|explaining WORD ..

Words that need no program are answered or refused, with the statuses of the program. For others a
program is compiled without proofs, and its path is written to the file `runs` of the call's folder
ROOM. The script removes that folder. A command that has programs alone gets the short or the
explaining one, and others get the whole program. The status is 69 where `rt` isn't found, and 70
where nothing could be built.
"""
import os
import pathlib
import shutil
import signal
import sys
import tempfile
from typing import List, Optional

import answers
import building
import sources
from sources import Program
from standard_error import say, tell

TOP = pathlib.Path(__file__).resolve().parents[2]
OUT = TOP / "crates/smithy_replay/out"
DONE, BAD_WORDS, NOT_WRITTEN, RT_IS_MISSING, NOT_BUILT = 0, 1, 4, 69, 70
# What a program does for about half a second while it is taken: a script that it makes, or an input.
MADE_SCRIPT = ["make", "100", "1"]
SPACES = b" " * 400_000
EXPLAINING = "explaining"


def stop(number: int, _frame) -> None:
    """Ends this process by a signal, and with it the build."""
    for each in (signal.SIGHUP, signal.SIGTERM):
        signal.signal(each, signal.SIG_IGN)
    sys.exit(128 + number)


def watch_signals() -> None:
    """Has a signal end the build too. The script passes on what it gets; what it doesn't heed, this
    doesn't either."""
    for each in (signal.SIGHUP, signal.SIGTERM):
        if signal.getsignal(each) != signal.SIG_IGN:
            signal.signal(each, stop)


def print_text(text: bytes) -> int:
    """Writes a text to standard output. The script says where it could not be written."""
    try:
        with open(1, "wb", closefd=False) as output:
            output.write(text)
    except OSError:
        return NOT_WRITTEN
    return DONE


def compiled(room: pathlib.Path, program: Optional[Program]) -> pathlib.Path:
    """Compiles this program of one command alone, or the whole one where none is given."""
    if program is None:
        tell("smithy_replay: compiling the whole program, two to three minutes of one processor")
        return building.compiled(TOP / "crates/smithy_replay", MADE_SCRIPT, b"", room)
    with tempfile.TemporaryDirectory() as name:
        copies = pathlib.Path(name)
        try:
            folders = sources.lay_out(TOP, program, copies)
        except OSError as why:
            reason = f"its sources can't be copied to a folder for temporary files: {why}"
            raise building.NotBuilt(reason) from why
        (room / "sources").write_text("\n".join(folders))
        what = "with what says why" if program.explains else "alone"
        what = f"the command {program.command} {what}, one to two minutes of one processor"
        tell(f"smithy_replay: compiling {what}")
        return building.compiled(copies / "crates/smithy_replay", [program.command], SPACES, room)


def kept(made: pathlib.Path, program: Optional[Program]) -> pathlib.Path:
    """Moves a program to where it is kept, behind the list of its sources. Where nothing can be
    kept, it lasts as long as this call."""
    place = OUT / (program.file() if program else "unproved")
    try:
        if program:
            os.replace(made.with_name("sources"), f"{place}.sources")
        os.replace(made, place)
    except OSError:
        return made.rename(made.with_name(place.name))
    return place


def build(room: pathlib.Path, words: List[str], explains: bool) -> int:
    """Compiles what these words need, and tells the script which program it runs."""
    is_alone = len(words) == 1 and words[0] in sources.ALONE
    program = Program(words[0], explains) if is_alone else None
    began = room.stat().st_mtime_ns
    if shutil.which("rt") is None:
        return RT_IS_MISSING
    try:
        made = compiled(room, program)
        os.utime(made, ns=(began, began))
        (room / "runs").write_bytes(os.fsencode(kept(made, program)))
    except building.NotBuilt as why:
        say(str(why))
        return NOT_BUILT
    except OSError as why:
        say(f"the program could not be built: {why}")
        return NOT_BUILT
    return DONE


def main(room: str, kind: str, *words: str) -> int:
    watch_signals()
    try:
        text = answers.answer(TOP, list(words))
    except answers.Refused as why:
        say(str(why))
        return BAD_WORDS
    except OSError:
        return NOT_WRITTEN
    if text is not None:
        return print_text(text)
    return build(pathlib.Path(room), list(words), kind == EXPLAINING)


if __name__ == "__main__":
    sys.exit(main(*sys.argv[1:]))
