"""Recorded runs: the prints that `replay` would make of them, one file each."""
import json
import os
import pathlib
from typing import Any, List, Optional, Union

from .protocol import ERROR_KIND, OUTPUT_KIND, line_of

Path = Union[str, "os.PathLike[str]"]


class Recording:
    """A folder that runs are recorded in, each in a file that its owner alone may read.

    The program's `check` says yes to each of them. As a context manager it ends the recording.
    """

    def __init__(self, folder: Path):
        self.folder = pathlib.Path(folder)
        self.folder.mkdir(mode=0o700, parents=True, exist_ok=True)
        self.files: List[pathlib.Path] = []
        """The files that were written, in the order of the runs' ends."""
        self._is_ended = False

    def end(self) -> None:
        """Records no further runs."""
        self._is_ended = True

    @property
    def is_ended(self) -> bool:
        return self._is_ended

    def write(self, client: str, text: bytes) -> pathlib.Path:
        """Writes the print of a run into a file of its own."""
        safe = "".join(letter if letter.isalnum() or letter in "-_" else "_" for letter in client)
        number = len(self.files) + 1
        while True:
            path = self.folder / f"{number:06d}-{safe}.txt"
            try:
                to = os.open(path, os.O_WRONLY | os.O_CREAT | os.O_EXCL, 0o600)
            except FileExistsError:
                number += 1
                continue
            with open(to, "wb") as file:
                file.write(text)
            self.files.append(path)
            return path

    def __enter__(self) -> "Recording":
        return self

    def __exit__(self, *_: Optional[object]) -> None:
        self.end()


def head_of(payload: Any, fuel: int) -> bytes:
    """The first line of a run's print."""
    return line_of(["begin", payload, "None", OUTPUT_KIND, ERROR_KIND, fuel])


def script_for_replay(text: bytes) -> bytes:
    """The script of `replay` for a recorded run, which prints the same again.

    `replay` has limits that a run hasn't: a head of 32 headers and of 8 KiB. It refuses the script
    of a run that passes them.
    """
    head, *entries, _ = text.splitlines()
    _, payload, stop, output_kind, error_kind, fuel = json.loads(head)
    answers = [json.loads(entry)[1:3] for entry in entries]
    script = {
        "fuel": fuel,
        "input": payload,
        "output_kind": output_kind,
        "error_kind": error_kind,
        "stop": stop,
        "answers": answers,
    }
    return line_of(script)
