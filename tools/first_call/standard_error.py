"""What is said on standard error."""
import contextlib
import os
import sys


def tell(text: str) -> None:
    """Writes a text at once. Where there is no standard error, or it takes nothing, nothing is said."""
    if sys.stderr is not None:
        with contextlib.suppress(OSError):
            os.write(sys.stderr.fileno(), os.fsencode(text))


def say(line: str) -> None:
    """Writes a line of the script's."""
    tell(f"smithy_replay: {line}\n")
