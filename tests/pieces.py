"""Runs the program over streams that give or take little at a time, and over streams that fail when
some of it is through: each command over a source that fails behind each 64 bytes, and over a sink
that fails there. The module `streams` has those that fail from the start.
"""
import fcntl
import os
import resource
import socket
import subprocess
import tempfile
from typing import Iterator, Sequence, Tuple

from .support import program
from .support.program import EXAMPLES, ProgramTest

READ_FAULT, WRITE_FAULT = 3, 4
PIECE = 64
SCRIPT = (EXAMPLES / "teapot.json").read_bytes()
PRINT = (EXAMPLES / "teapot.txt").read_bytes()
LONG_SCRIPT = (EXAMPLES / "fleet/two_retries_each.json").read_bytes()
LONG_PRINT = (EXAMPLES / "fleet/two_retries_each.txt").read_bytes()
# Linux's number of the call that sets how much a pipe holds.
SET_PIPE_SIZE = 1031
NARROWEST = 4096

# Commands that read, each with its input.
READING = [
    ("replay", SCRIPT),
    ("client", (EXAMPLES / "client/a_retry_after_503.json").read_bytes()),
    ("fleet", (EXAMPLES / "fleet/a_retry_each.json").read_bytes()),
    ("wait", (EXAMPLES / "wait/fifth_poll.json").read_bytes()),
    ("waiters", (EXAMPLES / "waiters/both.json").read_bytes()),
    ("check", PRINT),
]
# Commands that read nothing.
TELLING = [("make", "3", "7"), ("--help",), ("--version",)]

# The status of a run, and what it wrote.
Ended = Tuple[int, bytes]


def pieces(data: bytes, size: int) -> Iterator[bytes]:
    return (data[at : at + size] for at in range(0, len(data), size))


def from_a_sender_of_pieces(size: int) -> Ended:
    """A replay whose every read gives so many bytes at most: a packet each."""
    sender, receiver = socket.socketpair(socket.AF_UNIX, socket.SOCK_SEQPACKET)
    streams = {"stdin": receiver, "stdout": subprocess.PIPE}
    with receiver, subprocess.Popen([program.path(), "replay"], **streams) as started:
        with sender:
            for piece in pieces(SCRIPT, size):
                sender.send(piece)
        output = started.stdout.read()
        return started.wait(), output


def from_a_sender_that_breaks_off(sent: bytes, words: Sequence[str] = ("replay",)) -> Ended:
    """A run that reads these bytes, and then that the connection was reset: its other end was
    closed with a byte that nobody read.
    """
    sender, receiver = socket.socketpair()
    with receiver:
        with sender:
            receiver.send(b"?")
            sender.send(sent)
        asked = [program.path(), *words]
        ended = subprocess.run(asked, stdin=receiver, stdout=subprocess.PIPE, check=False)
        return ended.returncode, ended.stdout


def to_a_slow_reader(size: int) -> Ended:
    """A fleet whose print goes through a pipe that holds less than the print, and is taken out of
    it so many bytes at a time.
    """
    reader, writer = os.pipe()
    fcntl.fcntl(writer, SET_PIPE_SIZE, NARROWEST)
    streams = {"stdin": subprocess.PIPE, "stdout": writer}
    with subprocess.Popen([program.path(), "fleet"], **streams) as started:
        os.close(writer)
        started.stdin.write(LONG_SCRIPT)
        started.stdin.close()
        with open(reader, "rb", buffering=0) as taken:
            output = b"".join(iter(lambda: taken.read(size), b""))
        return started.wait(), output


def into_a_file_of(size: int, *words: str, text: bytes = b"") -> Ended:
    """A run whose output is a file that may not grow past so many bytes."""

    def limit():
        resource.setrlimit(resource.RLIMIT_FSIZE, (size, size))

    with tempfile.TemporaryFile() as file:
        # Python ignores the signal that comes with the limit, and so does the program then.
        ended = subprocess.run(
            [program.path(), *words],
            input=text,
            stdout=file,
            preexec_fn=limit,
            restore_signals=False,
            check=False,
        )
        file.seek(0)
        return ended.returncode, file.read()


class PieceTest(ProgramTest):
    def test_a_script_that_comes_in_little_pieces_is_read_whole(self):
        for size in (1, 7, 64):
            with self.subTest(size=size):
                self.assertEqual(from_a_sender_of_pieces(size), (0, PRINT))

    def test_a_print_that_is_taken_in_little_pieces_is_whole(self):
        self.assertGreater(len(LONG_PRINT), NARROWEST)
        self.assertEqual(to_a_slow_reader(64), (0, LONG_PRINT))

    def test_a_sender_that_breaks_off_is_a_read_fault(self):
        for sent in (b"", SCRIPT[:7], SCRIPT):
            with self.subTest(sent=len(sent)):
                self.assertEqual(from_a_sender_that_breaks_off(sent), (READ_FAULT, b""))

    def test_a_source_that_fails_behind_any_piece_is_a_read_fault(self):
        for command, text in READING:
            for front in [*range(0, len(text), PIECE), len(text)]:
                with self.subTest(command, front=front):
                    ended = from_a_sender_that_breaks_off(text[:front], [command])
                    self.assertEqual(ended, (READ_FAULT, b""))

    def test_a_command_that_reads_nothing_ends_well_over_a_source_that_fails(self):
        for words in TELLING:
            with self.subTest(words[0]):
                status, output = from_a_sender_that_breaks_off(b"", words)
                self.assertEqual(status, 0)
                self.assertGreater(len(output), 0)

    def test_a_sink_that_fails_behind_any_piece_has_a_front(self):
        commands = [*(((command,), text) for command, text in READING)]
        for words, text in [*commands, *((words, b"") for words in TELLING)]:
            asked = [program.path(), *words]
            whole = subprocess.run(asked, input=text, stdout=subprocess.PIPE, check=True).stdout
            for size in range(0, len(whole), PIECE):
                with self.subTest(words[0], size=size):
                    ended = into_a_file_of(size, *words, text=text)
                    self.assertEqual(ended, (WRITE_FAULT, whole[:size]))

    def test_a_file_that_is_full_in_the_middle_has_a_front(self):
        self.assertEqual(into_a_file_of(8, "--version"), (WRITE_FAULT, b"smithy_r"))
        for size in (0, 1, len(PRINT) - 1):
            with self.subTest(size=size):
                ended = into_a_file_of(size, "replay", text=SCRIPT)
                self.assertEqual(ended, (WRITE_FAULT, PRINT[:size]))
        self.assertEqual(into_a_file_of(len(PRINT), "replay", text=SCRIPT), (0, PRINT))
