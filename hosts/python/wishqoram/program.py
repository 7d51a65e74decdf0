"""The engine's program, a child process."""
import os
import pathlib
import subprocess
import tempfile
import threading
import weakref
from typing import Any, Callable, List, Optional, Union

from .errors import EngineClosed, EngineError, ProgramEnded, ProgramNotFound, Refused
from .protocol import LAST, Opened, RefusedLine, Reply, line_of, reply_of

VARIABLE = "WISHQORAM_PROGRAM"
BESIDE = pathlib.Path(__file__).resolve().parent.joinpath("../../../smithy_replay").resolve()
LINE_LIMIT = 2**24  # bytes: the program ends at a longer line
PATIENCE = 5.0  # seconds that the program has to end by itself

Path = Union[str, "os.PathLike[str]"]


def find_program(given: Optional[Path] = None) -> str:
    """The program to start: the given one, or that of the environment, or the repository's.

    The repository's `smithy_replay` is a script. It is asked for its program, which it compiles
    first where none stands. That takes minutes, once.
    """
    path = given or os.environ.get(VARIABLE) or (BESIDE if BESIDE.exists() else None)
    if path is None:
        raise ProgramNotFound(f"say program=.., or set {VARIABLE} to the path of smithy_replay")
    path = os.fspath(path)
    try:
        with open(path, "rb") as file:
            is_script = file.read(2) == b"#!"
    except PermissionError:
        is_script = False
    except OSError as error:
        raise ProgramNotFound(f"{path}: {error.strerror}") from error
    return _asked(path) if is_script else path


def _asked(script: str) -> str:
    asked = subprocess.run([script, "--which"], stdout=subprocess.PIPE, check=False)
    if asked.returncode != 0:
        raise ProgramNotFound(f"{script} --which ends with status {asked.returncode}")
    return os.fsdecode(asked.stdout.rstrip(b"\n"))


class Program:
    """A program that serves, and the pipe to it. Any thread may say something."""

    def __init__(self, path: str, description: Any, on_end: Callable[["ProgramEnded"], None]):
        self._on_end = on_end
        self._lock = threading.Lock()
        self._owner = os.getpid()
        self._is_closed = False
        self._ended: Optional[ProgramEnded] = None
        self._errors = tempfile.TemporaryFile()
        self._process = self._start(path)
        self._hang_up = weakref.finalize(self, _hang_up, self._process)
        self.id = self._process.pid
        try:
            self._open(description)
        except BaseException:
            self.close()
            raise
        watch = threading.Thread(
            target=_watch, args=(self._process, weakref.ref(self)), name=f"engine {self.id}"
        )
        watch.daemon = True
        watch.start()

    def _start(self, path: str) -> "subprocess.Popen[bytes]":
        try:
            return subprocess.Popen(
                [path, "serve"],
                stdin=subprocess.PIPE,
                stdout=subprocess.PIPE,
                stderr=self._errors,
                start_new_session=True,  # Ctrl-C at a terminal is the host's alone
            )
        except OSError as error:
            self._errors.close()
            raise ProgramNotFound(f"{path} can't be started: {error.strerror}") from error

    def _open(self, description: Any) -> None:
        reply = self.say(description)[-1]
        if reply != Opened(len(description["clients"])):
            raise EngineError(f"the engine answers a description by {reply!r}")

    def say(self, message: Any) -> List[Reply]:
        """One exchange: a line, and the lines that answer it."""
        if os.getpid() != self._owner:
            raise EngineError("an engine isn't there in a process that was forked off")
        line = line_of(message)
        if len(line) > LINE_LIMIT:
            raise Refused(f"a line has {len(line)} bytes, and the engine reads {LINE_LIMIT}")
        with self._lock:
            if self._ended:
                raise ProgramEnded(self._ended.status, self._ended.said)
            if self._is_closed:
                raise EngineClosed()
            try:
                return self._exchange(line)
            except (OSError, EOFError) as error:
                raise self._end() from error
            except BaseException:
                self._process.kill()  # the pipe is out of step
                self._end()
                raise

    def _exchange(self, line: bytes) -> List[Reply]:
        to, back = self._process.stdin, self._process.stdout
        assert to is not None and back is not None
        to.write(line)
        to.flush()
        replies: List[Reply] = []
        while not (replies and isinstance(replies[-1], LAST)):
            answer = back.readline()
            if not answer.endswith(b"\n"):
                raise EOFError("the engine says no more")
            replies.append(_understood(answer))
        return replies

    def close(self) -> None:
        """Ends the program, which leaves no process behind."""
        with self._lock:
            if self._is_closed:
                return
            self._is_closed = True
            self._hang_up()
            try:
                self._process.wait(PATIENCE)
            except subprocess.TimeoutExpired:
                self._process.kill()
                self._process.wait()
            self._errors.close()

    def _end(self) -> ProgramEnded:
        """What there is to say, now that the program ended."""
        if self._ended is None:
            try:
                status: Optional[int] = self._process.wait(PATIENCE)
            except subprocess.TimeoutExpired:
                self._process.kill()
                status = self._process.wait()
            self._ended = ProgramEnded(status, self._said())
        return self._ended

    def _said(self) -> str:
        self._errors.seek(0)
        return self._errors.read().decode("utf-8", "replace").strip()

    def tell_end(self) -> None:
        """Tells the runs that the program ended, unless that was wanted."""
        with self._lock:
            if not self._is_closed:
                self._on_end(self._end())


def _hang_up(process: "subprocess.Popen[bytes]") -> None:
    """Closes the pipe. The end of its input ends the program."""
    for pipe in (process.stdin, process.stdout):
        try:
            if pipe is not None:
                pipe.close()
        except OSError:
            pass  # what wasn't written can't be any more


def _watch(process: "subprocess.Popen[bytes]", program: "weakref.ref[Program]") -> None:
    """Has the runs told at once if the program ends while they wait for something else. It doesn't
    hold the program: one that nobody has any more is hung up on, and so ends."""
    process.wait()
    there = program()
    if there is not None:
        there.tell_end()


def _understood(answer: bytes) -> Reply:
    try:
        return reply_of(answer[:-1])
    except (LookupError, TypeError, ValueError) as error:
        raise EngineError(f"the program says what no engine does: {answer[:60]!r}") from error


def refusal_in(replies: List[Reply]) -> Optional[Refused]:
    """Why the line was refused that these replies answer, where it was."""
    last = replies[-1]
    if isinstance(last, RefusedLine):
        return Refused(f"the engine refused a line: {last.why}")
    return None
